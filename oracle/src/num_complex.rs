//! A stand-in for the crate `num_complex`: what the copied files use of it, with exactly
//! document 01's meaning ('Meaning of functions whose bodies are elsewhere'). Each operation
//! rounds by itself; Rust never joins a product and a sum.

use std::ops::{Add, AddAssign, Div, Mul, MulAssign, Sub};

/// A complex number of two parts.
#[derive(Debug, Clone, Copy, PartialEq, Default)]
pub struct Complex<T> {
    /// The real part.
    pub re: T,
    /// The imaginary part.
    pub im: T,
}

/// A sample.
pub type Complex32 = Complex<f32>;

/// A wide number: DC level, coefficient, product sum.
pub type Complex64 = Complex<f64>;

impl<T> Complex<T> {
    /// The number of the parts `re` and `im`.
    pub const fn new(re: T, im: T) -> Self {
        Complex { re, im }
    }
}

macro_rules! operations {
    ($t:ty) => {
        impl Complex<$t> {
            /// The power: re·re + im·im.
            pub fn norm_sqr(self) -> $t {
                self.re * self.re + self.im * self.im
            }

            /// The conjugate.
            pub fn conj(self) -> Self {
                Complex::new(self.re, -self.im)
            }
        }

        impl Add for Complex<$t> {
            type Output = Self;
            fn add(self, b: Self) -> Self {
                Complex::new(self.re + b.re, self.im + b.im)
            }
        }

        impl Sub for Complex<$t> {
            type Output = Self;
            fn sub(self, b: Self) -> Self {
                Complex::new(self.re - b.re, self.im - b.im)
            }
        }

        /// The product: re = a.re·b.re − a.im·b.im, im = a.re·b.im + a.im·b.re.
        impl Mul for Complex<$t> {
            type Output = Self;
            fn mul(self, b: Self) -> Self {
                Complex::new(
                    self.re * b.re - self.im * b.im,
                    self.re * b.im + self.im * b.re,
                )
            }
        }

        /// The quotient: re = (a.re·b.re + a.im·b.im)/power(b),
        /// im = (a.im·b.re − a.re·b.im)/power(b).
        impl Div for Complex<$t> {
            type Output = Self;
            fn div(self, b: Self) -> Self {
                let power = b.norm_sqr();
                Complex::new(
                    (self.re * b.re + self.im * b.im) / power,
                    (self.im * b.re - self.re * b.im) / power,
                )
            }
        }

        impl Mul<$t> for Complex<$t> {
            type Output = Self;
            fn mul(self, r: $t) -> Self {
                Complex::new(self.re * r, self.im * r)
            }
        }

        impl Div<$t> for Complex<$t> {
            type Output = Self;
            fn div(self, r: $t) -> Self {
                Complex::new(self.re / r, self.im / r)
            }
        }

        impl AddAssign for Complex<$t> {
            fn add_assign(&mut self, b: Self) {
                *self = *self + b;
            }
        }

        impl MulAssign<$t> for Complex<$t> {
            fn mul_assign(&mut self, r: $t) {
                *self = *self * r;
            }
        }

        /// 1 + w = (1 + re, im).
        impl Add<Complex<$t>> for $t {
            type Output = Complex<$t>;
            fn add(self, w: Complex<$t>) -> Complex<$t> {
                Complex::new(self + w.re, w.im)
            }
        }

        /// 1 − w = (1 − re, 0 − im).
        impl Sub<Complex<$t>> for $t {
            type Output = Complex<$t>;
            fn sub(self, w: Complex<$t>) -> Complex<$t> {
                Complex::new(self - w.re, 0.0 - w.im)
            }
        }
    };
}

operations!(f32);
operations!(f64);

impl Complex64 {
    /// The f64 nearest the exact root of the rounded f64 power (`f64::sqrt` is correctly rounded).
    pub fn norm(self) -> f64 {
        self.norm_sqr().sqrt()
    }

    /// The number of size `r` at the angle `theta`, in radians.
    pub fn from_polar(r: f64, theta: f64) -> Self {
        Complex::new(r * cos(theta), r * sin(theta))
    }
}

/// The sine: u = t·t; s = 1, then for k = 8 down to 1, s = 1 − (u·s)/(2k(2k+1)); t·s.
pub fn sin(t: f64) -> f64 {
    let u = t * t;
    let mut s = 1.0;
    for k in (1..=8).rev() {
        let k2 = 2.0 * f64::from(k);
        s = 1.0 - (u * s) / (k2 * (k2 + 1.0));
    }
    t * s
}

/// The cosine: u = t·t; c = 1, then for k = 9 down to 1, c = 1 − (u·c)/((2k−1)2k).
pub fn cos(t: f64) -> f64 {
    let u = t * t;
    let mut c = 1.0;
    for k in (1..=9).rev() {
        let k2 = 2.0 * f64::from(k);
        c = 1.0 - (u * c) / ((k2 - 1.0) * k2);
    }
    c
}

/// Degrees to radians: times the f64 nearest 0.017453292519943295.
pub fn to_radians(degrees: f64) -> f64 {
    degrees * 0.017453292519943295
}

/// `10f64.powf(0.6)`: the f64 nearest 3.9810717055349725.
pub const TEN_TO_0_6: f64 = 3.9810717055349725;

#[cfg(test)]
mod tests {
    use super::*;

    /// A wide stream of numbers in a plain order.
    fn numbers() -> impl Iterator<Item = u64> {
        let mut x = 0x9e37_79b9_7f4a_7c15_u64;
        std::iter::repeat_with(move || {
            x ^= x << 13;
            x ^= x >> 7;
            x ^= x << 17;
            x
        })
    }

    #[test]
    fn product_and_quotient_of_small_whole_numbers() {
        let (a, b) = (Complex64::new(3.0, 5.0), Complex64::new(7.0, -2.0));
        assert_eq!(a * b, Complex::new(31.0, 29.0));
        assert_eq!((a * b) / b, a);
        assert_eq!(a.norm_sqr(), 34.0);
        assert_eq!(a.conj(), Complex::new(3.0, -5.0));
        assert_eq!(a * 2.0, Complex::new(6.0, 10.0));
        assert_eq!(a / 2.0, Complex::new(1.5, 2.5));
        assert_eq!(a + b, Complex::new(10.0, 3.0));
        assert_eq!(a - b, Complex::new(-4.0, 7.0));
        assert_eq!(Complex64::new(3.0, 4.0).norm(), 5.0);
    }

    #[test]
    fn each_operation_rounds() {
        // 1 + 2^-27 squared is 1 + 2^-26 + 2^-54: the last term is lost before the
        // difference, and a joined product and sum would keep it.
        let x = 1.0 + 2f64.powi(-27);
        let square = Complex64::new(x, 1.0) * Complex64::new(x, 1.0);
        assert_eq!(square.re, 2f64.powi(-26));
        assert_ne!(x.mul_add(x, -1.0), square.re);
        // In f32 too.
        let x = 1.0 + 2f32.powi(-13);
        let square = Complex32::new(x, 1.0) * Complex32::new(x, 1.0);
        assert_eq!(square.re, 2f32.powi(-12));
    }

    #[test]
    fn signs_of_zero() {
        let w = Complex64::new(1.0, 0.0);
        let less = 1.0 - w;
        assert_eq!((less.re.to_bits(), less.im.to_bits()), (0, 0));
        let more = 1.0 + Complex64::new(1.0, -0.0);
        assert_eq!(
            (more.re, more.im.to_bits()),
            (2.0, (-0.0f64).to_bits()),
            "the imaginary part is handed on"
        );
        let less = 1.0 - Complex64::new(1.0, -0.0);
        assert_eq!(less.im.to_bits(), 0, "0 − (−0) is 0");
    }

    /// The bits of a positive normal f64 as m·2^e with m below 2^53.
    fn whole(x: f64) -> (u128, i32) {
        let bits = x.to_bits();
        let m = (bits & ((1 << 52) - 1)) | (1 << 52);
        (u128::from(m), (bits >> 52) as i32 - 1075)
    }

    #[test]
    fn norm_is_the_f64_nearest_the_root_of_the_power() {
        for bits in numbers().take(20_000) {
            let re = f64::from(f32::from_bits(0x3000_0000 | (bits as u32 & 0x1fff_ffff)));
            let im = f64::from(f32::from_bits(
                0x3000_0000 | ((bits >> 32) as u32 & 0x1fff_ffff),
            ));
            let c = Complex64::new(re, im);
            let (p, r) = (c.norm_sqr(), c.norm());
            // (2m − 1)² · 2^(2e) ≤ 4p ≤ (2m + 1)² · 2^(2e), in whole numbers.
            let (pm, pe) = whole(p);
            let (rm, re) = whole(r);
            let shift = pe + 2 - 2 * re;
            assert!((0..=70).contains(&shift), "scaled alike");
            let p4 = pm << shift;
            assert!(
                (2 * rm - 1).pow(2) <= p4 && p4 <= (2 * rm + 1).pow(2),
                "{p}"
            );
        }
    }

    #[test]
    fn sine_and_cosine_up_to_45_degrees() {
        assert_eq!((sin(0.0), cos(0.0)), (0.0, 1.0));
        assert_eq!(sin(-0.0).to_bits(), (-0.0f64).to_bits());
        for i in -450..=450 {
            let t = to_radians(f64::from(i) / 10.0);
            assert!((sin(t) - t.sin()).abs() <= 2.3e-16, "{t}");
            assert!((cos(t) - t.cos()).abs() <= 2.3e-16, "{t}");
            assert_eq!(sin(-t).to_bits(), (-sin(t)).to_bits());
            assert_eq!(cos(-t).to_bits(), cos(t).to_bits());
        }
    }
}

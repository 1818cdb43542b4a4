//! **IQ.**

use super::{Calibration, Mode, Sample, Setting};

/// A coefficient.
#[derive(Debug, Clone, Copy)]
pub struct Coefficient {
    pub re: f64,
    pub im: f64,
}

/// "What the chain settles is one of off, observing, correcting with its coefficient, or
/// withheld."
#[derive(Debug, Clone, Copy)]
pub enum Settled {
    Off,
    Observing,
    Correcting(Coefficient),
    Withheld,
}

/// "u = t·t; s = 1, then for k = 8 down to 1, s = 1 − (u·s)/(2k(2k+1)); sine t·s."
pub fn sine(t: f64) -> f64 {
    let u = t * t;
    let mut s = 1.0;
    for k in (1..=8u32).rev() {
        s = 1.0 - (u * s) / f64::from(2 * k * (2 * k + 1));
    }
    t * s
}

/// "c = 1, then for k = 9 down to 1, c = 1 − (u·c)/((2k−1)2k); cosine c."
pub fn cosine(t: f64) -> f64 {
    let u = t * t;
    let mut c = 1.0;
    for k in (1..=9u32).rev() {
        c = 1.0 - (u * c) / f64::from((2 * k - 1) * 2 * k);
    }
    c
}

/// "quotient: re = (a.re·b.re + a.im·b.im)/power(b), im = (a.im·b.re − a.re·b.im)/power(b)"
fn quotient(a: Coefficient, b: Coefficient) -> Coefficient {
    Coefficient {
        re: (a.re * b.re + a.im * b.im) / power(b),
        im: (a.im * b.re - a.re * b.im) / power(b),
    }
}

/// "Coefficient: (1 − w)/(1 + w), w = gain × (cosine, sine) at −phase." The phase in radians is
/// the degrees times "the f64 nearest 0.017453292519943295".
pub fn coefficient(c: Calibration) -> Coefficient {
    let t = -c.phase * 0.017453292519943295;
    let (re, im) = (c.gain * cosine(t), c.gain * sine(t));
    quotient(
        Coefficient {
            re: 1.0 - re,
            im: 0.0 - im,
        },
        Coefficient { re: 1.0 + re, im },
    )
}

/// "power: re·re + im·im"
pub fn power(c: Coefficient) -> f64 {
    c.re * c.re + c.im * c.im
}

/// "an accepted coefficient: finite, power < 1 − 1e-12"
pub fn accepted(c: Coefficient) -> bool {
    c.re.is_finite() && c.im.is_finite() && power(c) < 1.0 - 1e-12
}

/// "gain in 0.5..2", both ends among them.
pub fn gain_fits(gain: f64) -> bool {
    (0.5..=2.0).contains(&gain)
}

/// "phase in −45..45", both ends among them.
pub fn phase_fits(phase: f64) -> bool {
    (-45.0..=45.0).contains(&phase)
}

/// "finite centre above 0"
pub fn centre_fits(centre: f64) -> bool {
    centre.is_finite() && centre > 0.0
}

/// "Correcting needs Apply, a calibration with gain in 0.5..2, phase in −45..45 and finite centre
/// above 0, a finite receiver centre above 0 within 1.0 Hz inclusive, and an accepted
/// coefficient".
pub fn settled(s: &Setting) -> Settled {
    match s.iq {
        Mode::Off => Settled::Off,
        Mode::Observe => Settled::Observing,
        Mode::Apply => match s.calibration {
            Some(c)
                if gain_fits(c.gain)
                    && phase_fits(c.phase)
                    && centre_fits(c.centre)
                    && centre_fits(s.centre)
                    && (s.centre - c.centre).abs() <= 1.0
                    && accepted(coefficient(c)) =>
            {
                Settled::Correcting(coefficient(c))
            }
            _ => Settled::Withheld,
        },
    }
}

/// coefficient × conj(m) in f64: "re = a.re·b.re − a.im·b.im, im = a.re·b.im + a.im·b.re"
fn times_conj(a: Coefficient, m: Sample) -> (f64, f64) {
    let (re, im) = (f64::from(m.re), -f64::from(m.im));
    (a.re * re - a.im * im, a.re * im + a.im * re)
}

/// "y = m − coefficient × conj(m) in f64, rounded once."
pub fn corrected(c: Coefficient, m: Sample) -> Sample {
    let (re, im) = times_conj(c, m);
    Sample {
        re: (f64::from(m.re) - re) as f32,
        im: (f64::from(m.im) - im) as f32,
    }
}

/// "IQ undo: (y + coefficient·conj y)/(1 − power)."
pub fn undone(c: Coefficient, y: Sample) -> Sample {
    let (re, im) = times_conj(c, y);
    let rest = 1.0 - power(c);
    Sample {
        re: ((f64::from(y.re) + re) / rest) as f32,
        im: ((f64::from(y.im) + im) / rest) as f32,
    }
}

//! What goes through the chain: noise about an offset, with clicks.

use oracle::num_complex::Complex32;
use oracle::random::Random;

// from -1 to 1
fn unit(r: &mut Random) -> f32 {
    (r.next() >> 40) as f32 / (1u64 << 23) as f32 - 1.0
}

fn noise(r: &mut Random) -> Complex32 {
    Complex32::new(0.1 * unit(r) + 0.05, 0.1 * unit(r) - 0.03)
}

fn click(r: &mut Random) -> Complex32 {
    Complex32::new(6.0 + unit(r), -6.0 + unit(r))
}

/// Noise, an offset, and one click in so many samples.
pub fn clicks(samples: usize, every: u64) -> Vec<Complex32> {
    let mut r = Random(0x9e37_79b9_7f4a_7c15);
    (0..samples)
        .map(|_| {
            if r.next() % every == 0 {
                click(&mut r)
            } else {
                noise(&mut r)
            }
        })
        .collect()
}

/// The same a hundred times as loud, each part at least 2 from 0: the power is above 1 at every sample.
pub fn loud(samples: usize, every: u64) -> Vec<Complex32> {
    let far = |x: f32| x + if x < 0.0 { -2.0 } else { 2.0 };
    clicks(samples, every)
        .iter()
        .map(|x| Complex32::new(far(100.0 * x.re), far(100.0 * x.im)))
        .collect()
}

/// At this rate a block is 200 samples.
pub const DENSE_RATE: f64 = 200.0;

/// Fills the impulse stage's rings. Every second block has ten clicks, which are mended, and the next is uncertain; in the
/// first blocks five of the ten are six samples long, and are kept.
pub fn dense(samples: usize) -> Vec<Complex32> {
    let mut r = Random(0x0123_4567_89ab_cdef);
    let long = |k: usize| k / 200 < 120 && (k % 40) / 6 == 5;
    (0..samples)
        .map(|k| {
            if (k / 200) % 2 == 0 && (k % 20 == 10 || long(k)) {
                click(&mut r)
            } else {
                noise(&mut r)
            }
        })
        .collect()
}

/// Noise alone.
pub fn quiet(samples: usize) -> Vec<Complex32> {
    let mut r = Random(0xfedc_ba98_7654_3210);
    (0..samples).map(|_| noise(&mut r)).collect()
}

/// Noise with samples that are not usable, one in so many.
pub fn spoilt(samples: usize, every: u64) -> Vec<Complex32> {
    let mut r = Random(0x0fed_cba9_8765_4321);
    (0..samples)
        .map(|_| match r.next() % every {
            0 => Complex32::new(f32::NAN, 1.0),
            1 => Complex32::new(1.0, 1.0e18),
            _ => noise(&mut r),
        })
        .collect()
}

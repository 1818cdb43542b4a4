//! How close DC undo comes: an applying stage and the undo of all that it wrote, through the library. The original says
//! what the level was at each sample.

use oracle::condition::dc::DcBlocker;
use oracle::draw::*;
use oracle::num_complex::Complex64;
use oracle::rules::{Mode, Sample};
use oracle::sides::{c32, sample, setting, words};
use oracle::trace::machine::setting_words;
use vatgorge::*;

/// Document 02's bound, 2^-22.
const BOUND: f64 = 1.0 / (1 << 22) as f64;

/// What the signals met.
#[derive(Default)]
pub struct Closeness {
    signals: u64,
    samples: u64,
    /// Parts that the bound is about: at most 1 in size, as that part of the level is.
    parts: u64,
    /// Those whose bits did not come back.
    moved: u64,
    largest: f64,
}

/// Of four signals one of any kind, one with parts all over −1..1, and two with parts close to −1 or 1, which are the
/// farthest from a level close to the other.
fn signal(rng: &mut Rng) -> Vec<Sample> {
    let n = rng.from(1, 4000);
    let width = rng.pick(&[1.0, 0.5, 0.01, 1e-6]);
    let near_one = |rng: &mut Rng| rng.pick(&[1.0, -1.0]) * (1.0 - width * rng.unit());
    match rng.below(4) {
        0 => ground(rng, n),
        1 => (0..n).map(|_| clipped(rng.both(), rng.both())).collect(),
        _ => (0..n)
            .map(|_| clipped(near_one(rng), near_one(rng)))
            .collect(),
    }
}

/// What the stage writes, applying alone, in one call that releases all.
fn applied(fs: f64, xs: &[u64]) -> Result<Vec<u64>, String> {
    let s = setting(fs, Mode::Off, Mode::Apply, Mode::Off);
    let config: Config = setting_words(&s)[..].try_into().expect("thirteen words");
    let mut state = [0; STATE_WORDS];
    let (mut spans, mut repairs) = (vec![0; 24 * s.spans], vec![0; 6 * s.repairs]);
    let made = vg_make(
        &config,
        &mut state,
        &mut spans,
        &mut repairs,
        &mut vec![0.0; 4 * s.n],
    );
    let mut slice = xs.to_vec();
    let mut call = [0; CONDITION_WORDS];
    let number = vg_condition(&mut state, &mut slice, &mut spans, &mut repairs, &mut call);
    match (made, number, call[0] as usize == xs.len()) {
        (0, 0, true) => Ok(slice),
        _ => Err(format!("the stage answers {made} and {number}")),
    }
}

/// y and the level that the stage had, rounded to f32.
fn back(y: Sample, level: Complex64) -> Sample {
    Sample::new(
        (f64::from(y.re) + level.re) as f32,
        (f64::from(y.im) + level.im) as f32,
    )
}

impl Closeness {
    fn part(&mut self, x: f32, level: f64, z: f32) -> Result<(), String> {
        if x.abs() > 1.0 || level.abs() > 1.0 {
            return Ok(());
        }
        let error = (f64::from(x) - f64::from(z)).abs();
        self.parts += 1;
        self.moved += u64::from(x.to_bits() != z.to_bits());
        self.largest = self.largest.max(error);
        if error <= BOUND {
            Ok(())
        } else {
            Err(format!(
                "{x:e} with the level {level:e} comes back as {z:e}"
            ))
        }
    }

    /// What comes back.
    fn signal(&mut self, fs: f64, xs: &[Sample]) -> Result<Vec<u64>, String> {
        let ys = applied(fs, &words(xs))?;
        let (mut zs, mut place) = (vec![0; ys.len()], 0);
        match vg_undo_dc(&ys, fs, &mut zs, &mut place) {
            0 => (),
            number => return Err(format!("what the stage wrote is refused by {number}")),
        }
        let mut blocker = DcBlocker::new(fs);
        for (i, &x) in xs.iter().enumerate() {
            let level = blocker.level();
            let y = sample(blocker.process_sample(c32(x)));
            if y.word() != ys[i] {
                return Err(format!(
                    "sample {i} at {fs} Hz: the original writes another"
                ));
            }
            let z = back(y, level);
            if z.word() != zs[i] {
                return Err(format!("sample {i} at {fs} Hz: the undo has another level"));
            }
            self.part(x.re, level.re, z.re)?;
            self.part(x.im, level.im, z.im)?;
        }
        self.signals += 1;
        self.samples += xs.len() as u64;
        Ok(zs)
    }

    /// The closed case of crates/dc_bounds/proofs/laws/Cases.antt.
    fn closed_case(&mut self) -> Result<(), String> {
        let input = [0x3f80_0000, 0xbf00_0001].map(Sample::of_word);
        match &self.signal(48000.0, &input)?[..] {
            [0x3f80_0000, 0xbf00_0000] => Ok(()),
            zs => Err(format!("the closed case comes back as {zs:x?}")),
        }
    }

    pub fn say(&self) {
        println!(
            "DC undone: {} signals of {} samples",
            self.signals, self.samples
        );
        println!(
            "{} parts of at most 1, as that part of the level is; {} of them not bit for bit; the largest error is 2^{:.3}, {:.3} of 2^-22",
            self.parts,
            self.moved,
            self.largest.log2(),
            self.largest / BOUND
        );
    }
}

/// So many samples, or some more; the first difference, if there is one.
pub fn compare(seed: u64, samples: u64) -> Result<Closeness, String> {
    let rng = &mut Rng::new(seed);
    let mut met = Closeness::default();
    met.closed_case()?;
    while met.samples < samples {
        let fs = rate(rng);
        let xs = signal(rng);
        met.signal(fs, &xs)?;
    }
    Ok(met)
}

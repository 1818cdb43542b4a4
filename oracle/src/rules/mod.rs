//! The second reading: document 01's rules, written from that document's sentences, in files by its
//! headings. They are functions of the whole list of samples (and of the whole list of hops) and
//! of an index; nothing is carried from call to call. Where a document itself defines a value by
//! the one before it (DC level, a ring, a paused block), so do they. No code is shared with
//! [`crate::condition`] or [`crate::num_complex`]: all arithmetic is written out here.
//!
//! A quoted sentence in a comment is document 01's, or document 02's where it is named.

pub mod chain;
pub mod dc;
pub mod guard;
pub mod impulse;
pub mod iq;
pub mod log;
pub mod monitor;
pub mod refusals;
pub mod replay;

/// A sample, or a channel of a hop.
#[derive(Debug, Clone, Copy)]
pub struct Sample {
    pub re: f32,
    pub im: f32,
}

impl Sample {
    pub const ZERO: Sample = Sample { re: 0.0, im: 0.0 };

    pub fn new(re: f32, im: f32) -> Self {
        Sample { re, im }
    }

    /// "bits of re in the low half, im in the high"
    pub fn word(self) -> u64 {
        u64::from(self.re.to_bits()) | u64::from(self.im.to_bits()) << 32
    }

    /// The sample of a word.
    pub fn of_word(word: u64) -> Self {
        Sample {
            re: f32::from_bits(word as u32),
            im: f32::from_bits((word >> 32) as u32),
        }
    }
}

/// How a stage runs: "0 off, 1 observe, 2 apply".
#[derive(Debug, Clone, Copy, PartialEq, Eq)]
pub enum Mode {
    Off,
    Observe,
    Apply,
}

/// The edition of the pause rule (document 02, R-6): "A configuration names the edition by an enum
/// of these two."
#[derive(Debug, Clone, Copy, PartialEq, Eq)]
pub enum Edition {
    First,
    Second,
}

/// A calibration.
#[derive(Debug, Clone, Copy)]
pub struct Calibration {
    pub gain: f64,
    /// In degrees.
    pub phase: f64,
    pub centre: f64,
}

/// What making a chain takes.
#[derive(Debug, Clone)]
pub struct Setting {
    pub fs: f64,
    /// The receiver's centre.
    pub centre: f64,
    /// Channels of a hop.
    pub n: usize,
    pub impulse: Mode,
    pub dc: Mode,
    pub iq: Mode,
    pub edition: Edition,
    pub calibration: Option<Calibration>,
    /// Capacity of each of the twelve span rings.
    pub spans: usize,
    /// Capacity of the repair ring.
    pub repairs: usize,
}

impl Setting {
    /// All modes off: "all off answers nothing".
    pub fn is_off(&self) -> bool {
        [self.impulse, self.dc, self.iq] == [Mode::Off; 3]
    }

    /// "`observing` turns off into observe for impulse and DC only."
    pub fn observing(&self) -> Setting {
        let turned = |mode| {
            if mode == Mode::Off {
                Mode::Observe
            } else {
                mode
            }
        };
        Setting {
            impulse: turned(self.impulse),
            dc: turned(self.dc),
            ..self.clone()
        }
    }
}

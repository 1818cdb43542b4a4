//! The C library in Rust: safe functions over the same names. A fixed array stands for its pointer, a slice for its pointer
//! and length. What each takes, answers and leaves is said at it in `crates/vatgorge/src`.

/// The words of a state and of a configuration, and those lent for the values of a call, a hop, a span and the log.
pub const STATE_WORDS: usize = 172;
pub const CONFIG_WORDS: usize = 13;
pub const CONDITION_WORDS: usize = 2;
pub const HOP_WORDS: usize = 9;
pub const SPAN_WORDS: usize = 2;
pub const LOG_WORDS: usize = 63;

pub type State = [u64; STATE_WORDS];
pub type Config = [u64; CONFIG_WORDS];
pub type Call = [u64; CONDITION_WORDS];
pub type Hop = [u64; HOP_WORDS];
pub type Span = [u64; SPAN_WORDS];
pub type Log = [u64; LOG_WORDS];

/// The answer 'nothing'. Others are 0, accepted, and the documents' numbers.
pub const NOTHING: u64 = 100;

// A slice is a pointer and a length there.
mod c {
    use super::{Call, Config, Hop, Log, Span, State};
    type Words = *const u64;
    type Lent = *mut u64;
    type Floats = *mut f64;
    type Bytes = *const u8;
    type N = usize;
    extern "C" {
        pub fn vg_state_words() -> u64;
        pub fn vg_config_words() -> u64;
        pub fn vg_condition_words() -> u64;
        pub fn vg_hop_words() -> u64;
        pub fn vg_span_words() -> u64;
        pub fn vg_log_words() -> u64;
        pub fn vg_nothing() -> u64;
        pub fn vg_is_off(config: &Config) -> u64;
        pub fn vg_observing(config: &mut Config);
        pub fn vg_make(config: &Config, state: &mut State, s: Lent, sn: N, r: Lent, rn: N, m: Floats, mn: N) -> u64;
        pub fn vg_condition(state: &mut State, x: Lent, xn: N, s: Lent, sn: N, r: Lent, rn: N, out: &mut Call) -> u64;
        pub fn vg_hop(state: &mut State, x: Words, xn: N, start: u64, s: Lent, sn: N, m: Floats, mn: N, out: &mut Hop) -> u64;
        pub fn vg_log(state: &State, out: &mut Log);
        pub fn vg_span(state: &State, s: Words, sn: N, stage: u64, mark: u64, i: N, out: &mut Span) -> u64;
        pub fn vg_undo_repairs(state: &State, r: Words, rn: N, x: Lent, xn: N, first: u64) -> u64;
        pub fn vg_undo_dc(y: Words, yn: N, fs: f64, out: Lent, outn: N, place: &mut u64) -> u64;
        pub fn vg_undo_iq(x: Lent, xn: N, re: f64, im: f64, place: &mut u64) -> u64;
        pub fn vg_guard(x: Lent, xn: N) -> u64;
        pub fn vg_validate(gain: f64, phase: f64, centre: f64) -> u64;
        pub fn vg_header(bytes: Bytes, n: N, config: &mut Config) -> u64;
        pub fn vg_start(h: Bytes, hn: N, state: &mut State, s: Lent, sn: N, r: Lent, rn: N, m: Floats, mn: N) -> u64;
        pub fn vg_end(block: Bytes, n: N) -> u64;
    }
}

/// Whether the library has the sizes that are named above; all the others rest on that.
pub fn is_as_named() -> bool {
    let words = [STATE_WORDS, CONFIG_WORDS, CONDITION_WORDS, HOP_WORDS, SPAN_WORDS, LOG_WORDS].map(|n| n as u64);
    let said = unsafe { [c::vg_state_words(), c::vg_config_words(), c::vg_condition_words(), c::vg_hop_words(), c::vg_span_words(), c::vg_log_words()] };
    said == words && unsafe { c::vg_nothing() } == NOTHING
}

pub fn vg_is_off(config: &Config) -> u64 {
    unsafe { c::vg_is_off(config) }
}
pub fn vg_observing(config: &mut Config) {
    unsafe { c::vg_observing(config) }
}
pub fn vg_make(config: &Config, state: &mut State, spans: &mut [u64], repairs: &mut [u64], monitor: &mut [f64]) -> u64 {
    let (s, r, m) = (spans.len(), repairs.len(), monitor.len());
    unsafe { c::vg_make(config, state, spans.as_mut_ptr(), s, repairs.as_mut_ptr(), r, monitor.as_mut_ptr(), m) }
}

pub fn vg_condition(state: &mut State, samples: &mut [u64], spans: &mut [u64], repairs: &mut [u64], out: &mut Call) -> u64 {
    let (n, s, r) = (samples.len(), spans.len(), repairs.len());
    unsafe { c::vg_condition(state, samples.as_mut_ptr(), n, spans.as_mut_ptr(), s, repairs.as_mut_ptr(), r, out) }
}
pub fn vg_hop(state: &mut State, channels: &[u64], start: u64, spans: &mut [u64], monitor: &mut [f64], out: &mut Hop) -> u64 {
    let (n, s, m) = (channels.len(), spans.len(), monitor.len());
    unsafe { c::vg_hop(state, channels.as_ptr(), n, start, spans.as_mut_ptr(), s, monitor.as_mut_ptr(), m, out) }
}

pub fn vg_log(state: &State, out: &mut Log) {
    unsafe { c::vg_log(state, out) }
}
pub fn vg_span(state: &State, spans: &[u64], stage: u64, mark: u64, i: usize, out: &mut Span) -> u64 {
    unsafe { c::vg_span(state, spans.as_ptr(), spans.len(), stage, mark, i, out) }
}

pub fn vg_undo_repairs(state: &State, repairs: &[u64], samples: &mut [u64], first: u64) -> u64 {
    unsafe { c::vg_undo_repairs(state, repairs.as_ptr(), repairs.len(), samples.as_mut_ptr(), samples.len(), first) }
}
pub fn vg_undo_dc(y: &[u64], fs: f64, out: &mut [u64], place: &mut u64) -> u64 {
    unsafe { c::vg_undo_dc(y.as_ptr(), y.len(), fs, out.as_mut_ptr(), out.len(), place) }
}
pub fn vg_undo_iq(samples: &mut [u64], re: f64, im: f64, place: &mut u64) -> u64 {
    unsafe { c::vg_undo_iq(samples.as_mut_ptr(), samples.len(), re, im, place) }
}
pub fn vg_guard(samples: &mut [u64]) -> u64 {
    unsafe { c::vg_guard(samples.as_mut_ptr(), samples.len()) }
}
pub fn vg_validate(gain: f64, phase: f64, centre: f64) -> u64 {
    unsafe { c::vg_validate(gain, phase, centre) }
}

pub fn vg_header(bytes: &[u8], config: &mut Config) -> u64 {
    unsafe { c::vg_header(bytes.as_ptr(), bytes.len(), config) }
}
pub fn vg_start(head: &[u8], state: &mut State, spans: &mut [u64], repairs: &mut [u64], monitor: &mut [f64]) -> u64 {
    let (h, s, r, m) = (head.len(), spans.len(), repairs.len(), monitor.len());
    unsafe { c::vg_start(head.as_ptr(), h, state, spans.as_mut_ptr(), s, repairs.as_mut_ptr(), r, monitor.as_mut_ptr(), m) }
}
pub fn vg_end(block: &[u8]) -> u64 {
    unsafe { c::vg_end(block.as_ptr(), block.len()) }
}

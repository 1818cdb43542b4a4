//! A recording's header, start and end, through the library and by the second reading.

use oracle::draw::*;
use oracle::rules::refusals::{self, Answer};
use oracle::rules::replay::{broken, header, HEADER, N, REPAIRS, SAMPLE, SPANS};
use oracle::trace::machine::setting_words;
use vatgorge::*;

const LENT: u64 = 0x5eed_5eed_5eed_5eed;

/// The numbers of recordings end below this.
const NUMBERS: usize = 18;

/// How often what was answered, by its number.
pub struct Recordings {
    headers: [u64; NUMBERS],
    starts: [u64; NUMBERS],
    ends: [u64; NUMBERS],
    nothing: u64,
}

/// A header, good mostly.
fn head(rng: &mut Rng) -> Vec<u8> {
    let s = some_setting(rng);
    let words = setting_words(&s);
    let mut bytes = b"CND".to_vec();
    bytes.extend((words[12] as u16).to_le_bytes());
    bytes.extend(words[..3].iter().map(|&mode| mode as u8));
    bytes.push(words[6] as u8);
    for k in [3, 4, 7, 8, 9] {
        bytes.extend(words[k].to_le_bytes());
    }
    match rng.below(9) {
        0 => bytes.truncate(rng.below(HEADER + 1)),
        1 => bytes[rng.below(9)] = rng.next() as u8,
        2 => bytes[rng.from(5, 8)] = rng.from(0, 3) as u8,
        3 => bytes[5..8].fill(0),
        4 => {
            let fs = rng.pick(&[1f64.next_down(), 1e7f64.next_up(), f64::NAN, 1.0, 1e7]);
            bytes[9..17].copy_from_slice(&fs.to_le_bytes());
        }
        5 => bytes.extend([0; 3]),
        6 => {
            let version = rng.pick(&[0u16, 1, 2, 3, 0x100, 0x101, 0x102, 0x200, 0x201, u16::MAX]);
            bytes[3..5].copy_from_slice(&version.to_le_bytes());
        }
        _ => (),
    }
    bytes
}

fn one_header(head: &[u8]) -> Result<u64, String> {
    let mut config = [LENT; CONFIG_WORDS];
    let number = vg_header(head, &mut config);
    let (wanted, words) = match header(head) {
        None => (14, vec![LENT; CONFIG_WORDS]),
        Some(s) => (0, setting_words(&s)),
    };
    if (number, &config[..]) == (wanted, &words[..]) {
        Ok(number)
    } else {
        Err(format!(
            "header {head:x?}: proved {number} {config:x?}, rules {wanted} {words:x?}"
        ))
    }
}

/// The number of a start, by the second reading: 14, then making.
fn start_number(head: &[u8], lent: [usize; 3]) -> u64 {
    let [spans, repairs, monitor] = lent;
    let Some(s) = header(head) else { return 14 };
    match refusals::making(&s, repairs, spans, monitor) {
        Answer::Nothing => NOTHING,
        Answer::Refused(r) => u64::from(r.number),
        Answer::Accepted => 0,
    }
}

/// A start leaves what a making of the same configuration does; where there is none, all stays.
fn one_start(head: &[u8], lent: [usize; 3]) -> Result<u64, String> {
    let [spans, repairs, monitor] = lent;
    let fresh = || {
        (
            [LENT; STATE_WORDS],
            vec![LENT; spans],
            vec![LENT; repairs],
            vec![1.5; monitor],
        )
    };
    let mut started = fresh();
    let (state, s, r, m) = &mut started;
    let number = vg_start(head, state, s, r, m);
    let wanted = start_number(head, lent);
    let mut made = fresh();
    if wanted == 0 {
        let s = header(head).expect("it is made");
        let config: Config = setting_words(&s)[..].try_into().expect("thirteen words");
        let (state, s, r, m) = &mut made;
        vg_make(&config, state, s, r, m);
    }
    if number == wanted && started == made {
        Ok(number)
    } else {
        Err(format!(
            "start {head:x?}, lent {lent:?}: proved {number}, rules {wanted}"
        ))
    }
}

fn one_end(block: &[u8]) -> Result<u64, String> {
    let number = vg_end(block);
    let wanted = if broken(block) { 17 } else { 0 };
    if number == wanted {
        Ok(number)
    } else {
        Err(format!("end {block:x?}: proved {number}, rules {wanted}"))
    }
}

/// Up to two samples, and behind them a broken one as often as not.
fn block(rng: &mut Rng) -> Vec<u8> {
    let tail = if rng.once_in(2) {
        rng.from(1, SAMPLE - 1)
    } else {
        0
    };
    (0..SAMPLE * rng.below(3) + tail)
        .map(|_| rng.next() as u8)
        .collect()
}

/// So many of each; the first difference, if there is one.
pub fn compare(seed: u64, many: u64) -> Result<Recordings, String> {
    let rng = &mut Rng::new(seed);
    let mut met = Recordings {
        headers: [0; NUMBERS],
        starts: [0; NUMBERS],
        ends: [0; NUMBERS],
        nothing: 0,
    };
    for _ in 0..many {
        let head = head(rng);
        met.headers[one_header(&head)? as usize] += 1;
        met.ends[one_end(&block(rng))? as usize] += 1;
        let mut lent = [24 * SPANS, 6 * REPAIRS, 4 * N];
        if rng.once_in(6) {
            let store = rng.below(3);
            lent[store] = rng.pick(&[0, lent[store] - 1, lent[store] + 1]);
        }
        match one_start(&head, lent)? {
            NOTHING => met.nothing += 1,
            number => met.starts[number as usize] += 1,
        }
    }
    Ok(met)
}

impl Recordings {
    pub fn say(&self) {
        let [h, s, e] = [&self.headers, &self.starts, &self.ends];
        println!("{} headers read, 14: {}", h[0], h[14]);
        println!(
            "{} starts made, {} by nothing, refused by 1: {}, 4: {}, 14: {}",
            s[0], self.nothing, s[1], s[4], s[14]
        );
        println!("{} whole ends, 17: {}", e[0], e[17]);
    }
}

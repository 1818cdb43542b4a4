//! Operations and answers of a trace in words for a reader, and where two answers differ.

use super::*;

const NAMES: [&str; 15] = [
    "none", "make", "config", "call", "hop", "log", "state", "stores", "span", "undo", "DC undo",
    "IQ undo", "guard", "validate", "write",
];

const ARGUMENTS: [&[&str]; 15] = [
    &[],
    &["lent spans", "lent repairs", "lent monitor words"],
    &[],
    &[
        "lent spans",
        "lent repairs",
        "places in front",
        "as if seen",
    ],
    &["start", "lent spans", "lent monitor words"],
    &[],
    &[],
    &["span words", "repair words", "monitor words"],
    &["stage", "mark", "number", "lent spans"],
    &["first", "lent repairs"],
    &["rate", "output"],
    &["re", "im"],
    &[],
    &["gain", "phase", "centre"],
    &["store", "place", "word"],
];

const CONFIGURATION: [&str; 13] = [
    "impulse",
    "dc",
    "iq",
    "fs",
    "centre",
    "n",
    "calibrated",
    "gain",
    "phase",
    "calibrated centre",
    "spans",
    "repairs",
    "edition",
];

const EVIDENCE: [&str; 7] = [
    "start",
    "end",
    "suspected",
    "coherence",
    "floor",
    "strongest",
    "mirror",
];

/// Words that are the bits of an f64.
fn is_float(name: &str) -> bool {
    let floats = [
        "fs",
        "centre",
        "gain",
        "phase",
        "calibrated centre",
        "rate",
        "re",
        "im",
        "coherence",
        "floor",
        "strongest",
        "mirror",
        "DC level re",
        "DC level im",
        "coefficient re",
        "coefficient im",
        "DC weight",
    ];
    floats.contains(&name) || name.starts_with("monitor word ")
}

fn value(name: &str, word: u64) -> String {
    if is_float(name) {
        format!("{} ({word:#x})", f64::from_bits(word))
    } else if name == "places in front" && word == AS_HELD {
        "as held".to_string()
    } else if word < 1 << 53 {
        format!("{word}")
    } else {
        format!("{word:#x}")
    }
}

/// A sample's two parts and its word.
fn sample(word: u64) -> String {
    let part = |bits: u64| f32::from_bits(bits as u32);
    format!("({:e}, {:e}) {word:#018x}", part(word), part(word >> 32))
}

fn name_of(op: u64) -> usize {
    if op < NAMES.len() as u64 {
        op as usize
    } else {
        0
    }
}

/// One operation: a line, and its words.
pub fn operation(o: &Operation) -> String {
    let at = name_of(o.op);
    let mut text = NAMES[at].to_string();
    for (name, &word) in ARGUMENTS[at].iter().zip(&o.args) {
        text += &format!(", {name} {}", value(name, word));
    }
    if o.op == MAKE || o.op == CONFIG {
        for (name, &word) in CONFIGURATION.iter().zip(&o.words) {
            text += &format!(", {name} {}", value(name, word));
        }
        return text;
    }
    if o.words.is_empty() {
        return text;
    }
    text += &format!(", {} samples:", o.words.len());
    let mut k = 0;
    for same in o.words.chunk_by(|a, b| a == b) {
        let places = match same.len() {
            1 => format!("{k}"),
            n => format!("{k} to {}", k + n - 1),
        };
        text += &format!("\n    {places}: {}", sample(same[0]));
        k += same.len();
    }
    text
}

/// The name of an answer's word `i`, its front not counted.
fn word_name(op: u64, front: &[u64; FRONT], i: usize) -> String {
    let log = |i: usize| match i {
        0 => "seen".to_string(),
        1 => "released".to_string(),
        2 => "held".to_string(),
        3..=50 => {
            let part = ["count", "head", "length", "dropped"][(i - 3) % 4];
            format!("ring {} {part}", (i - 3) / 4)
        }
        51 => "dropped in all".to_string(),
        52..=54 => format!("repair ring {}", ["head", "length", "dropped"][i - 52]),
        55 => "long runs".to_string(),
        _ => [
            "DC level there",
            "DC level re",
            "DC level im",
            "clamped",
            "iq",
            "coefficient re",
            "coefficient im",
        ]
        .get(i - 56)
        .unwrap_or(&"?")
        .to_string(),
    };
    let state = |i: usize| {
        let names = [
            "fs",
            "n",
            "spans",
            "repairs",
            "impulse runs",
            "dc",
            "iq",
            "apply",
            "edition",
            "block length",
            "received",
            "open run",
            "its start",
            "its length",
            "it is paused",
            "left there",
            "left",
            "block",
            "flagged",
            "paused",
            "DC weight",
            "DC updates",
            "DC level re",
            "DC level im",
            "window begun",
            "window first",
            "window end",
        ];
        match i {
            _ if i < 27 => names[i].to_string(),
            27..=59 => format!("power {} of the window", i - 27),
            60..=92 => format!("sorted power {}", i - 60),
            _ => format!("pending sample {}", i - 93),
        }
    };
    let stores = |i: usize| {
        let (a, b) = (front[3] as usize, front[4] as usize);
        if i < a {
            format!("span word {i}")
        } else if i < a + b {
            format!("repair word {}", i - a)
        } else {
            format!("monitor word {}", i - a - b)
        }
    };
    match op {
        CONFIG => CONFIGURATION[i.min(12)].to_string(),
        HOP => EVIDENCE[i.min(6)].to_string(),
        LOG => log(i),
        STATE => state(i),
        STORES if front[7] != 3 => stores(i),
        STORES => "digest".to_string(),
        CALL if i + 1 == front[7] as usize => "clamped".to_string(),
        _ => format!("place {i}"),
    }
}

/// An answer's front, as a line.
pub fn front(a: &Answer) -> String {
    let [op, number, value, p, q, r, s, m] = a.front;
    format!(
        "{}: number {number}, value {value}, {p} {q} {r} {s}, {m} words",
        NAMES[name_of(op)]
    )
}

/// Where two answers differ: at most eight lines.
pub fn difference(proved: &Answer, rust: &Answer) -> String {
    let mut lines = Vec::new();
    if proved.front != rust.front {
        lines.push(format!("proved {}", front(proved)));
        lines.push(format!("rust   {}", front(rust)));
    }
    let op = rust.front[0];
    for (i, (a, b)) in proved.words.iter().zip(&rust.words).enumerate() {
        if a != b && lines.len() < 8 {
            let name = word_name(op, &rust.front, i);
            let (a, b) = if name.starts_with("place ") && rust.front[7] != 1 {
                (sample(*a), sample(*b))
            } else {
                (value(&name, *a), value(&name, *b))
            };
            lines.push(format!("{name}: proved {a}, rust {b}"));
        }
    }
    lines.join("\n")
}

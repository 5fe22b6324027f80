//! The console's words: forms of the commands, refusals, records, examples, the digest.

use crate::catalogue::{Fault, Place};
use crate::desk::{Desk, Lent};
use crate::record::{Record, State, NONE};

/// Each command's form, "just as the first column has it"; the first word is the command.
pub const FORMS: [&str; 36] = [
    "open",
    "enter SEAT",
    "leave SEAT",
    "choose SEAT FEATURE OPTION",
    "relax SEAT FEATURE",
    "options SEAT FEATURE",
    "alternatives SEAT FEATURE",
    "example SEAT FEATURE OPTION",
    "ran-into SEAT",
    "turns TURNS",
    "work SEAT",
    "trolley",
    "sizes SIZE ...",
    "rules NUMBER ...",
    "more NUMBER ...",
    "board LENGTH BYTE",
    "set-byte PLACE BYTE",
    "set-next SEAT",
    "set-closed SEAT",
    "set-ready SEAT",
    "set-work SEAT FEATURE OPTION DEPTH NEXT",
    "set-choice SEAT FEATURE OPTION",
    "set-mask SEAT FEATURE MASK",
    "set-alternatives SEAT FEATURE MASK",
    "set-trial SEAT FEATURE OPTION",
    "set-rule SEAT RULE",
    "seat SEAT",
    "desk",
    "share SEAT",
    "list SEAT",
    "catalogue",
    "numbers",
    "digest",
    "help",
    "quit",
    "exit",
];

/// The desk's calls, those that are counted; `work` counts as one, whatever it asks for.
pub const CALLS: [&str; 11] = [
    "open", "enter", "leave", "choose", "relax", "options", "alternatives", "example", "ran-into", "turns", "work",
];

pub fn form_of(word: &str) -> Option<&'static str> {
    FORMS
        .iter()
        .find(|form| form.split(' ').next() == Some(word) && !word.is_empty())
        .copied()
}

/// What a refusal's words speak of: lengths and the numbers that the line gave.
#[derive(Clone, Copy, Default)]
pub struct Spoken {
    pub board: usize,
    pub features: usize,
    pub numbers: usize,
    pub seat: u32,
    pub feature: u32,
    pub option: u32,
}

impl Spoken {
    pub fn of(board: &[u8], lent: Lent, n: &[u32]) -> Spoken {
        Spoken {
            board: board.len(),
            features: lent.sizes.len(),
            numbers: lent.list.len(),
            seat: n.first().copied().unwrap_or(0),
            feature: n.get(1).copied().unwrap_or(0),
            option: n.get(2).copied().unwrap_or(0),
        }
    }
}

/// Writes one line of the transcript.
pub fn say(out: &mut Vec<u8>, text: &str) {
    out.extend(text.as_bytes());
    out.push(b'\n');
}

pub fn refusal(number: u16, spoken: Spoken) -> String {
    format!("refused {}: {}", number, reason(number, spoken))
}

/// The words of a refusal, which are those of a fault too.
fn reason(number: u16, spoken: Spoken) -> String {
    let Spoken { board, features, numbers, seat, feature, option } = spoken;
    match number {
        1 => format!("the board has {} bytes, not 32768", board),
        10 => format!("the catalogue has {} features, not 1 to 16", features),
        11 => "a size is 0 or above 16".to_string(),
        12 => format!("the rule list has {} numbers, above 8192", numbers),
        13 => "numbers remain after 64 rules".to_string(),
        14 => "the rule list ends within a rule".to_string(),
        15 => "the arity of a rule is 0 or above 6".to_string(),
        16 => "a rule names a feature that is not in the catalogue".to_string(),
        17 => "a rule names a feature twice".to_string(),
        18 => "a row has an option that is not below its feature's size".to_string(),
        20 => "the desk does not fit the catalogue".to_string(),
        30 => format!("there is no seat {}", seat),
        31 => format!("seat {} is closed", seat),
        32 => format!("seat {} is open", seat),
        33 => format!("seat {} is at work", seat),
        34 => format!("there is no feature {}", feature),
        35 => format!("feature {} has no option {}", feature, option),
        36 => format!("feature {} has a choice", feature),
        37 => format!("option {} of feature {} is not left", option, feature),
        38 => format!("feature {} has no choice", feature),
        other => format!("a number that the table lacks, {}", other),
    }
}

/// "`fault `, its number, where it was met, `: ` and the words of that refusal".
pub fn fault(fault: Fault, lent: Lent) -> String {
    let place = match fault.place {
        Place::Nowhere => String::new(),
        Place::Feature(feature) => format!(" in feature {}", feature),
        Place::Rule(rule) => format!(" in rule {}", rule),
        Place::Row(rule, row) => format!(" in rule {}, row {}", rule, row),
    };
    let reason = reason(fault.number, Spoken::of(&[], lent, &[]));
    format!("fault {}{}: {}", fault.number, place, reason)
}

/// "One is written `1 number` …, any other count, 0 too, with the s."
pub fn counted(count: usize, what: &str) -> String {
    format!("{} {}{}", count, what, if count == 1 { "" } else { "s" })
}

/// Of a seat's record in which no feature has an option left.
pub const NO_PRODUCT: &str = "no product satisfies these rules";

/// Options or bytes "in decimal, `-` for 255", a blank before each.
pub fn entries(bytes: &[u8]) -> String {
    let mut text = String::new();
    for &byte in bytes {
        text.push(' ');
        if byte == NONE {
            text.push('-');
        } else {
            text.push_str(&byte.to_string());
        }
    }
    text
}

/// "the bits of the mask, rising", a blank before each.
pub fn bits(mask: u16) -> String {
    (0..16).filter(|option| mask & (1 << option) != 0).map(|option| format!(" {}", option)).collect()
}

/// The answer of `options` (`what` is "left") and of `alternatives`.
pub fn mask_and_count(feature: u32, what: &str, mask: u16, count: u32) -> String {
    let colon = if mask != 0 { ":" } else { "" };
    format!("feature {}: {} {}{}{}", feature, count, what, colon, bits(mask))
}

/// The answer of `ran-into`.
pub fn ran_into(seat: u32, rule: u8) -> String {
    if rule == NONE {
        format!("seat {} has run into no rule", seat)
    } else {
        format!("seat {} last ran into rule {}", seat, rule)
    }
}

pub fn turned(made: u32, at_work: bool) -> String {
    let seats = if at_work { "a seat" } else { "no seat" };
    format!("{} turns made, {} is at work", made, seats)
}

/// What would follow a refusal if numbers came with it that are not 0, a seat at work, or a rule.
pub fn beside(anything: bool, answer: String) -> String {
    if anything {
        format!("; {}", answer)
    } else {
        String::new()
    }
}

pub fn seat(number: usize, record: &Record) -> String {
    let state = match record.state {
        State::Closed => "closed".to_string(),
        State::Ready => "ready".to_string(),
        State::AtWork { i, a, j, v } => {
            format!("at work at feature {} option {} depth {} next {}", i, a, j, v)
        }
    };
    let numbers = |masks: &[u16; 16]| masks.iter().map(|mask| format!(" {}", mask)).collect::<String>();
    format!(
        "seat {}: {}; choices{}; masks{}; alternatives{}; trial{}; rule{}",
        number,
        state,
        entries(&record.choices),
        numbers(&record.masks),
        numbers(&record.alternatives),
        entries(&record.trial),
        entries(&[record.rule])
    )
}

pub fn at_work(desk: &Desk) -> String {
    let mut text = "at work:".to_string();
    if !desk.any_at_work() {
        text.push_str(" none");
    }
    for (number, record) in desk.seats.iter().enumerate() {
        if record.at_work() {
            text.push_str(&format!(" {}", number));
        }
    }
    text
}

/// "Over h, 64 bits, at first 0, for each byte b, all modulo 2^64".
pub fn digest(desk: &Desk, board: &[u8]) -> u64 {
    let mut bytes: Vec<u8> = Vec::with_capacity(board.len() + 900);
    for record in &desk.seats {
        match record.state {
            State::Closed => bytes.extend([0, 0, 0, 0, 0]),
            State::Ready => bytes.extend([1, 0, 0, 0, 0]),
            State::AtWork { i, a, j, v } => bytes.extend([2, i, a, j, v]),
        }
        bytes.extend(record.choices);
        for mask in record.masks.iter().chain(&record.alternatives) {
            bytes.extend(mask.to_le_bytes());
        }
        bytes.extend(record.trial);
        bytes.push(record.rule);
    }
    bytes.push(desk.next);
    bytes.extend(board);
    let mut h: u64 = 0;
    for byte in bytes {
        h = h.wrapping_add(u64::from(byte) + 1);
        h = h.wrapping_add(h << 10);
        h ^= h >> 6;
    }
    h
}

//! One step of the written search, rules 2 to 5, on whatever record number 20 lets through. By R-6
//! "step rule 1 goes": every pair is searched.

use crate::catalogue::{Catalogue, FEATURES};
use crate::record::{Record, State, EXAMPLE, NONE};
use std::ops::Range;

/// "For one pair the candidates at feature j are: a alone if j = i; else the choice in force alone;
/// else all options, rising." So at a feature i chosen otherwise "that one choice" is "set aside".
fn candidates(catalogue: &Catalogue, record: &Record, i: u8, a: u8, j: u8) -> Range<u8> {
    let choice = record.choices[usize::from(j)];
    if j == i {
        a..a + 1
    } else if choice != NONE {
        choice..choice + 1
    } else {
        0..catalogue.sizes[usize::from(j)]
    }
}

/// The least candidate at j; there always is one.
fn first(catalogue: &Catalogue, record: &Record, i: u8, a: u8, j: u8) -> u8 {
    candidates(catalogue, record, i, a, j).start
}

/// The least candidate at j that is greater than `option` — by value, also when `option` itself is
/// no candidate.
fn greater(catalogue: &Catalogue, record: &Record, i: u8, a: u8, j: u8, option: u8) -> Option<u8> {
    candidates(catalogue, record, i, a, j).find(|&candidate| candidate > option)
}

/// Posts a job: the masks are emptied, and the job starts "at pair (0, 0)". Of the alternatives "the
/// option in force always counts; its bit is set at posting". R-1: "255 for none, at posting".
pub fn post(catalogue: &Catalogue, record: &mut Record) {
    record.masks = [0; 16];
    record.alternatives = [0; 16];
    for (alternatives, &choice) in record.alternatives.iter_mut().zip(&record.choices) {
        if choice != NONE {
            *alternatives = 1 << choice;
        }
    }
    record.rule = NONE;
    start_pair(catalogue, record, 0, 0);
}

/// "Each pair starts at depth 0 with the first candidate there." "In other states the trial is all
/// 255", and so it is at depth 0.
fn start_pair(catalogue: &Catalogue, record: &mut Record, i: u8, a: u8) {
    record.trial = [NONE; 16];
    let v = first(catalogue, record, i, a, 0);
    record.state = State::AtWork { i, a, j: 0, v };
}

/// "Ending a pair and starting the next belong to the same step. After the last pair the seat is
/// ready." R-1: no rule "when ready"; from pair to pair it stays.
fn end_pair(catalogue: &Catalogue, record: &mut Record, i: u8, a: u8) {
    if a + 1 < catalogue.sizes[usize::from(i)] {
        start_pair(catalogue, record, i, a + 1);
    } else if usize::from(i) + 1 < catalogue.features() {
        start_pair(catalogue, record, i + 1, 0);
    } else {
        record.trial = [NONE; 16];
        record.rule = NONE;
        record.state = State::Ready;
    }
}

/// The rules of this depth that the build breaks, rising, by their numbers in the whole rule list.
fn broken(catalogue: &Catalogue, depth: usize, build: &[u8; FEATURES]) -> Vec<usize> {
    let tested = catalogue.ending_at[depth].iter().copied();
    tested.filter(|&rule| !catalogue.rules[rule].satisfied_by(build)).collect()
}

/// One step of a seat at work. `share` is the seat's own 4,096 bytes. Answered, for the tally only:
/// how many rules it broke.
pub fn step(catalogue: &Catalogue, record: &mut Record, share: &mut [u8]) -> usize {
    let (i, a, j, v) = match record.state {
        State::AtWork { i, a, j, v } => (i, a, j, v),
        State::Closed | State::Ready => return 0,
    };
    let (feature, depth) = (usize::from(i), usize::from(j));

    // 2. "v is placed at j and tested against each rule whose highest-numbered feature is j." Placed
    //    even if it is no candidate.
    let mut build = record.trial;
    build[depth] = v;
    let rules = broken(catalogue, depth, &build);
    let passed = rules.is_empty();
    // the test names "the lowest-numbered rule it broke", and the record keeps it; a step that
    // makes the seat ready, below, drops it again.
    if let Some(&lowest) = rules.first() {
        record.rule = lowest as u8;
    }

    if passed && depth + 1 == catalogue.features() {
        if record.chosen_otherwise(feature, a) {
            // "A pair at a feature chosen otherwise … sets a bit in this mask, gets no example".
            record.alternatives[feature] |= 1 << a;
        } else {
            // 3. "the build is written as the example, bit a is set in mask i, the pair ends."
            let place = feature * 256 + usize::from(a) * EXAMPLE;
            share[place..place + EXAMPLE].copy_from_slice(&build);
            record.masks[feature] |= 1 << a;
        }
        end_pair(catalogue, record, i, a);
    } else if passed {
        // 4. "depth j+1, its first candidate next."
        record.trial = build;
        let v = first(catalogue, record, i, a, j + 1);
        record.state = State::AtWork { i, a, j: j + 1, v };
    } else if let Some(v) = greater(catalogue, record, i, a, j, v) {
        // 5. "the next greater candidate at j"
        record.state = State::AtWork { i, a, j, v };
    } else {
        back(catalogue, record, i, a, j);
    }
    rules.len()
}

/// Rule 5: "if there is none, back to the nearest earlier depth that has one greater than the option
/// placed there. If none has, the pair ends without an example."
fn back(catalogue: &Catalogue, record: &mut Record, i: u8, a: u8, j: u8) {
    for earlier in (0..j).rev() {
        let placed = record.trial[usize::from(earlier)];
        if let Some(v) = greater(catalogue, record, i, a, earlier, placed) {
            // "entries from j on are 255"
            for entry in usize::from(earlier)..16 {
                record.trial[entry] = NONE;
            }
            record.state = State::AtWork { i, a, j: earlier, v };
            return;
        }
    }
    end_pair(catalogue, record, i, a);
}

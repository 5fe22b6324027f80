//! Sections on made-up desks: all that number 20 lets through, also what no search would reach, and
//! both sides of each of its clauses.

use super::author::Author;
use super::catalogues;
use crate::desk::{Desk, SEATS};
use crate::record::{Record, State, NONE};

/// Desks within the limits of 20, stepped on and called.
pub fn within_limits(author: &mut Author) {
    begin(author);
    for _ in 0..author.random.between(2, 8) {
        let wanted = fitting_desk(author);
        author.dress(&wanted);
        dirty_bytes(author);
        author.line("digest");
        for _ in 0..author.random.between(2, 12) {
            next_call(author);
        }
        if author.random.once_in(8) {
            let seat = author.random.below(SEATS);
            edge_of_rule(author, seat);
            author.call("turns 1");
        }
    }
}

/// Desks with one field at either side of a clause of 20.
pub fn at_limits(author: &mut Author) {
    begin(author);
    let wanted = fitting_desk(author);
    for _ in 0..author.random.between(5, 20) {
        author.dress(&wanted);
        let mut seat = author.random.below(SEATS);
        let chosen: Vec<usize> = (0..SEATS).filter(|&seat| has_choice(&wanted.seats[seat])).collect();
        if !chosen.is_empty() && author.random.once_in(2) {
            seat = author.random.pick(&chosen);
        }
        for _ in 0..author.random.pick(&[1, 1, 1, 2]) {
            edge(author, seat);
        }
        if author.random.once_in(3) {
            let seat = edge_of_rule(author, seat);
            author.call(format!("ran-into {}", seat));
        }
        author.line("digest");
        let other = if author.random.once_in(3) { author.random.below(SEATS) } else { seat };
        for _ in 0..author.random.between(1, 2) {
            author.any_call(other);
        }
    }
    // What comes next shall not be refused for this desk.
    author.dress(&Desk::fresh());
}

fn begin(author: &mut Author) {
    let draft = catalogues::any(&mut author.random);
    author.catalogue(&draft);
    author.board();
}

/// Bytes of the board that no search would have written there; some at the pair that a seat is at.
fn dirty_bytes(author: &mut Author) {
    for seat in 0..SEATS {
        if let State::AtWork { i, a, .. } = author.session.desk.seats[seat].state {
            if author.random.once_in(4) {
                let place = seat * 4096 + usize::from(i) * 256 + usize::from(a) * 16;
                let place = place + author.random.below(author.features());
                let byte = author.random.pick(&[0, 1, 2, 254]);
                author.line(format!("set-byte {} {}", place, byte));
            }
        }
    }
    for _ in 0..author.random.pick(&[0, 0, 0, 1, 5]) {
        let feature = author.random.below(author.features() + 1).min(15);
        let option = author.random.below(author.size(feature));
        let seat = author.random.below(SEATS);
        let place = seat * 4096 + feature * 256 + option * 16 + author.random.below(16);
        let byte = author.random.pick(&[0, 1, 2, 254, 255]);
        author.line(format!("set-byte {} {}", place, byte));
    }
}

fn fitting_desk(author: &mut Author) -> Desk {
    let mut desk = Desk::fresh();
    desk.next = author.random.below(SEATS) as u8;
    let busy = author.random.pick(&[1, 2, 3, 8]);
    for _ in 0..busy {
        let seat = author.random.below(SEATS);
        desk.seats[seat] = fitting_record(author);
    }
    desk
}

/// A record that 20 lets through: any choices, masks and alternatives, any place, any trial before
/// it, any rule. The option in force may lack its bit among the alternatives.
fn fitting_record(author: &mut Author) -> Record {
    let mut record = Record::closed();
    let features = author.features();
    let some_choices = author.random.pick(&[2, 4, 1000]);
    let some_masks = author.random.pick(&[1, 2, 1000]);
    for feature in 0..features {
        let size = author.size(feature);
        if author.random.once_in(some_choices) {
            let choice = author.random.below(size);
            record.choices[feature] = choice as u8;
            let (own, all) = (1 << choice, (1 << size) - 1);
            let any = author.random.below(1 << size);
            record.alternatives[feature] = author.random.pick(&[0, own, all, any, any | own, any & !own]) as u16;
        }
        if author.random.once_in(some_masks) {
            record.masks[feature] = author.random.below(1 << size) as u16;
        }
    }
    record.state = State::Ready;
    if !author.random.once_in(4) {
        let otherwise = pair_chosen_otherwise(author, &record);
        let i = otherwise.map_or(author.random.below(features), |(i, _)| i);
        let j = if author.random.once_in(2) { features - 1 } else { author.random.below(features) };
        for entry in 0..j {
            record.trial[entry] = author.random.below(author.size(entry)) as u8;
        }
        let choice = record.choices[i];
        let a = match otherwise {
            Some((_, a)) => a,
            None if choice != NONE && author.random.once_in(2) => choice,
            None => author.random.below(author.size(i)) as u8,
        };
        let v = author.random.below(author.size(j)) as u8;
        record.state = State::AtWork { i: i as u8, a, j: j as u8, v };
        record.rule = fitting_rule(author);
    }
    record
}

/// A rule that a seat at work may have run into, or none.
fn fitting_rule(author: &mut Author) -> u8 {
    let count = author.rules();
    if count == 0 || author.random.once_in(4) {
        return NONE;
    }
    let any = author.random.below(count);
    author.random.pick(&[0, count - 1, any, any]) as u8
}

fn has_choice(record: &Record) -> bool {
    record.choices.iter().any(|&choice| choice != NONE)
}

/// For half of the records with a choice that leaves another option: such a feature and option.
fn pair_chosen_otherwise(author: &mut Author, record: &Record) -> Option<(usize, u8)> {
    let mut pairs: Vec<(usize, u8)> = Vec::new();
    for feature in 0..author.features() {
        let options = 0..author.size(feature) as u8;
        pairs.extend(options.filter(|&a| record.chosen_otherwise(feature, a)).map(|a| (feature, a)));
    }
    if pairs.is_empty() || author.random.once_in(2) {
        return None;
    }
    Some(author.random.pick(&pairs))
}

/// Few steps at a time, so that the digest sees each.
fn next_call(author: &mut Author) {
    let seat = author.random.below(SEATS);
    let state = author.session.desk.seats[seat].state;
    match state {
        State::Ready if author.random.once_in(2) => {
            let feature = author.random.below(author.features());
            let option = author.random.below(author.size(feature));
            let chosen = author.chosen(seat).unwrap_or(feature);
            match author.random.pick(&["choose", "choose", "example", "example", "alternatives", "relax"]) {
                word @ ("choose" | "example") => {
                    author.call(format!("{} {} {} {}", word, seat, feature, option))
                }
                word => author.call(format!("{} {} {}", word, seat, chosen)),
            }
        }
        _ if author.random.once_in(6) => author.any_call(seat),
        _ if author.random.once_in(8) => {
            let seat = author.working().unwrap_or(seat);
            author.call(format!("ran-into {}", seat));
        }
        _ if author.random.once_in(12) && author.work(seat as u32) => {}
        _ => {
            let turns = author.random.pick(&[1, 1, 1, 1, 2, 3, 5, 8, 40]);
            author.call(format!("turns {}", turns));
        }
    }
}

/// One field set to a value at either side of a clause.
fn edge(author: &mut Author, seat: usize) {
    let text = match author.random.below(20) {
        0 => format!("set-next {}", author.random.pick(&[0, 6, 7, 8, 9, 16, 255])),
        kind @ 1..=4 => edge_of_feature(author, seat, kind),
        kind @ 5..=8 => edge_of_place(author, seat, kind),
        kind @ 9..=11 => edge_of_trial(author, seat, kind),
        12 => format!("set-closed {}", seat),
        kind @ 13..=18 => edge_of_alternatives(author, seat, kind),
        _ => format!("set-ready {}", seat),
    };
    author.line(text);
}

/// A feature of the catalogue, its size, and a feature that it lacks, if it lacks one.
fn known_and_missing(author: &mut Author) -> (usize, usize, usize) {
    let features = author.features();
    let known = author.random.below(features);
    let missing = if features < 16 { author.random.between(features, 15) } else { 15 };
    (known, author.size(known), missing)
}

fn edge_of_feature(author: &mut Author, seat: usize, kind: usize) -> String {
    let (known, size, missing) = known_and_missing(author);
    match kind {
        1 => {
            let option = author.random.pick(&[0, size - 1, size, size + 1, 16, 254, 255]);
            format!("set-choice {} {} {}", seat, known, option)
        }
        2 => {
            let option = author.random.pick(&[0, 1, 16, 254, 255]);
            format!("set-choice {} {} {}", seat, missing, option)
        }
        3 => {
            let mask = author.random.pick(&[(1 << size) - 1, 1 << size, 1 << (size - 1), 32_768, 65_535]);
            format!("set-mask {} {} {}", seat, known, mask & 65_535)
        }
        _ => {
            let mask = author.random.pick(&[0, 1, 256, 32_768, 65_535]);
            format!("set-mask {} {} {}", seat, missing, mask)
        }
    }
}

fn edge_of_place(author: &mut Author, seat: usize, kind: usize) -> String {
    let features = author.features();
    let (mut i, mut a, mut j, mut v) = place_of(author, seat);
    let (size_of_i, size_of_j) = (author.size(i), author.size(j));
    match kind {
        5 => i = author.random.pick(&[features - 1, features, 15, 16, 255]),
        6 => j = author.random.pick(&[0, j + 1, features - 1, features, 15, 16, 255]),
        7 => a = author.random.pick(&[size_of_i - 1, size_of_i, 16, 255]),
        _ => v = author.random.pick(&[size_of_j - 1, size_of_j, 16, 255]),
    }
    format!("set-work {} {} {} {} {}", seat, i, a, j, v)
}

fn edge_of_trial(author: &mut Author, seat: usize, kind: usize) -> String {
    let (_, _, j, _) = place_of(author, seat);
    let (entry, option) = match kind {
        9 => {
            let before = if j == 0 { 0 } else { author.random.below(j) };
            let size = author.size(before);
            (before, author.random.pick(&[size - 1, size, 254, 255]))
        }
        10 => (author.random.pick(&[j, j, (j + 1).min(15), 15]), author.random.pick(&[0, 254, 255])),
        _ => {
            let entry = if author.random.once_in(3) { 15 } else { author.random.below(16) };
            (entry, author.random.pick(&[0, 1, 254, 255]))
        }
    };
    format!("set-trial {} {} {}", seat, entry, option)
}

fn edge_of_alternatives(author: &mut Author, seat: usize, kind: usize) -> String {
    let (known, size, missing) = known_and_missing(author);
    // A feature that has a choice, where one has (a missing one may, by an earlier edge).
    let chosen = author.chosen(seat).unwrap_or(known);
    let size_of_chosen = author.size(chosen).max(1);
    let (feature, mask) = match kind {
        13 | 14 => {
            let size = size_of_chosen;
            let masks = [0, (1 << size) - 1, 1 << size, 1 << (size - 1), 32_768, 65_535];
            (chosen, author.random.pick(&masks))
        }
        15 | 16 => (known, author.random.pick(&[0, 1, 1 << (size - 1), 1 << size, 32_768])),
        17 => (missing, author.random.pick(&[0, 1, 256, 32_768, 65_535])),
        // Its alternatives stay when the choice goes, or becomes another.
        _ => {
            let option = author.random.pick(&[0, size_of_chosen - 1, 255, 255]);
            return format!("set-choice {} {} {}", seat, chosen, option);
        }
    };
    format!("set-alternatives {} {} {}", seat, feature, mask & 65_535)
}

/// A rule at either side of its clauses: in this seat, whatever its state is, or in one at work,
/// where there is one. Answered: the seat that has it.
fn edge_of_rule(author: &mut Author, seat: usize) -> usize {
    let working = author.working().unwrap_or(seat);
    let seat = if author.random.once_in(3) { seat } else { working };
    let count = author.rules();
    let below = count.saturating_sub(1);
    let rule = author.random.pick(&[0, 0, 1, below, below, below, count, count + 1, 63, 64, 254, 255, 255]);
    author.line(format!("set-rule {} {}", seat, rule));
    seat
}

/// The seat's place, or a place that fits: depth 0 with first options.
fn place_of(author: &mut Author, seat: usize) -> (usize, usize, usize, usize) {
    match author.session.desk.seats[seat].state {
        State::AtWork { i, a, j, v } if usize::from(i) < author.features() && usize::from(j) < author.features() => {
            (i.into(), a.into(), j.into(), v.into())
        }
        _ => {
            let i = author.random.below(author.features());
            (i, author.random.below(author.size(i)), 0, author.random.below(author.size(0)))
        }
    }
}

//! Sections that are runs: an accepted catalogue, open, and then calls alone.

use super::author::{Author, MANY};
use super::catalogues;
use crate::desk::SEATS;
use crate::record::{State, NONE};

/// A run on a small catalogue; now and then the catalogue changes midway, and then it is no run.
pub fn run(author: &mut Author) {
    let draft = catalogues::any(&mut author.random);
    begin(author, &draft);
    let calls = author.random.between(10, 160);
    let seats = some_seats(author);
    let changes = author.random.once_in(6);
    for call in 0..calls {
        if changes && call == calls / 2 {
            change(author);
        }
        next_call(author, &seats);
    }
}

/// A run on a large catalogue, with few and large turns.
pub fn large_run(author: &mut Author) {
    let draft = catalogues::large(&mut author.random);
    begin(author, &draft);
    let seats = some_seats(author);
    let calls = author.random.between(10, 50);
    for _ in 0..calls {
        next_call(author, &seats);
    }
}

/// Jobs of more turns than one call of turns makes: the last feature's rule has no row, or one that
/// the first options do not fit, so that the search goes through all that stands before it.
pub fn long_work(author: &mut Author) {
    let (features, size, busy) = author.random.pick(&[(8, 3, 1), (7, 3, 3), (5, 6, 2), (6, 4, 2)]);
    let last = features as u16 - 1;
    let rule = if author.random.once_in(2) { vec![1, 0, last] } else { vec![2, 1, 0, last, size - 1, 0] };
    let draft = catalogues::Draft { sizes: vec![size as u8; features], rules: vec![rule] };
    begin(author, &draft);
    let mut seats: Vec<usize> = (0..SEATS).collect();
    author.random.shuffle(&mut seats);
    for seat in &seats[..busy] {
        author.call(format!("enter {}", seat));
    }
    let turns = author.random.pick(&[0, 1, 1000, 23_000, 23_001]);
    author.call(format!("turns {}", turns));
    author.work_within(seats[0] as u32, MANY);
    let other = author.random.below(SEATS);
    author.work_within(other as u32, MANY);
    author.line(format!("list {}", seats[0]));
}

/// A run watched closely: few turns at a time, and after each a look at the rule last run into.
pub fn watched(author: &mut Author) {
    let draft = match author.random.below(3) {
        0 => catalogues::small(&mut author.random),
        _ => catalogues::many_rules(&mut author.random),
    };
    begin(author, &draft);
    let mut seats = some_seats(author);
    seats.truncate(3);
    for _ in 0..author.random.between(10, 60) {
        let seat = author.random.pick(&seats);
        match author.session.desk.seats[seat].state {
            State::AtWork { .. } if !author.random.once_in(30) => {
                let turns = author.random.pick(&[1, 1, 1, 2, 3, 5, 9, 30]);
                author.call(format!("turns {}", turns));
            }
            _ => next_call(author, &seats),
        }
        look_at_rule(author, seat);
    }
}

/// Looks that show the seat's rule; after each call the digest has shown it already.
fn look_at_rule(author: &mut Author, seat: usize) {
    match author.random.below(8) {
        0..=3 => author.line(format!("ran-into {}", seat)),
        4 | 5 => author.line(format!("seat {}", seat)),
        6 => author.line(format!("list {}", seat)),
        _ => {}
    }
}

/// The trolley as the paper has it, in the middle of other things.
pub fn trolley(author: &mut Author) {
    author.line("trolley");
    let seats = some_seats(author);
    for _ in 0..author.random.between(10, 80) {
        next_call(author, &seats);
    }
}

fn begin(author: &mut Author, draft: &catalogues::Draft) {
    author.catalogue(draft);
    author.board();
    author.call("open");
}

fn some_seats(author: &mut Author) -> Vec<usize> {
    let mut seats: Vec<usize> = (0..SEATS).collect();
    author.random.shuffle(&mut seats);
    let count = author.random.pick(&[1, 2, 3, 8, 8]);
    seats.truncate(count);
    seats
}

/// Another catalogue under the same desk: other rules, other sizes, or both.
fn change(author: &mut Author) {
    let mut draft = catalogues::small(&mut author.random);
    match author.random.below(3) {
        0 => author.line("rules"),
        1 => {
            // The same sizes, one of them a little different.
            draft.sizes = author.session.sizes.clone();
            draft.rules.clear();
            let place = author.random.below(draft.sizes.len());
            draft.sizes[place] = (draft.sizes[place] % 16) + 1;
            author.catalogue(&draft);
        }
        _ => author.catalogue(&draft),
    }
}

/// A call that makes sense in the seat's state, mostly.
fn next_call(author: &mut Author, seats: &[usize]) {
    let seat = author.random.pick(seats);
    if author.random.once_in(12) {
        let seat = if author.random.once_in(2) { seat } else { author.random.below(SEATS) };
        return author.any_call(seat);
    }
    match author.session.desk.seats[seat].state {
        State::Closed => author.call(format!("enter {}", seat)),
        State::AtWork { .. } => {
            if author.random.once_in(25) {
                author.call(format!("leave {}", seat));
            } else if author.random.once_in(15) {
                author.call(format!("ran-into {}", seat));
            } else if !author.random.once_in(12) || !author.work(seat as u32) {
                let turns = author.some_turns();
                author.call(format!("turns {}", turns));
            }
        }
        State::Ready => ready_call(author, seat),
    }
}

fn ready_call(author: &mut Author, seat: usize) {
    let features = author.features();
    let feature = author.random.below(features);
    let option = author.random.below(author.size(feature));
    let chosen = author.chosen(seat);
    let kind = match author.random.below(29) {
        // No choice yet: one is made instead.
        20..=24 if chosen.is_none() => 0,
        kind => kind,
    };
    match kind {
        0..=8 => {
            let (feature, option) = an_option_left(author, seat).unwrap_or((feature, option));
            author.call(format!("choose {} {} {}", seat, feature, option));
        }
        9..=12 => {
            let feature = chosen.unwrap_or(feature);
            author.call(format!("relax {} {}", seat, feature));
        }
        13 | 14 => author.call(format!("options {} {}", seat, feature)),
        15..=17 => author.call(format!("example {} {} {}", seat, feature, option)),
        18 => author.call(format!("leave {}", seat)),
        19 => author.call(format!("alternatives {} {}", seat, feature)),
        20..=24 => {
            let feature = chosen.unwrap_or(feature);
            author.call(format!("alternatives {} {}", seat, feature));
        }
        25 => {
            // 37 and 36: an alternative has no example, and its feature has a choice.
            let (feature, option) = author.alternative(seat).unwrap_or((feature, option));
            let word = author.random.pick(&["example", "choose"]);
            author.call(format!("{} {} {} {}", word, seat, feature, option));
        }
        26 => author.call(format!("work {}", seat)),
        27 => author.call(format!("ran-into {}", seat)),
        _ => author.call(format!("choose {} {} {}", seat, feature, option)),
    }
}

/// An option that is left of a feature that has no choice, where there is one.
fn an_option_left(author: &mut Author, seat: usize) -> Option<(usize, usize)> {
    let record = &author.session.desk.seats[seat];
    let mut left: Vec<(usize, usize)> = Vec::new();
    for feature in (0..16).filter(|&feature| record.choices[feature] == NONE) {
        let shown = (0..16).filter(|option| record.masks[feature] & (1 << option) != 0);
        left.extend(shown.map(|option| (feature, option)));
    }
    if left.is_empty() {
        return None;
    }
    Some(author.random.pick(&left))
}

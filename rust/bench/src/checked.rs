//! The second plain version: the same calls as the desk's. Board, catalogue and record are handed over at every call and
//! checked in the paper's order, and the rules tested at each feature are found anew. Nothing is allocated.

use crate::seat::{Place, Rules, Seat, State, BOARD, NONE, SHARE};
use crate::Catalogue;

#[derive(Clone, PartialEq, Eq, Debug)]
pub struct Desk {
    pub seats: [Seat; 8],
    pub next: usize,
}

/// The turns made, and whether a seat is still at work; or the refusal number, with desk and board as they came.
pub fn turns(
    desk: &mut Desk,
    board: &mut [u8],
    sizes: &[u8],
    rules: &[u16],
    w: u16,
) -> Result<(u16, bool), u8> {
    let board: &mut [u8; BOARD] = board.try_into().map_err(|_| 1)?;
    let rules = checked_desk(desk, sizes, rules)?;
    Ok(make_turns(desk, board, &rules, w))
}

/// What could replace the choice of feature i, as a mask, and how many options that are; or the refusal number.
pub fn alternatives(
    desk: &Desk,
    board: &[u8],
    sizes: &[u8],
    rules: &[u16],
    c: usize,
    i: usize,
) -> Result<(u16, u32), u8> {
    if board.len() != BOARD {
        return Err(1);
    }
    checked_desk(desk, sizes, rules)?;
    let seat = desk.seats.get(c).ok_or(30)?;
    match seat.state {
        State::Closed => return Err(31),
        State::AtWork(_) => return Err(33),
        State::Ready => {}
    }
    if sizes.len() <= i {
        return Err(34);
    }
    if seat.choices[i] == NONE {
        return Err(38);
    }
    let mask = seat.alternatives[i];
    Ok((mask, mask.count_ones()))
}

/// The rule that seat c last ran into, 255 for none; or the refusal number.
pub fn ran_into(
    desk: &Desk,
    board: &[u8],
    sizes: &[u8],
    rules: &[u16],
    c: usize,
) -> Result<u8, u8> {
    if board.len() != BOARD {
        return Err(1);
    }
    checked_desk(desk, sizes, rules)?;
    let seat = desk.seats.get(c).ok_or(30)?;
    match seat.state {
        State::Closed => Err(31),
        State::Ready | State::AtWork(_) => Ok(seat.broken),
    }
}

/// 10 to 20; else where the rules stand.
#[inline]
fn checked_desk<'a>(desk: &Desk, sizes: &'a [u8], list: &'a [u16]) -> Result<Found<'a>, u8> {
    let limits = checked_sizes(sizes)?;
    let rules = Found::in_list(sizes, &limits, list)?;
    if !fits(desk, &limits, rules.count) {
        return Err(20);
    }
    Ok(rules)
}

/// On a board, with rules and a desk that passed the checks.
fn make_turns(desk: &mut Desk, board: &mut [u8; BOARD], rules: &Found, w: u16) -> (u16, bool) {
    let mut working = seats_at_work(&desk.seats);
    for made in 0..w {
        if working == 0 {
            return (made, false);
        }
        let ahead = working.rotate_right(desk.next as u32).trailing_zeros();
        let c = (desk.next + ahead as usize) % 8;
        let seat = &mut desk.seats[c];
        if let State::AtWork(place) = seat.state {
            seat.step(place, rules, &mut board[c * SHARE..(c + 1) * SHARE]);
        }
        if seat.state == State::Ready {
            working &= !(1 << c);
        }
        desk.next = (c + 1) % 8;
    }
    (w, working != 0)
}

/// The bits of a byte, that of seat 0 lowest.
fn seats_at_work(seats: &[Seat; 8]) -> u8 {
    let bit = |c: usize| u8::from(matches!(seats[c].state, State::AtWork(_))) << c;
    (0..8).map(bit).sum()
}

/// 10 and 11; else the sizes, with 0 for a missing feature.
fn checked_sizes(sizes: &[u8]) -> Result<[u8; 16], u8> {
    if !(1..=16).contains(&sizes.len()) {
        return Err(10);
    }
    if !sizes.iter().all(|size| (1..=16).contains(size)) {
        return Err(11);
    }
    let mut limits = [0; 16];
    limits[..sizes.len()].copy_from_slice(sizes);
    Ok(limits)
}

/// Where the rules of a list without a fault stand.
struct Found<'a> {
    sizes: &'a [u8],
    rules: [&'a [u16]; 64], // each from its header on
    count: u8,              // of them
    tested_at: [u64; 16],   // for each feature, bit r for a rule r whose highest it is
}

impl<'a> Found<'a> {
    /// 12 to 18, the fault met first.
    fn in_list(sizes: &'a [u8], limits: &[u8; 16], list: &'a [u16]) -> Result<Found<'a>, u8> {
        if 8192 < list.len() {
            return Err(12);
        }
        let mut rules: [&[u16]; 64] = [&[]; 64];
        let mut tested_at = [0; 16];
        let (mut rest, mut count) = (list, 0);
        while !rest.is_empty() {
            if count == 64 {
                return Err(13);
            }
            let (highest, width) = checked_rule(sizes.len(), limits, rest)?;
            rules[count] = &rest[..width];
            tested_at[highest] |= 1 << count;
            rest = &rest[width..];
            count += 1;
        }
        Ok(Found {
            sizes,
            rules,
            count: count as u8,
            tested_at,
        })
    }
}

/// The function for the arity, 1 to 6: one that knows it compares a row in a word or two.
macro_rules! of_arity {
    ($k:expr, $function:ident($($argument:expr),*)) => {
        match $k {
            1 => $function::<1>($($argument),*),
            2 => $function::<2>($($argument),*),
            3 => $function::<3>($($argument),*),
            4 => $function::<4>($($argument),*),
            5 => $function::<5>($($argument),*),
            _ => $function::<6>($($argument),*),
        }
    };
}

/// The rule at the front of the list: its highest feature, and how many numbers it takes.
fn checked_rule(features: usize, limits: &[u8; 16], list: &[u16]) -> Result<(usize, usize), u8> {
    let (k, m, body) = match list {
        [k, m, body @ ..] => (usize::from(*k), usize::from(*m), body),
        _ => return Err(14),
    };
    if !(1..=6).contains(&k) {
        return Err(15);
    }
    if body.len() < k {
        return Err(14);
    }
    let (named, rows) = body.split_at(k);
    let mut seen = 0u16;
    for &feature in named {
        if features <= usize::from(feature) {
            return Err(16);
        }
        if seen >> feature & 1 == 1 {
            return Err(17);
        }
        seen |= 1 << feature;
    }
    if rows.len() < k * m {
        return Err(14);
    }
    if !of_arity!(k, rows_fit(named, &rows[..k * m], limits)) {
        return Err(18);
    }
    Ok((15 - seen.leading_zeros() as usize, 2 + k + k * m))
}

/// Numbers for the features of a rule, looked up once for all rows.
fn at_features<const K: usize>(numbers: &[u8; 16], features: &[u16]) -> [u16; K] {
    let mut found = [0; K];
    for (number, feature) in found.iter_mut().zip(features) {
        *number = numbers[usize::from(feature & 15)].into();
    }
    found
}

fn rows_fit<const K: usize>(features: &[u16], rows: &[u16], limits: &[u8; 16]) -> bool {
    let limits: [u16; K] = at_features(limits, features);
    let fits = |row: &[u16]| {
        row.iter()
            .zip(&limits)
            .all(|(option, limit)| option < limit)
    };
    rows.chunks_exact(K).all(fits)
}

fn some_row<const K: usize>(features: &[u16], rows: &[u16], placed: &[u8; 16]) -> bool {
    let options: [u16; K] = at_features(placed, features);
    rows.chunks_exact(K).any(|row| row == options)
}

impl Rules for Found<'_> {
    fn sizes(&self) -> &[u8] {
        self.sizes
    }

    fn first_broken(&self, j: usize, placed: &[u8; 16]) -> Option<u8> {
        let mut left = self.tested_at[j];
        while left != 0 {
            let number = left.trailing_zeros();
            let rule = self.rules[number as usize];
            let k = usize::from(rule[0]);
            let (features, rows) = rule[2..].split_at(k);
            if !of_arity!(k, some_row(features, rows, placed)) {
                return Some(number as u8);
            }
            left &= left - 1;
        }
        None
    }
}

/// Number 20: whether the desk fits the catalogue, which has so many rules.
fn fits(desk: &Desk, limits: &[u8; 16], rules: u8) -> bool {
    let masks = limits.map(|size| ((1u32 << size) - 1) as u16);
    desk.next < 8 && (desk.seats.iter()).all(|seat| seat_fits(seat, limits, &masks, rules))
}

fn seat_fits(seat: &Seat, limits: &[u8; 16], masks: &[u16; 16], rules: u8) -> bool {
    // How many options are placed, and how many rules it may have run into.
    let (depth, rules) = match seat.state {
        State::Closed => return *seat == Seat::CLOSED,
        State::Ready => (0, 0),
        State::AtWork(place) if place_fits(place, limits) => (usize::from(place.depth), rules),
        State::AtWork(_) => return false,
    };
    if seat.broken != NONE && rules <= seat.broken {
        return false;
    }
    let choice_fits = |f: usize| (seat.choices[f] == NONE) | (seat.choices[f] < limits[f]);
    let mask_fits = |f: usize| seat.masks[f] & !masks[f] == 0;
    let alternatives_fit = |f: usize| match seat.choices[f] {
        NONE => seat.alternatives[f] == 0,
        _ => seat.alternatives[f] & !masks[f] == 0,
    };
    let entry_fits = |f: usize| match f < depth {
        true => seat.trial[f] < limits[f],
        false => seat.trial[f] == NONE,
    };
    every(choice_fits) && every(mask_fits) && every(alternatives_fit) && every(entry_fits)
}

/// All sixteen are looked at, and none left out after a misfit: so one instruction looks at several.
#[inline]
fn every(fits: impl Fn(usize) -> bool) -> bool {
    (0..16).fold(true, |fit, f| fit & fits(f))
}

fn place_fits(place: Place, limits: &[u8; 16]) -> bool {
    let limit = |feature: u8| limits.get(usize::from(feature)).copied().unwrap_or(0);
    place.option < limit(place.feature) && place.next < limit(place.depth)
}

/// A caller with its desk, board and catalogue.
pub struct Host<'a> {
    pub desk: Desk,
    pub board: Vec<u8>,
    catalogue: &'a Catalogue,
}

impl<'a> Host<'a> {
    pub fn open(catalogue: &'a Catalogue) -> Host<'a> {
        let desk = Desk {
            seats: [Seat::CLOSED; 8],
            next: 0,
        };
        let board = vec![NONE; BOARD];
        Host {
            desk,
            board,
            catalogue,
        }
    }

    pub fn enter(&mut self, c: usize) {
        self.post(c, [NONE; 16]);
    }

    /// A job for a seat under some choices.
    pub fn post(&mut self, c: usize, choices: [u8; 16]) {
        self.board[c * SHARE..(c + 1) * SHARE].fill(NONE);
        self.desk.seats[c] = Seat::post(choices);
    }

    pub fn turns(&mut self, w: u16) -> (u16, bool) {
        let (sizes, rules) = (self.catalogue.sizes(), self.catalogue.rule_list());
        turns(&mut self.desk, &mut self.board, sizes, rules, w).expect("turns refused")
    }

    pub fn alternatives(&self, c: usize, i: usize) -> Result<(u16, u32), u8> {
        let (sizes, rules) = (self.catalogue.sizes(), self.catalogue.rule_list());
        alternatives(&self.desk, &self.board, sizes, rules, c, i)
    }

    pub fn ran_into(&self, c: usize) -> Result<u8, u8> {
        let (sizes, rules) = (self.catalogue.sizes(), self.catalogue.rule_list());
        ran_into(&self.desk, &self.board, sizes, rules, c)
    }
}

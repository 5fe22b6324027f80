//! The desk, its calls, and their refusals in the table's order.

use crate::catalogue::{self, Catalogue};
use crate::fit;
use crate::record::{Record, State, EXAMPLE, NONE, SHARE};
use crate::search;

pub const SEATS: usize = 8;
pub const BOARD: usize = 32_768;

#[derive(Clone, Debug, PartialEq, Eq)]
pub struct Desk {
    pub seats: Vec<Record>,
    pub next: u8,
}

/// The lent catalogue as it comes: any numbers.
#[derive(Clone, Copy)]
pub struct Lent<'a> {
    pub sizes: &'a [u8],
    pub list: &'a [u16],
}

/// Answer of options left, and of alternatives; a refusal comes "with numbers 0".
#[derive(Clone, Copy, Debug, Default, PartialEq, Eq)]
pub struct Left {
    pub refusal: u16,
    pub mask: u16,
    pub count: u32,
}

impl Left {
    fn of(mask: u16) -> Left {
        Left { refusal: 0, mask, count: mask.count_ones() }
    }
}

/// Answer of the rule that a seat last ran into; no rule comes with a refusal.
#[derive(Clone, Copy, Debug, PartialEq, Eq)]
pub struct RanInto {
    pub refusal: u16,
    pub rule: u8,
}

/// Answer of turns; a refusal comes with numbers 0 and "no seat at work reported".
#[derive(Clone, Copy, Debug, Default, PartialEq, Eq)]
pub struct Turned {
    pub refusal: u16,
    pub made: u32,
    pub at_work: bool,
    /// For the checks of demand 3 only: steps given to each seat, and the turn of its last one.
    pub given: [u64; SEATS],
    pub last: [u64; SEATS],
    /// For the tally only: steps that ran into a rule, into several at once, and those of the first
    /// that made their seat ready.
    pub failed: u64,
    pub failed_several: u64,
    pub failed_last: u64,
}

/// "Checks run from the top": 1, then 10 to 18.
fn board_and_catalogue(board: &[u8], lent: Lent) -> Result<Catalogue, u16> {
    if board.len() != BOARD {
        return Err(1);
    }
    catalogue::read(lent.sizes, lent.list)
}

impl Desk {
    pub fn fresh() -> Desk {
        Desk { seats: vec![Record::closed(); SEATS], next: 0 }
    }

    pub fn any_at_work(&self) -> bool {
        self.seats.iter().any(Record::at_work)
    }

    /// 1 to 20, the checks of every call but open.
    fn checks(&self, board: &[u8], lent: Lent) -> Result<Catalogue, u16> {
        let catalogue = board_and_catalogue(board, lent)?;
        if fit::misfit(self.next, &self.seats, &catalogue).is_some() {
            return Err(20);
        }
        Ok(catalogue)
    }

    /// 1 to 20, then 30 and 31: for the calls that need an open seat.
    fn open_checks(&self, board: &[u8], lent: Lent, seat: u32) -> Result<Catalogue, u16> {
        let catalogue = self.checks(board, lent)?;
        if seat > 7 {
            return Err(30);
        }
        if self.seats[seat as usize].state == State::Closed {
            return Err(31);
        }
        Ok(catalogue)
    }

    /// 1 to 31, then 33: for the calls that need a ready seat.
    fn ready_checks(&self, board: &[u8], lent: Lent, seat: u32) -> Result<Catalogue, u16> {
        let catalogue = self.open_checks(board, lent, seat)?;
        if self.seats[seat as usize].at_work() {
            return Err(33);
        }
        Ok(catalogue)
    }

    /// "Open: board filled with 255, all seats closed, next seat 0." "Open takes no desk; a refused
    /// open hands back one with all seats closed and next 0."
    pub fn open(board: &mut [u8], lent: Lent) -> (u16, Desk) {
        match board_and_catalogue(board, lent) {
            Err(refusal) => (refusal, Desk::fresh()),
            Ok(_) => {
                fill(board);
                (0, Desk::fresh())
            }
        }
    }

    pub fn enter(&mut self, board: &mut [u8], lent: Lent, seat: u32) -> Result<(), u16> {
        let catalogue = self.checks(board, lent)?;
        if seat > 7 {
            return Err(30);
        }
        if self.seats[seat as usize].state != State::Closed {
            return Err(32);
        }
        self.post(board, &catalogue, seat);
        Ok(())
    }

    pub fn leave(&mut self, board: &mut [u8], lent: Lent, seat: u32) -> Result<(), u16> {
        self.open_checks(board, lent, seat)?;
        self.seats[seat as usize] = Record::closed();
        fill(share_of(board, seat as usize));
        Ok(())
    }

    pub fn choose(
        &mut self,
        board: &mut [u8],
        lent: Lent,
        seat: u32,
        feature: u32,
        option: u32,
    ) -> Result<(), u16> {
        let catalogue = self.ready_checks(board, lent, seat)?;
        within(&catalogue, feature)?;
        if option >= u32::from(catalogue.sizes[feature as usize]) {
            return Err(35);
        }
        let record = &mut self.seats[seat as usize];
        if record.choices[feature as usize] != NONE {
            return Err(36);
        }
        if record.masks[feature as usize] & (1 << option) == 0 {
            return Err(37);
        }
        record.choices[feature as usize] = option as u8;
        self.post(board, &catalogue, seat);
        Ok(())
    }

    pub fn relax(&mut self, board: &mut [u8], lent: Lent, seat: u32, feature: u32) -> Result<(), u16> {
        let catalogue = self.ready_checks(board, lent, seat)?;
        within(&catalogue, feature)?;
        let record = &mut self.seats[seat as usize];
        has_choice(record, feature)?;
        record.choices[feature as usize] = NONE;
        self.post(board, &catalogue, seat);
        Ok(())
    }

    /// "All three empty the masks, fill the share with 255 and post a job at pair (0, 0)."
    fn post(&mut self, board: &mut [u8], catalogue: &Catalogue, seat: u32) {
        fill(share_of(board, seat as usize));
        search::post(catalogue, &mut self.seats[seat as usize]);
    }

    /// "the mask of one feature and how many bits are set in it"
    pub fn options(&self, board: &[u8], lent: Lent, seat: u32, feature: u32) -> Left {
        let checked = self
            .ready_checks(board, lent, seat)
            .and_then(|catalogue| within(&catalogue, feature));
        match checked {
            Err(refusal) => Left { refusal, ..Left::default() },
            Ok(()) => Left::of(self.seats[seat as usize].masks[feature as usize]),
        }
    }

    /// R-6: "A new call answers the mask and its count." "38 when the feature has no choice, after
    /// 34".
    pub fn alternatives(&self, board: &[u8], lent: Lent, seat: u32, feature: u32) -> Left {
        let checked = self
            .ready_checks(board, lent, seat)
            .and_then(|catalogue| within(&catalogue, feature))
            .and_then(|()| has_choice(&self.seats[seat as usize], feature));
        match checked {
            Err(refusal) => Left { refusal, ..Left::default() },
            Ok(()) => Left::of(self.seats[seat as usize].alternatives[feature as usize]),
        }
    }

    /// "A new call reads it from any open seat"; it "gives 1 to 31 only".
    pub fn ran_into(&self, board: &[u8], lent: Lent, seat: u32) -> RanInto {
        match self.open_checks(board, lent, seat) {
            Err(refusal) => RanInto { refusal, rule: NONE },
            Ok(_) => RanInto { refusal: 0, rule: self.seats[seat as usize].rule },
        }
    }

    /// "the sixteen bytes themselves, as they stand in the seat's share", and the refusal number.
    pub fn example<'a>(
        &self,
        board: &'a [u8],
        lent: Lent,
        seat: u32,
        feature: u32,
        option: u32,
    ) -> (u16, &'a [u8]) {
        match self.example_place(board, lent, seat, feature, option) {
            Err(refusal) => (refusal, &[]),
            Ok(place) => (0, &board[place..place + EXAMPLE]),
        }
    }

    fn example_place(
        &self,
        board: &[u8],
        lent: Lent,
        seat: u32,
        feature: u32,
        option: u32,
    ) -> Result<usize, u16> {
        let catalogue = self.ready_checks(board, lent, seat)?;
        within(&catalogue, feature)?;
        let (seat, feature) = (seat as usize, feature as usize);
        if option >= u32::from(catalogue.sizes[feature]) {
            return Err(35);
        }
        // 37 asks the mask; "what the board holds is not tested".
        if self.seats[seat].masks[feature] & (1 << option) == 0 {
            return Err(37);
        }
        Ok(seat * SHARE + feature * 256 + option as usize * EXAMPLE)
    }

    /// "w turns, or fewer when no seat is at work."
    pub fn turns(&mut self, board: &mut [u8], lent: Lent, w: u16) -> Turned {
        let catalogue = match self.checks(board, lent) {
            Err(refusal) => return Turned { refusal, ..Turned::default() },
            Ok(catalogue) => catalogue,
        };
        let mut turned = Turned::default();
        while turned.made < u32::from(w) {
            // "One turn finds the first seat at work from next upward around the ring, gives it one
            // step, and sets next to the seat after it."
            let from = usize::from(self.next);
            let ring = (0..SEATS).map(|further| (from + further) % SEATS);
            let seat = match ring.into_iter().find(|&seat| self.seats[seat].at_work()) {
                None => break,
                Some(seat) => seat,
            };
            let broken = search::step(&catalogue, &mut self.seats[seat], share_of(board, seat));
            self.next = ((seat + 1) % SEATS) as u8;
            turned.made += 1;
            turned.given[seat] += 1;
            turned.last[seat] = u64::from(turned.made);
            turned.failed += u64::from(broken > 0);
            turned.failed_several += u64::from(broken > 1);
            turned.failed_last += u64::from(broken > 0 && !self.seats[seat].at_work());
        }
        turned.at_work = self.any_at_work();
        turned
    }
}

/// 34: "feature not in the catalogue".
fn within(catalogue: &Catalogue, feature: u32) -> Result<(), u16> {
    if feature as usize >= catalogue.features() {
        return Err(34);
    }
    Ok(())
}

/// 38: "feature has no choice".
fn has_choice(record: &Record, feature: u32) -> Result<(), u16> {
    if record.choices[feature as usize] == NONE {
        return Err(38);
    }
    Ok(())
}

/// "Seat c owns the 4,096 bytes from c×4,096".
fn share_of(board: &mut [u8], seat: usize) -> &mut [u8] {
    &mut board[seat * SHARE..(seat + 1) * SHARE]
}

fn fill(bytes: &mut [u8]) {
    for byte in bytes {
        *byte = NONE;
    }
}

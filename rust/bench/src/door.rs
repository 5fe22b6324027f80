//! The proved desk through its door, with its board and its catalogue.

use crate::checked;
use crate::ffi::{self, DeskRecord, SeatRecord};
use crate::seat::{Place, Seat, State, BOARD, NONE, SHARE};
use crate::Catalogue;

pub struct Desk<'a> {
    pub record: DeskRecord,
    pub board: Vec<u8>,
    catalogue: &'a Catalogue,
}

impl<'a> Desk<'a> {
    pub fn open(catalogue: &'a Catalogue) -> Desk<'a> {
        let mut board = vec![0; BOARD];
        let opened = ffi::open(&mut board, catalogue);
        assert_eq!(opened.number, 0, "open refused");
        Desk {
            record: opened.desk,
            board,
            catalogue,
        }
    }

    /// The refusal number; the desk is as it came where it is not 0.
    pub fn enter(&mut self, c: usize) -> u8 {
        let entered = ffi::enter(self.record, &mut self.board, self.catalogue, c);
        self.record = entered.desk;
        entered.number
    }

    /// The refusal number; the desk is as it came where it is not 0.
    pub fn choose(&mut self, c: usize, i: usize, a: usize) -> u8 {
        let chosen = ffi::choose(self.record, &mut self.board, self.catalogue, c, i, a);
        self.record = chosen.desk;
        chosen.number
    }

    /// A seat's job as its caller writes it into the record: by calls alone a job under choices comes only after a whole
    /// one under none.
    pub fn post(&mut self, c: usize, choices: [u8; 16]) {
        self.board[c * SHARE..(c + 1) * SHARE].fill(NONE);
        self.record.seats[c] = record_of(Seat::post(choices));
    }

    /// Number, mask and count.
    pub fn options(&self, c: usize, i: usize) -> (u8, u16, u32) {
        let left = ffi::options(self.record, &self.board, self.catalogue, c, i);
        (left.number, left.mask, left.count)
    }

    /// Mask and count; or the refusal number.
    pub fn alternatives(&self, c: usize, i: usize) -> Result<(u16, u32), u8> {
        alternatives(&self.record, &self.board, self.catalogue, c, i)
    }

    /// The rule that a seat last ran into, 255 for none; or the refusal number.
    pub fn ran_into(&self, c: usize) -> Result<u8, u8> {
        ran_into(&self.record, &self.board, self.catalogue, c)
    }

    /// The turns made, and whether a seat is still at work.
    pub fn turns(&mut self, w: u16) -> (u16, bool) {
        turns(&mut self.record, &mut self.board, self.catalogue, w).expect("turns refused")
    }
}

/// The turns made, and whether a seat is still at work; or the refusal number.
pub fn turns(
    desk: &mut DeskRecord,
    board: &mut [u8],
    catalogue: &Catalogue,
    w: u16,
) -> Result<(u16, bool), u8> {
    let turned = ffi::turns(*desk, board, catalogue, w);
    *desk = turned.desk;
    match turned.number {
        0 => Ok((turned.made, turned.working != 0)),
        number => Err(number),
    }
}

/// Mask and count; or the refusal number.
pub fn alternatives(
    desk: &DeskRecord,
    board: &[u8],
    catalogue: &Catalogue,
    c: usize,
    i: usize,
) -> Result<(u16, u32), u8> {
    let left = ffi::alternatives(*desk, board, catalogue, c, i);
    match left.number {
        0 => Ok((left.mask, left.count)),
        number => Err(number),
    }
}

/// The rule that a seat last ran into, 255 for none; or the refusal number.
pub fn ran_into(
    desk: &DeskRecord,
    board: &[u8],
    catalogue: &Catalogue,
    c: usize,
) -> Result<u8, u8> {
    let ran = ffi::ran_into(*desk, board, catalogue, c);
    match ran.number {
        0 => Ok(ran.rule),
        number => Err(number),
    }
}

/// A desk's record as plain Rust has it.
pub fn plain_desk(desk: &DeskRecord) -> checked::Desk {
    checked::Desk {
        seats: desk.seats.map(plain_seat),
        next: desk.next.into(),
    }
}

fn plain_seat(seat: SeatRecord) -> Seat {
    let state = match seat.state {
        0 => State::Closed,
        1 => State::Ready,
        2 => State::AtWork(Place {
            feature: seat.feature,
            option: seat.option,
            depth: seat.depth,
            next: seat.next,
        }),
        other => panic!("no state has the number {}", other),
    };
    Seat {
        state,
        choices: seat.choices,
        masks: seat.masks,
        trial: seat.trial,
        alternatives: seat.alternatives,
        broken: seat.broken,
    }
}

/// A seat of plain Rust as the desk's callers have it.
fn record_of(seat: Seat) -> SeatRecord {
    let nowhere = Place {
        feature: 0,
        option: 0,
        depth: 0,
        next: 0,
    };
    let (state, place) = match seat.state {
        State::Closed => (0, nowhere),
        State::Ready => (1, nowhere),
        State::AtWork(place) => (2, place),
    };
    SeatRecord {
        state,
        feature: place.feature,
        option: place.option,
        depth: place.depth,
        next: place.next,
        broken: seat.broken,
        choices: seat.choices,
        masks: seat.masks,
        trial: seat.trial,
        alternatives: seat.alternatives,
    }
}

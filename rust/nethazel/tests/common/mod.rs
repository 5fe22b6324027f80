#![allow(dead_code)] // not every test file uses both

use nethazel::{Catalogue, Desk, Refusal};

pub fn trolley() -> Catalogue {
    Catalogue::new(&[3, 3, 2])
        .rule(&[0, 1], &[[0, 1], [1, 0], [1, 2], [2, 1]])
        .rule(&[1, 2], &[[0, 0], [1, 1], [2, 0], [2, 1]])
}

/// Turns until no seat is at work; how many were made.
pub fn finish(desk: &mut Desk) -> Result<u64, Refusal> {
    let mut made = 0;
    loop {
        let turns = desk.turns(u16::MAX)?;
        made += u64::from(turns.made);
        if !turns.working {
            return Ok(made);
        }
    }
}

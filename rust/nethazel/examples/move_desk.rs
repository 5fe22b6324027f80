//! A desk is taken apart in the middle of a search, sent as bytes, put together, and goes on to the same answers.

use nethazel::{Catalogue, Desk};
use std::error::Error;

const SEAT: usize = 5;

fn main() -> Result<(), Box<dyn Error>> {
    let catalogue = catalogue();
    let mut here = Desk::open(&catalogue)?;
    here.enter(SEAT)?;
    here.turns(100)?;
    println!("after 100 turns: {:?}", here.seat(SEAT)?.state());

    let bytes = here.to_bytes();
    println!("taken apart: {} bytes", bytes.len());
    let mut there = Desk::from_bytes(&catalogue, &bytes)?;
    assert_eq!(there, here);

    let (made_there, made_here) = (finish(&mut there)?, finish(&mut here)?);
    assert_eq!(made_there, made_here);
    assert_eq!(there, here);
    println!("ready after {made_there} more turns, there as here");
    for feature in 0..catalogue.features() {
        let left = there.options(SEAT, feature)?;
        println!("  feature {feature}: {left} left");
    }
    Ok(())
}

/// Six features of four options; neighbours differ, and the last is above the first.
fn catalogue() -> Catalogue {
    let pairs = (0..16).map(|pair| [pair / 4, pair % 4]);
    let unequal: Vec<[usize; 2]> = pairs.clone().filter(|[a, b]| a != b).collect();
    let rising: Vec<[usize; 2]> = pairs.filter(|[a, b]| a < b).collect();
    (0..5)
        .fold(Catalogue::new(&[4; 6]), |catalogue, feature| {
            catalogue.rule(&[feature, feature + 1], &unequal)
        })
        .rule(&[0, 5], &rising)
}

/// Turns until no seat is at work; how many were made.
fn finish(desk: &mut Desk) -> Result<u32, nethazel::Refusal> {
    let mut made = 0;
    while desk.is_working() {
        made += u32::from(desk.turns(1000)?.made);
    }
    Ok(made)
}

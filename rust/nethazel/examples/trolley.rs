//! The first minute: a clinic at seat 3 configures the trolley.

use nethazel::{Catalogue, Desk, Refusal};

const SEAT: usize = 3;

fn main() -> Result<(), Refusal> {
    let trolley = Catalogue::new(&[3, 3, 2])
        .rule(&[0, 1], &[[0, 1], [1, 0], [1, 2], [2, 1]])
        .rule(&[1, 2], &[[0, 0], [1, 1], [2, 0], [2, 1]]);
    let mut desk = Desk::open(&trolley)?;

    desk.enter(SEAT)?;
    println!("entered:");
    watch(&mut desk)?;
    wait(&mut desk)?;
    println!("ready:");
    show(&desk)?;

    desk.choose(SEAT, 2, 0)?;
    wait(&mut desk)?;
    println!("option 0 of feature 2 chosen:");
    show(&desk)?;
    println!("  could replace it: {}", desk.alternatives(SEAT, 2)?);

    match desk.choose(SEAT, 1, 1) {
        Err(Refusal::OptionNotLeft) => println!("option 1 of feature 1 is not left"),
        other => panic!("it fits no build with the choice, and the desk says {other:?}"),
    }
    desk.leave(SEAT)
}

/// A few turns one by one, each with the rule that the search last ran into.
fn watch(desk: &mut Desk) -> Result<(), Refusal> {
    for turn in 1..=5 {
        desk.turns(1)?;
        match desk.ran_into(SEAT)? {
            Some(rule) => println!("  turn {turn}: last ran into rule {rule}"),
            None => println!("  turn {turn}: has run into no rule"),
        }
    }
    Ok(())
}

/// Turns in portions, until the clinic's job is done.
fn wait(desk: &mut Desk) -> Result<(), Refusal> {
    while !desk.seat(SEAT)?.is_ready() {
        desk.turns(1000)?;
    }
    Ok(())
}

/// Each feature with its options left, and for each of them the first build that has it.
fn show(desk: &Desk) -> Result<(), Refusal> {
    for feature in 0..desk.catalogue().features() {
        let left = desk.options(SEAT, feature)?;
        println!("  feature {feature}: {left} left");
        for option in left {
            let example = desk.example(SEAT, feature, option)?;
            println!("    with {option}: {example}");
        }
    }
    Ok(())
}

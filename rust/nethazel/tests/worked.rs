//! The cases that the paper works by hand.

mod common;

use common::{finish, trolley};
use nethazel::{Catalogue, Desk, OptionsLeft, Place, Refusal, State};

/// A desk on which a clinic has entered seat 3 and is ready, and how many steps its job took.
fn entered(catalogue: &Catalogue) -> Result<(Desk, u64), Refusal> {
    let mut desk = Desk::open(catalogue)?;
    desk.enter(3)?;
    let steps = finish(&mut desk)?;
    Ok((desk, steps))
}

fn left(desk: &Desk) -> Result<Vec<String>, Refusal> {
    let features = 0..desk.catalogue().features();
    features
        .map(|feature| desk.options(3, feature).map(|left| left.to_string()))
        .collect()
}

/// How many steps seat 3, at work, takes for each of its pairs.
fn pair_steps(desk: &mut Desk) -> Result<Vec<u32>, Refusal> {
    let mut steps = Vec::new();
    let mut last = None;
    while let State::AtWork(Place {
        feature, option, ..
    }) = desk.seat(3)?.state()
    {
        if last != Some((feature, option)) {
            steps.push(0);
            last = Some((feature, option));
        }
        *steps.last_mut().unwrap() += 1;
        desk.turns(1)?;
    }
    Ok(steps)
}

#[test]
fn the_trolley_lists_its_three_lines() -> Result<(), Refusal> {
    let (mut desk, _) = entered(&trolley())?;
    desk.choose(3, 2, 0)?;
    finish(&mut desk)?;
    let mut listing = String::new();
    for feature in 0..3 {
        let left = desk.options(3, feature)?;
        listing += &format!("{feature} {left} {}\n", left.count());
    }
    assert_eq!(listing, "0 1 1\n1 0,2 2\n2 0 1\n");
    Ok(())
}

#[test]
fn p2_all_eight_options_are_left() -> Result<(), Refusal> {
    let (desk, steps) = entered(&trolley())?;
    assert_eq!(left(&desk)?, ["0,1,2", "0,1,2", "0,1"]);
    assert_eq!(steps, 39);
    Ok(())
}

#[test]
fn p3_to_p5_the_first_builds_stand_as_examples() -> Result<(), Refusal> {
    let (desk, _) = entered(&trolley())?;
    let none = [255; 13];
    for (feature, option, build) in [(0, 1, [1, 0, 0]), (1, 2, [1, 2, 0]), (2, 1, [0, 1, 1])] {
        let example = desk.example(3, feature, option)?.bytes();
        assert_eq!((&example[..3], &example[3..]), (&build[..], &none[..]));
        let stands = &desk.board().share(3).unwrap()[feature * 256 + option * 16..][..16];
        assert_eq!(stands, example);
    }
    Ok(())
}

#[test]
fn p6_to_p8_the_pairs_take_their_steps() -> Result<(), Refusal> {
    let mut desk = Desk::open(&trolley())?;
    desk.enter(3)?;
    assert_eq!(pair_steps(&mut desk)?, [5, 3, 5, 5, 4, 5, 8, 4]);
    desk.choose(3, 2, 0)?;
    assert_eq!(pair_steps(&mut desk)?, [5, 3, 5, 5, 8, 5, 8, 4]);
    assert_eq!(left(&desk)?, ["1", "0,2", "0"]);
    Ok(())
}

#[test]
fn the_first_steps_run_into_rule_0_and_then_rule_1() -> Result<(), Refusal> {
    let mut desk = Desk::open(&trolley())?;
    desk.enter(3)?;
    let first_job = desk.clone();
    for ran_into in [None, None, Some(0), Some(0), Some(1), Some(1)] {
        assert_eq!(desk.ran_into(3)?, ran_into);
        assert_eq!(desk.seat(3)?.ran_into(), ran_into);
        desk.turns(1)?;
    }
    finish(&mut desk)?;
    assert_eq!(desk.ran_into(3)?, None);
    desk.choose(3, 2, 0)?;
    assert_eq!(desk.ran_into(3)?, None); // of this job, not of the last
    desk.turns(2)?;
    assert_eq!(desk.ran_into(3)?, Some(0));
    desk.leave(3)?;
    assert_eq!(desk.seat(3)?.ran_into(), None);
    desk.enter(3)?;
    assert_eq!(desk.seat(3)?, first_job.seat(3)?);
    Ok(())
}

/// Rules are numbered through the whole list, also those that are tested at other features; of several that are broken the
/// lowest-numbered is named.
#[test]
fn the_rule_named_is_the_lowest_numbered_that_was_broken() -> Result<(), Refusal> {
    let catalogue = Catalogue::new(&[2, 2])
        .rule(&[1], &[[1]])
        .rule(&[0], &[[1]])
        .rule(&[0, 1], &[[1, 1]])
        .rule(&[0], &[[1]]);
    let mut desk = Desk::open(&catalogue)?;
    desk.enter(3)?;
    let mut named = Vec::new();
    while desk.is_working() {
        desk.turns(1)?;
        named.push(desk.ran_into(3)?);
    }
    // The pairs: (0, 0) falls at feature 0; (0, 1) falls at option 0 of feature 1, then is found; (1, 0) falls at both; (1, 1)
    // falls at option 0 of feature 0, then is found, and the seat is ready.
    let (falls_at_0, falls_at_1) = (Some(1), Some(0));
    assert_eq!(
        named,
        [
            falls_at_0, falls_at_0, falls_at_1, falls_at_1, falls_at_0, falls_at_0, falls_at_1,
            falls_at_0, falls_at_0, None
        ]
    );
    Ok(())
}

#[test]
fn both_options_of_the_chosen_feature_are_alternatives() -> Result<(), Refusal> {
    let (mut desk, _) = entered(&trolley())?;
    assert_eq!(desk.seat(3)?.alternatives(), &[0; 16]);
    desk.choose(3, 2, 0)?;
    assert_eq!(desk.seat(3)?.alternatives()[..3], [0, 0, 1]); // the option in force, from the start
    assert_eq!(finish(&mut desk)?, 43);
    assert_eq!(desk.seat(3)?.masks()[..3], [2, 5, 1]);
    assert_eq!(desk.seat(3)?.alternatives()[..3], [0, 0, 3]);
    let alternatives = desk.alternatives(3, 2)?;
    assert_eq!((alternatives.mask(), alternatives.count()), (3, 2));
    let no_example = &desk.board().share(3).unwrap()[2 * 256 + 16..][..16];
    assert_eq!(no_example, [255; 16]); // option 1 could replace the choice, but it is not left
    Ok(())
}

/// Source document 002's first example: three features of four options, all different.
#[test]
fn of_two_unequal_choices_neither_can_replace_the_other() -> Result<(), Refusal> {
    let unequal: Vec<[usize; 2]> = (0..16)
        .map(|pair| [pair / 4, pair % 4])
        .filter(|row| row[0] != row[1])
        .collect();
    let catalogue = Catalogue::new(&[4, 4, 4])
        .rule(&[1, 0], &unequal)
        .rule(&[2, 0], &unequal)
        .rule(&[2, 1], &unequal);
    let (mut desk, _) = entered(&catalogue)?;
    desk.choose(3, 0, 0)?;
    finish(&mut desk)?;
    assert_eq!(desk.alternatives(3, 0)?.to_string(), "0,1,2,3");
    desk.choose(3, 1, 3)?;
    finish(&mut desk)?;
    assert_eq!(left(&desk)?, ["0", "3", "1,2"]);
    assert_eq!(desk.alternatives(3, 0)?.to_string(), "0,1,2");
    assert_eq!(desk.alternatives(3, 1)?.to_string(), "1,2,3");
    Ok(())
}

#[test]
fn p9_three_features_each_two_unequal_leave_nothing() -> Result<(), Refusal> {
    let unequal = [[0, 1], [1, 0]];
    let catalogue = Catalogue::new(&[2, 2, 2])
        .rule(&[0, 1], &unequal)
        .rule(&[0, 2], &unequal)
        .rule(&[1, 2], &unequal);
    let (desk, _) = entered(&catalogue)?;
    assert_eq!(left(&desk)?, ["-", "-", "-"]);
    assert_eq!(desk.options(3, 0)?.iter().next(), None);
    assert_eq!(desk.example(3, 0, 0), Err(Refusal::OptionNotLeft));
    Ok(())
}

#[test]
fn p10_one_feature_of_size_1_takes_one_step() -> Result<(), Refusal> {
    let (desk, steps) = entered(&Catalogue::new(&[1]))?;
    assert_eq!((left(&desk)?, steps), (vec!["0".to_string()], 1));
    Ok(())
}

#[test]
fn eight_seats_are_ready_at_turns_305_to_312() -> Result<(), Refusal> {
    let mut desk = Desk::open(&trolley())?;
    for seat in 0..8 {
        desk.enter(seat)?;
    }
    desk.turns(304)?;
    for seat in 0..8 {
        assert!(desk.at_work().eq(seat..8));
        desk.turns(1)?;
        assert_eq!(desk.seat(seat)?.state(), State::Ready);
    }
    assert!(!desk.is_working());
    assert_eq!(desk.turns(1)?.made, 0);
    Ok(())
}

#[test]
fn a_relaxed_choice_brings_its_options_back() -> Result<(), Refusal> {
    let (mut desk, _) = entered(&trolley())?;
    let before = desk.clone();
    desk.choose(3, 2, 0)?;
    finish(&mut desk)?;
    let shown = desk.alternatives(3, 2)?;
    desk.relax(3, 2)?;
    assert_eq!(desk.ran_into(3)?, None);
    assert_eq!(desk.seat(3)?.masks(), &[0; 16]);
    assert_eq!(desk.seat(3)?.alternatives(), &[0; 16]);
    finish(&mut desk)?;
    assert_eq!(desk.options(3, 2)?, shown);
    assert_eq!(desk, before);
    Ok(())
}

#[test]
fn sixteen_options_are_counted_and_listed() -> Result<(), Refusal> {
    let (desk, _) = entered(&Catalogue::new(&[16]))?;
    let left: OptionsLeft = desk.options(3, 0)?;
    assert_eq!(
        (left.mask(), left.count(), left.iter().len()),
        (u16::MAX, 16, 16)
    );
    assert!(left.into_iter().eq(0..16));
    assert!(left.has(15) && !left.has(16) && !left.has(usize::MAX));
    Ok(())
}

//! Desks on several threads: a desk is a value that shares nothing.

mod common;

use common::{finish, trolley};
use nethazel::{Catalogue, Desk, Refusal};
use std::thread;

fn work(mut desk: Desk, seat: usize) -> Result<Desk, Refusal> {
    desk.enter(seat)?;
    while desk.turns(3)?.working {}
    desk.choose(seat, 2, seat % 2)?;
    while desk.turns(5)?.working {}
    Ok(desk)
}

#[test]
fn desks_on_eight_threads_end_as_alone() -> Result<(), Refusal> {
    let opened = Desk::open(&trolley())?;
    for _ in 0..20 {
        let threads: Vec<_> = (0..8)
            .map(|seat| {
                let desk = opened.clone();
                thread::spawn(move || work(desk, seat))
            })
            .collect();
        for (seat, thread) in threads.into_iter().enumerate() {
            let desk = thread.join().expect("no panic")?;
            assert_eq!(desk, work(opened.clone(), seat)?);
        }
    }
    Ok(())
}

#[test]
fn threads_read_one_desk_together() -> Result<(), Refusal> {
    let mut desk = Desk::open(&trolley())?;
    desk.enter(0)?;
    finish(&mut desk)?;
    thread::scope(|scope| {
        for _ in 0..4 {
            scope.spawn(|| {
                for _ in 0..100 {
                    assert_eq!(
                        desk.example(0, 2, 1).map(|example| example.option(1)),
                        Ok(Some(1))
                    );
                }
            });
        }
    });
    Ok(())
}

/// Every call, and a desk moved, on a thread with so much stack.
#[test]
fn a_thread_of_64_kb_makes_every_call() -> Result<(), Box<dyn std::error::Error>> {
    let thread = thread::Builder::new().stack_size(64 * 1024);
    let every_call = || -> Result<String, nethazel::FromBytesError> {
        let mut desk = Desk::open(&trolley())?;
        desk.enter(0)?;
        desk.turns(4)?;
        assert_eq!(desk.ran_into(0)?, Some(1));
        finish(&mut desk)?;
        desk.choose(0, 2, 0)?;
        finish(&mut desk)?;
        assert_eq!(desk.options(0, 1)?.to_string(), "0,2");
        assert_eq!(desk.alternatives(0, 2)?.to_string(), "0,1");
        let example = desk.example(0, 1, 2)?.to_string();
        desk.relax(0, 2)?;
        desk = Desk::from_bytes(&trolley(), &desk.clone().to_bytes())?;
        finish(&mut desk)?;
        desk.leave(0)?;
        Ok(example)
    };
    let example = thread.spawn(every_call)?.join().expect("no panic")?;
    assert_eq!(example, "1 2 0");
    Ok(())
}

/// Where a catalogue's numbers stand.
fn places(catalogue: &Catalogue) -> (*const u8, *const u16) {
    (catalogue.sizes().as_ptr(), catalogue.rule_list().as_ptr())
}

#[test]
fn desks_share_the_numbers_of_their_catalogue() -> Result<(), Box<dyn std::error::Error>> {
    let catalogue = trolley();
    let first = Desk::open(&catalogue)?;
    let second = Desk::open(&catalogue)?;
    let moved = Desk::from_bytes(&catalogue, &first.to_bytes())?;
    for desk in [&first, &second, &first.clone(), &moved] {
        assert_eq!(places(desk.catalogue()), places(&catalogue));
    }
    Ok(())
}

#[test]
fn a_rule_more_is_another_catalogue_and_leaves_the_shared_one() -> Result<(), Refusal> {
    let catalogue = trolley();
    let desk = Desk::open(&catalogue)?;
    let narrower = catalogue.clone().rule(&[0], &[[1]]);
    assert_eq!((desk.catalogue(), &catalogue), (&trolley(), &trolley()));
    assert_eq!(narrower.rule_list()[24..], [1, 1, 0, 1]);
    assert_ne!(places(&narrower), places(&catalogue));
    Ok(())
}

#[test]
fn a_clone_is_another_desk() -> Result<(), Refusal> {
    let mut first = Desk::open(&trolley())?;
    first.enter(0)?;
    let mut second = first.clone();
    finish(&mut second)?;
    assert_eq!(first.options(0, 0), Err(Refusal::SeatAtWork));
    assert_eq!(second.options(0, 0)?.count(), 3);
    assert_eq!(first.board().bytes(), &[255; 32_768]);
    Ok(())
}

//! Every refusal number that a desk's calls can give, with the accepted neighbour of each edge. The numbers 1 and 20, which
//! the types rule out, are tested where the archive is called.

mod common;

use common::{finish, trolley};
use nethazel::{Catalogue, Desk, Refusal};
use std::collections::BTreeSet;

const NEITHER: &[u16] = &[];

fn refused(sizes: &[u8], rule_list: &[u16]) -> Option<u8> {
    Desk::open(&Catalogue::from_numbers(sizes, rule_list))
        .err()
        .map(Refusal::number)
}

/// `rules` times the rule on feature 0 with one row.
fn rules(rules: usize) -> Vec<u16> {
    [1, 1, 0, 0].repeat(rules)
}

/// One rule on feature 0 with so many rows that the list has the given length.
fn list_of_length(length: u16) -> Vec<u16> {
    let mut list = vec![1, length - 3, 0];
    list.resize(usize::from(length), 1);
    list
}

#[test]
fn a_catalogue_is_refused_by_its_first_fault() {
    let sizes = &[3, 3, 2];
    let cases: &[(&[u8], &[u16], Option<u8>)] = &[
        (&[], NEITHER, Some(10)),
        (&[1; 16], NEITHER, None),
        (&[1; 17], NEITHER, Some(10)),
        (&[3, 0], NEITHER, Some(11)),
        (&[16], NEITHER, None),
        (&[17], NEITHER, Some(11)),
        (sizes, &list_of_length(8192), None),
        (sizes, &list_of_length(8193), Some(12)),
        (sizes, &rules(64), None),
        (sizes, &rules(65), Some(13)),
        (sizes, &[1], Some(14)),
        (sizes, &[2, 0, 0], Some(14)),
        (sizes, &[2, 1, 0, 1, 0], Some(14)),
        (sizes, &[2, 1, 0, 1, 0, 0], None),
        (sizes, &[0, 0], Some(15)),
        (&[1; 7], &[6, 0, 0, 1, 2, 3, 4, 5], None),
        (&[1; 7], &[7, 0, 0, 1, 2, 3, 4, 5, 6], Some(15)),
        (sizes, &[1, 0, 2], None),
        (sizes, &[1, 0, 3], Some(16)),
        (sizes, &[2, 0, 1, 1], Some(17)),
        (sizes, &[1, 1, 2, 1], None),
        (sizes, &[1, 1, 2, 2], Some(18)),
        (sizes, &[1, 1, 2, u16::MAX], Some(18)),
    ];
    for (sizes, rule_list, expected) in cases {
        assert_eq!(
            refused(sizes, rule_list),
            *expected,
            "{sizes:?} {rule_list:?}"
        );
    }
}

#[test]
fn more_rows_than_a_number_holds_are_refused_and_never_cut() {
    let rows = vec![[0]; 65_537]; // as 16 bits this would be 1
    assert_eq!(
        Desk::open(&Catalogue::new(&[3]).rule(&[0], &rows)),
        Err(Refusal::RuleListLength)
    );
    let empty_rows = vec![[]; 65_537];
    assert_eq!(
        Desk::open(&Catalogue::new(&[3]).rule(&[], &empty_rows)),
        Err(Refusal::Arity)
    );
}

#[test]
fn numbers_above_16_bits_are_refused_and_never_cut() {
    let open = |features: &[usize], row: &[usize]| {
        let catalogue = Catalogue::new(&[3, 3]).rule_of_rows(features, &[row]);
        Desk::open(&catalogue.expect("an even row")).err()
    };
    assert_eq!(open(&[0, 1], &[2, 2]), None);
    for cut_to_0 in [1 << 16, 1 << 32] {
        assert_eq!(open(&[cut_to_0, 1], &[2, 2]), Some(Refusal::RuleFeature));
        assert_eq!(open(&[0, 1], &[2, cut_to_0]), Some(Refusal::RowOption));
        let by_type = Catalogue::new(&[3, 3]).rule(&[0, 1], &[[2, cut_to_0]]);
        assert_eq!(Desk::open(&by_type), Err(Refusal::RowOption));
        let sized = Catalogue::new(&[3, cut_to_0 + 3]);
        assert_eq!(Desk::open(&sized), Err(Refusal::Size));
    }
}

#[test]
fn the_builder_writes_what_from_numbers_takes() {
    let list = [
        2, 4, 0, 1, 0, 1, 1, 0, 1, 2, 2, 1, 2, 4, 1, 2, 0, 0, 1, 1, 2, 0, 2, 1,
    ];
    assert_eq!(trolley(), Catalogue::from_numbers(&[3, 3, 2], &list));
}

/// Makes a call that is refused, and looks that the desk is as it was.
fn refuse(desk: &mut Desk, call: impl Fn(&mut Desk) -> Option<Refusal>) -> u8 {
    let before = desk.clone();
    let refusal = call(desk).expect("a refusal");
    assert_eq!(*desk, before);
    refusal.number()
}

/// A desk on the trolley with seat 0 closed, 1 at work, and 2 ready with option 0 chosen for feature 2.
fn three_seats() -> Result<Desk, Refusal> {
    let mut desk = Desk::open(&trolley())?;
    desk.enter(2)?;
    finish(&mut desk)?;
    desk.choose(2, 2, 0)?;
    finish(&mut desk)?;
    desk.enter(1)?;
    desk.turns(7)?;
    Ok(desk)
}

#[test]
fn calls_are_refused_by_the_table() -> Result<(), Refusal> {
    let mut desk = three_seats()?;
    let mut number = |call: &dyn Fn(&mut Desk) -> Option<Refusal>| refuse(&mut desk, call);
    for (seat, expected) in [(usize::MAX, 30), (8, 30), (0, 31), (1, 33)] {
        assert_eq!(number(&|desk| desk.choose(seat, 99, 99).err()), expected);
        assert_eq!(number(&|desk| desk.relax(seat, 99).err()), expected);
        assert_eq!(number(&|desk| desk.options(seat, 99).err()), expected);
        assert_eq!(number(&|desk| desk.alternatives(seat, 99).err()), expected);
        assert_eq!(number(&|desk| desk.example(seat, 99, 99).err()), expected);
    }
    assert_eq!(number(&|desk| desk.enter(8).err()), 30);
    assert_eq!(number(&|desk| desk.leave(8).err()), 30);
    assert_eq!(number(&|desk| desk.leave(0).err()), 31);
    assert_eq!(number(&|desk| desk.ran_into(usize::MAX).err()), 30);
    assert_eq!(number(&|desk| desk.ran_into(8).err()), 30);
    assert_eq!(number(&|desk| desk.ran_into(0).err()), 31);
    assert_eq!(number(&|desk| desk.enter(1).err()), 32);
    assert_eq!(number(&|desk| desk.enter(2).err()), 32);
    assert_eq!(number(&|desk| desk.choose(2, 3, 99).err()), 34);
    assert_eq!(number(&|desk| desk.relax(2, 3).err()), 34);
    assert_eq!(number(&|desk| desk.options(2, 3).err()), 34);
    assert_eq!(number(&|desk| desk.alternatives(2, 3).err()), 34);
    assert_eq!(number(&|desk| desk.alternatives(2, usize::MAX).err()), 34);
    assert_eq!(number(&|desk| desk.example(2, 3, 0).err()), 34);
    assert_eq!(number(&|desk| desk.choose(2, 2, 2).err()), 35);
    assert_eq!(number(&|desk| desk.example(2, 2, 2).err()), 35);
    assert_eq!(number(&|desk| desk.choose(2, 2, 0).err()), 36);
    assert_eq!(number(&|desk| desk.choose(2, 2, 1).err()), 36);
    assert_eq!(number(&|desk| desk.choose(2, 1, 1).err()), 37);
    assert_eq!(number(&|desk| desk.example(2, 1, 1).err()), 37);
    assert_eq!(number(&|desk| desk.relax(2, 0).err()), 38);
    assert_eq!(number(&|desk| desk.alternatives(2, 0).err()), 38);
    assert_eq!(number(&|desk| desk.alternatives(2, 1).err()), 38);
    assert_eq!(desk.alternatives(2, 2)?.mask(), 3);
    assert_eq!((desk.ran_into(1)?, desk.ran_into(2)?), (Some(1), None)); // at work, and ready
    Ok(())
}

#[test]
fn every_refusal_says_its_number_and_words_of_its_own() {
    let numbers: Vec<u8> = Refusal::ALL
        .iter()
        .map(|refusal| refusal.number())
        .collect();
    assert_eq!(
        numbers,
        [1, 10, 11, 12, 13, 14, 15, 16, 17, 18, 20, 30, 31, 32, 33, 34, 35, 36, 37, 38]
    );
    let words: BTreeSet<String> = Refusal::ALL
        .iter()
        .map(|refusal| refusal.to_string())
        .collect();
    assert_eq!(words.len(), numbers.len());
    for refusal in Refusal::ALL {
        assert!(refusal
            .to_string()
            .ends_with(&format!(" (refusal {})", refusal.number())));
        assert_eq!(Refusal::from_number(refusal.number()), Some(*refusal));
    }
    assert_eq!(
        (0..=255).filter_map(Refusal::from_number).count(),
        numbers.len()
    );
}

//! What is measured is the same: the desk and both plain versions make the same steps, and what is broken gets the same
//! number from the desk and from the checked version.

use crate::families::{trolley, Family};
use crate::ffi::DeskRecord;
use crate::seat::{Seat, BOARD, NONE};
use crate::{checked, door, measure, plain, Catalogue};

/// After each of some calls, answers, records and boards are equal: while seats work on their first jobs, and then on jobs
/// under choices.
pub fn same_steps<const BY_LAST: bool>(family: &Family, seats: usize) {
    let grouped = plain::Grouped::<BY_LAST>::new(&family.catalogue);
    let mut desk = measure::busy_desk(family, seats);
    let mut plain = measure::busy_plain(&grouped, seats);
    let mut checked = measure::busy_checked(family, seats);
    same_turns(family, &mut desk, &mut plain, &mut checked);
    for c in 0..seats {
        let choices = some_choices(family.catalogue.sizes(), c);
        desk.post(c, choices);
        plain.post(c, choices);
        checked.post(c, choices);
    }
    same_turns(family, &mut desk, &mut plain, &mut checked);
    for (c, i) in places(family) {
        assert_eq!(
            desk.alternatives(c, i),
            checked.alternatives(c, i),
            "{}: alternatives",
            family.name
        );
    }
    for c in 0..=8 {
        assert_eq!(
            desk.ran_into(c),
            checked.ran_into(c),
            "{}: the rule run into",
            family.name
        );
    }
}

/// Choices at a third of the features, other ones for each seat.
fn some_choices(sizes: &[u8], c: usize) -> [u8; 16] {
    let mut choices = [NONE; 16];
    for (f, &size) in sizes.iter().enumerate() {
        if (f + c) % 3 == 0 {
            choices[f] = (5 * f + c) as u8 % size;
        }
    }
    choices
}

/// The seats and features, with one too many of each.
fn places(family: &Family) -> impl Iterator<Item = (usize, usize)> {
    let features = family.catalogue.sizes().len();
    (0..=8).flat_map(move |c| (0..=features).map(move |i| (c, i)))
}

fn same_turns<const BY_LAST: bool>(
    family: &Family,
    desk: &mut door::Desk,
    plain: &mut plain::Desk<BY_LAST>,
    checked: &mut checked::Host,
) {
    for w in (0..64).chain([0, 999, 65535, 65535, 1, 65535]) {
        let answer = desk.turns(w);
        let record = door::plain_desk(&desk.record);
        assert_eq!(answer, plain.turns(w), "{}: plain answer", family.name);
        assert_eq!(record.next, plain.next, "{}: plain next seat", family.name);
        assert_eq!(record.seats, plain.seats, "{}: plain seats", family.name);
        assert!(desk.board == plain.board, "{}: plain board", family.name);
        assert_eq!(answer, checked.turns(w), "{}: checked answer", family.name);
        assert_eq!(record, checked.desk, "{}: checked desk", family.name);
        assert!(
            desk.board == checked.board,
            "{}: checked board",
            family.name
        );
    }
}

/// On the trolley: choosing posts the same job, its end shows the paper's masks, and what could replace a choice is
/// answered alike, with each number from 30 on that the call can give; also of records that no search would leave.
pub fn same_alternatives() {
    let trolley = trolley();
    let mut desk = door::Desk::open(&trolley.catalogue);
    desk.enter(2);
    desk.turns(65535);
    assert_eq!(desk.choose(2, 2, 0), 0);
    let mut choices = [NONE; 16];
    choices[2] = 0;
    assert_eq!(door::plain_desk(&desk.record).seats[2], Seat::post(choices));
    assert_eq!(desk.turns(65535), (43, false));
    let ready = door::plain_desk(&desk.record).seats[2];
    assert_eq!(
        (&ready.masks[..3], &ready.alternatives[..3]),
        (&[2, 5, 1][..], &[0, 0, 3][..])
    );

    let mut met = Vec::new();
    for shown in [3, 2, 1, 0] {
        let mut record = whole_desk();
        record.seats[2].alternatives[2] = shown;
        for (c, i) in places(&trolley) {
            let answer = alternatives_of_both(&record, &desk.board, &trolley.catalogue, c, i);
            met.push(answer.map_or_else(|number| number, |_| 0));
            if (c, i) == (2, 2) {
                assert_eq!(answer, Ok((shown, shown.count_ones())));
            }
        }
    }
    met.sort_unstable();
    met.dedup();
    assert_eq!(met, [0, 30, 31, 33, 34, 38]);
}

fn alternatives_of_both(
    record: &DeskRecord,
    board: &[u8],
    catalogue: &Catalogue,
    c: usize,
    i: usize,
) -> Result<(u16, u32), u8> {
    let (sizes, rules) = (catalogue.sizes(), catalogue.rule_list());
    let answer = door::alternatives(record, board, catalogue, c, i);
    let plain = door::plain_desk(record);
    let checked_answer = checked::alternatives(&plain, board, sizes, rules, c, i);
    assert_eq!(answer, checked_answer, "alternatives {} {}", c, i);
    answer
}

/// On the trolley: after each of some turns the rules that the paper's test names, and what is answered of every seat is
/// alike, with each number from 30 on that the call can give; also of records that no search would leave.
pub fn same_ran_into() {
    let trolley = trolley();
    let mut desk = door::Desk::open(&trolley.catalogue);
    desk.enter(2);
    for rule in [NONE, NONE, 0, 0, 1, 1] {
        assert_eq!(desk.ran_into(2), Ok(rule));
        desk.turns(1);
    }
    desk.turns(65535);
    assert_eq!(desk.ran_into(2), Ok(NONE));

    let mut met = Vec::new();
    for shown in [0, 1, NONE] {
        let mut record = whole_desk();
        record.seats[5].broken = shown;
        for c in 0..=8 {
            let answer = ran_into_of_both(&record, &desk.board, &trolley.catalogue, c);
            met.push(answer.map_or_else(|number| number, |_| 0));
            if c == 5 {
                assert_eq!(answer, Ok(shown));
            }
        }
    }
    met.sort_unstable();
    met.dedup();
    assert_eq!(met, [0, 30, 31]);
}

fn ran_into_of_both(
    record: &DeskRecord,
    board: &[u8],
    catalogue: &Catalogue,
    c: usize,
) -> Result<u8, u8> {
    let (sizes, rules) = (catalogue.sizes(), catalogue.rule_list());
    let answer = door::ran_into(record, board, catalogue, c);
    let plain = door::plain_desk(record);
    let checked_answer = checked::ran_into(&plain, board, sizes, rules, c);
    assert_eq!(answer, checked_answer, "the rule run into {}", c);
    answer
}

/// A call of turns, of alternatives, or of the rule run into, that is refused.
struct Broken {
    fault: &'static str,
    board_length: usize,
    catalogue: Catalogue,
    desk: DeskRecord,
}

/// The checked version's number is the desk's, both leave desk and board as they came, and each number is met.
pub fn same_refusals() {
    let mut met: Vec<u8> = broken_calls().iter().map(number_of_both).collect();
    met.sort_unstable();
    met.dedup();
    assert_eq!(met, [1, 10, 11, 12, 13, 14, 15, 16, 17, 18, 20]);
}

fn number_of_both(call: &Broken) -> u8 {
    let board: Vec<u8> = (0..call.board_length).map(|n| n as u8).collect();
    let (mut desk, mut desk_board) = (call.desk, board.clone());
    let answer = door::turns(&mut desk, &mut desk_board, &call.catalogue, 9);
    assert!(
        desk == call.desk && desk_board == board,
        "{}: the desk changed",
        call.fault
    );

    let (sizes, rules) = (call.catalogue.sizes(), call.catalogue.rule_list());
    let given = door::plain_desk(&call.desk);
    let (mut checked, mut checked_board) = (given.clone(), board.clone());
    let checked_answer = checked::turns(&mut checked, &mut checked_board, sizes, rules, 9);
    assert!(
        checked == given && checked_board == board,
        "{}: the checked desk changed",
        call.fault
    );

    assert_eq!(answer, checked_answer, "{}: answers", call.fault);
    let number = answer.expect_err(call.fault);
    let read = alternatives_of_both(&call.desk, &board, &call.catalogue, 9, 9);
    assert_eq!(read, Err(number), "{}: alternatives", call.fault);
    let ran_into = ran_into_of_both(&call.desk, &board, &call.catalogue, 9);
    assert_eq!(ran_into, Err(number), "{}: the rule run into", call.fault);
    number
}

fn broken_calls() -> Vec<Broken> {
    let mut calls = broken_boards();
    calls.extend(broken_catalogues());
    calls.extend(broken_records());
    calls
}

/// On the trolley, seat 2 is ready with option 0 of feature 2 chosen, seat 5 at work at depth 1 of its first pair, and the
/// others are closed.
fn whole_desk() -> DeskRecord {
    let trolley = trolley();
    let mut desk = door::Desk::open(&trolley.catalogue);
    desk.enter(2);
    desk.turns(65535);
    desk.choose(2, 2, 0);
    desk.turns(65535);
    desk.enter(5);
    desk.turns(1);
    desk.record
}

fn broken_boards() -> Vec<Broken> {
    let of_length = |fault, board_length| Broken {
        fault,
        board_length,
        catalogue: Catalogue::from_numbers(&[], &[1]),
        desk: whole_desk(),
    };
    vec![
        of_length("no board, before all other faults", 0),
        of_length("a board short of one byte", BOARD - 1),
        of_length("a board longer by one byte", BOARD + 1),
    ]
}

fn broken_catalogues() -> Vec<Broken> {
    let mut desk = whole_desk();
    desk.next = 8; // the catalogue's faults come before those of the desk
    let of_numbers = |fault, sizes: &[u8], rules: &[u16]| Broken {
        fault,
        board_length: BOARD,
        catalogue: Catalogue::from_numbers(sizes, rules),
        desk,
    };
    let sizes = &[3, 3, 2];
    let any_0 = [1, 1, 0, 0]; // feature 0 has option 0
    vec![
        of_numbers("no feature", &[], &[]),
        of_numbers("17 features, before their sizes", &[0; 17], &[]),
        of_numbers(
            "a size of 0, before the list's length",
            &[3, 0, 2],
            &[1; 8193],
        ),
        of_numbers("a size of 17", &[3, 17, 2], &[]),
        of_numbers("8,193 numbers, before the first of them", sizes, &[9; 8193]),
        of_numbers("65 rules", sizes, &any_0.repeat(65)),
        of_numbers(
            "one number after 64 rules",
            sizes,
            &[&any_0.repeat(64)[..], &[1]].concat(),
        ),
        of_numbers("half a header", sizes, &[1]),
        of_numbers("an arity of 0", sizes, &[0, 1]),
        of_numbers(
            "an arity of 7, before its features are missing",
            sizes,
            &[7, 1],
        ),
        of_numbers("a feature is missing", sizes, &[2, 1, 0]),
        of_numbers("a row is cut short", sizes, &[2, 1, 0, 1, 0]),
        of_numbers(
            "the rows of a second rule are missing",
            sizes,
            &[1, 1, 0, 0, 1, 65535, 0, 9],
        ),
        of_numbers(
            "no feature 3, before the rows are missing",
            sizes,
            &[2, 9, 0, 3],
        ),
        of_numbers("no feature 65,535", sizes, &[1, 0, 65535]),
        of_numbers(
            "feature 1 twice, before a missing one",
            sizes,
            &[3, 1, 1, 1, 9],
        ),
        of_numbers("no option 2 of feature 2", sizes, &[2, 2, 0, 2, 2, 1, 2, 2]),
        of_numbers(
            "no option 256, before the next rule's arity",
            sizes,
            &[1, 1, 0, 256, 0, 0],
        ),
    ]
}

fn broken_records() -> Vec<Broken> {
    let edited = |fault, edit: fn(&mut DeskRecord)| {
        let mut desk = whole_desk();
        edit(&mut desk);
        Broken {
            fault,
            board_length: BOARD,
            catalogue: trolley().catalogue,
            desk,
        }
    };
    vec![
        edited("next is 8", |desk| desk.next = 8),
        edited("a choice of option 2 of feature 2", |desk| {
            desk.seats[2].choices[2] = 2
        }),
        edited("a choice for a missing feature", |desk| {
            desk.seats[2].choices[3] = 0
        }),
        edited("a mask with a bit too many", |desk| {
            desk.seats[5].masks[2] = 4
        }),
        edited("a mask for a missing feature", |desk| {
            desk.seats[2].masks[15] = 1
        }),
        edited("an alternative that is no option", |desk| {
            desk.seats[2].alternatives[2] = 4
        }),
        edited("an alternative where nothing is chosen", |desk| {
            desk.seats[2].alternatives[0] = 2
        }),
        edited("an alternative for a missing feature", |desk| {
            desk.seats[2].alternatives[15] = 1
        }),
        edited("an alternative at work where nothing is chosen", |desk| {
            desk.seats[5].alternatives[1] = 1
        }),
        edited("at work for a missing feature", |desk| {
            desk.seats[5].feature = 3
        }),
        edited("at work for a missing option", |desk| {
            desk.seats[5].option = 3
        }),
        edited("at work at a missing depth", |desk| desk.seats[5].depth = 3),
        edited("a missing option to be tried next", |desk| {
            desk.seats[5].next = 3
        }),
        edited("a missing option placed", |desk| desk.seats[5].trial[0] = 3),
        edited("nothing placed before the depth", |desk| {
            desk.seats[5].trial[0] = NONE
        }),
        edited("an option placed at the depth", |desk| {
            desk.seats[5].trial[1] = 0
        }),
        edited("an option placed in a ready seat", |desk| {
            desk.seats[2].trial[0] = 0
        }),
        edited("an option placed in a closed seat", |desk| {
            desk.seats[0].trial[15] = 0
        }),
        edited("no rule 2 at work", |desk| desk.seats[5].broken = 2),
        edited("no rule 254 at work", |desk| desk.seats[5].broken = 254),
        edited("a rule in a ready seat", |desk| desk.seats[2].broken = 0),
        edited("a rule in a closed seat", |desk| desk.seats[0].broken = 1),
        edited("a choice in a closed seat", |desk| {
            desk.seats[7].choices[0] = 1
        }),
        edited("a mask in a closed seat", |desk| desk.seats[7].masks[0] = 1),
        edited("an alternative in a closed seat", |desk| {
            desk.seats[7].alternatives[0] = 1
        }),
    ]
}

//! The paper's worked cases, and the readings that these cases alone do not tell apart.

use crate::builds::{alternatives, builds, rule_after, shown, steps_by_pair, wrong_when_ready};
use crate::catalogue::{read, Catalogue};
use crate::desk::{Desk, Lent, BOARD};
use crate::expect::transcript;
use crate::record::{Record, State, NONE};
use crate::words;
use crate::search::{post, step};

const TROLLEY: [u16; 24] =
    [2, 4, 0, 1, 0, 1, 1, 0, 1, 2, 2, 1, 2, 4, 1, 2, 0, 0, 1, 1, 2, 0, 2, 1];

fn trolley() -> Catalogue {
    read(&[3, 3, 2], &TROLLEY).unwrap()
}

/// The transcript's lines, without the end line.
pub(crate) fn answers(script: &str) -> Vec<String> {
    let (out, session) = transcript(script.as_bytes());
    assert_eq!(session.run.problems, Vec::<String>::new());
    let text = String::from_utf8(out).unwrap();
    let mut lines: Vec<String> = text.lines().map(str::to_string).collect();
    assert!(lines.pop().unwrap().starts_with("end: "));
    lines
}

pub(crate) fn last(script: &str) -> String {
    answers(script).pop().unwrap()
}

/// The refusal number of the script's last line, 0 for none.
fn refusal(script: &str) -> u16 {
    match last(script).strip_prefix("refused ") {
        None => 0,
        Some(rest) => rest.split(':').next().unwrap().parse().unwrap(),
    }
}

fn written(build: &[u8; 16], features: usize) -> String {
    build[..features].iter().map(|option| option.to_string()).collect()
}

#[test]
fn p1_builds_in_order() {
    let found: Vec<String> = builds(&trolley()).unwrap().iter().map(|b| written(b, 3)).collect();
    assert_eq!(found, ["011", "100", "120", "121", "211"]);
}

#[test]
fn p2_to_p5_options_and_examples() {
    let script = "enter 0\nturns 39\noptions 0 0\noptions 0 1\noptions 0 2\n\
                  example 0 0 1\nexample 0 1 2\nexample 0 2 1\n";
    let tail = " - - - - - - - - - - - - -";
    assert_eq!(
        answers(script)[1..],
        [
            "39 turns made, no seat is at work".to_string(),
            "feature 0: 3 left: 0 1 2".to_string(),
            "feature 1: 3 left: 0 1 2".to_string(),
            "feature 2: 2 left: 0 1".to_string(),
            format!("option 1 of feature 0: 1 0 0{}", tail),
            format!("option 2 of feature 1: 1 2 0{}", tail),
            format!("option 1 of feature 2: 0 1 1{}", tail),
        ]
    );
}

/// Steps by pair of the search itself, from a fresh job to readiness.
fn searched(catalogue: &Catalogue, choices: [u8; 16]) -> (Vec<u64>, Record) {
    let mut record = Record::closed();
    record.choices = choices;
    post(catalogue, &mut record);
    let mut share = vec![NONE; 4096];
    let mut steps: Vec<u64> = Vec::new();
    let mut pair = None;
    while let State::AtWork { i, a, .. } = record.state {
        if pair != Some((i, a)) {
            pair = Some((i, a));
            steps.push(0);
        }
        *steps.last_mut().unwrap() += 1;
        step(catalogue, &mut record, &mut share);
    }
    (steps, record)
}

#[test]
fn p6_steps_of_the_first_job() {
    let expected = vec![5, 3, 5, 5, 4, 5, 8, 4];
    assert_eq!(searched(&trolley(), [NONE; 16]).0, expected);
    assert_eq!(steps_by_pair(&trolley(), &[NONE; 16]), expected);
    assert_eq!(expected.iter().sum::<u64>(), 39);
}

#[test]
fn p7_p8_after_choosing() {
    let mut choices = [NONE; 16];
    choices[2] = 0;
    // The last pair by R-6: feature 2's choice set aside, option 1 alone there. 0 placed; 0 fails
    // after it, 1 passes; then 1 passes: 011, four steps.
    let expected = vec![5, 3, 5, 5, 8, 5, 8, 4];
    let (steps, record) = searched(&trolley(), choices);
    assert_eq!(steps, expected);
    assert_eq!(steps_by_pair(&trolley(), &choices), expected);
    assert_eq!(expected.iter().sum::<u64>(), 43);
    assert_eq!(record.masks[..3], [2, 5, 1]);
    assert_eq!(shown(&trolley(), &builds(&trolley()).unwrap(), &choices).0[..3], [2, 5, 1]);
    assert_eq!(record.alternatives[..3], [0, 0, 3]);
    assert_eq!(alternatives(&builds(&trolley()).unwrap(), &choices)[..3], [0, 0, 3]);
}

/// Document 002, Example 1, as one rule: values 1 to 4 are options 0 to 3.
fn all_different() -> Vec<u16> {
    let mut list = vec![3, 24, 0, 1, 2];
    for row in 0..64 {
        let (x, y, z) = (row / 16, row / 4 % 4, row % 4);
        if x != y && x != z && y != z {
            list.extend([x, y, z]);
        }
    }
    list
}

/// The same as three rules, each two features unequal.
fn two_by_two() -> Vec<u16> {
    let mut list = Vec::new();
    for (a, b) in [(0, 1), (0, 2), (1, 2)] {
        list.extend([2, 12, a, b]);
        for row in (0..16).filter(|row| row / 4 != row % 4) {
            list.extend([row / 4, row % 4]);
        }
    }
    list
}

/// After x1 = 1, then x2 = 4, masks and alternatives are those of Table 1; the steps of each pair by
/// hand.
#[test]
fn example_1_and_table_1() {
    let two_by_two = read(&[4, 4, 4], &two_by_two()).unwrap();
    let all_different = read(&[4, 4, 4], &all_different()).unwrap();
    let check = |catalogue: &Catalogue, chosen: [u8; 3], masks: [[u16; 3]; 2], pairs: [u64; 12]| {
        let mut choices = [NONE; 16];
        choices[..3].copy_from_slice(&chosen);
        let (steps, record) = searched(catalogue, choices);
        assert_eq!(steps, pairs);
        assert_eq!(steps_by_pair(catalogue, &choices), pairs);
        assert_eq!((&record.masks[..3], &record.alternatives[..3]), (&masks[0][..], &masks[1][..]));
        let found = builds(catalogue).unwrap();
        assert_eq!(record.masks, shown(catalogue, &found, &choices).0);
        assert_eq!(record.alternatives, alternatives(&found, &choices));
        steps.iter().sum::<u64>()
    };
    let k = |catalogue: &Catalogue, pairs: [[u64; 12]; 3]| {
        [
            check(catalogue, [NONE; 3], [[15, 15, 15], [0, 0, 0]], pairs[0]),
            check(catalogue, [0, NONE, NONE], [[1, 14, 14], [15, 0, 0]], pairs[1]),
            check(catalogue, [0, 3, NONE], [[1, 8, 6], [7, 14, 0]], pairs[2]),
        ]
    };
    let pairs = [
        [6, 5, 4, 4, 7, 5, 4, 4, 14, 6, 4, 4],
        [6, 5, 4, 4, 2, 5, 4, 4, 8, 6, 4, 4],
        [4, 3, 3, 2, 2, 5, 4, 4, 3, 3, 3, 3],
    ];
    assert_eq!(k(&two_by_two, pairs), [67, 56, 39]);
    let pairs = [
        [10, 5, 4, 4, 11, 5, 4, 4, 16, 7, 5, 5],
        [10, 5, 4, 4, 6, 5, 4, 4, 9, 7, 5, 5],
        [4, 3, 3, 6, 6, 5, 4, 4, 3, 3, 3, 3],
    ];
    assert_eq!(k(&all_different, pairs), [80, 68, 47]);
}

/// Example 1 as calls, with its one rule.
#[test]
fn example_1_by_calls() {
    let list: String = all_different().iter().map(|number| format!(" {}", number)).collect();
    let script = format!(
        "sizes 4 4 4\nrules{}\nopen\nenter 5\nturns 65535\nalternatives 5 0\nchoose 5 0 0\n\
         alternatives 5 0\nturns 65535\nalternatives 5 0\nchoose 5 1 3\nturns 65535\nalternatives 5 0\n\
         alternatives 5 1\nalternatives 5 2\noptions 5 2\nlist 5\n",
        list
    );
    assert_eq!(
        answers(&script)[4..],
        [
            "80 turns made, no seat is at work",
            "refused 38: feature 0 has no choice",
            "seat 5 chose option 0 of feature 0 and is at work",
            "refused 33: seat 5 is at work",
            "68 turns made, no seat is at work",
            "feature 0: 4 alternatives: 0 1 2 3",
            "seat 5 chose option 3 of feature 1 and is at work",
            "47 turns made, no seat is at work",
            "feature 0: 3 alternatives: 0 1 2",
            "feature 1: 3 alternatives: 1 2 3",
            "refused 38: feature 2 has no choice",
            "feature 2: 2 left: 1 2",
            "seat 5 is ready",
            "feature 0: 1 left: 0; with 0: 0 3 1; chosen; alternatives: 0 1 2",
            "feature 1: 1 left: 3; with 3: 0 3 1; chosen; alternatives: 1 2 3",
            "feature 2: 2 left: 1 2; with 1: 0 3 1",
            "at work: none",
        ]
    );
}

#[test]
fn the_trolleys_alternatives() {
    let chosen = "enter 0\nturns 39\nchoose 0 2 0\n";
    // "its bit is set at posting"
    let posted = last(&format!("{}seat 0\n", chosen));
    assert!(posted.contains("; masks 0 0 0 0 0 0 0 0 0 0 0 0 0 0 0 0; alternatives 0 0 1 0 0 "), "{}", posted);
    // Not found before the last step of the last pair.
    let almost = last(&format!("{}turns 42\nseat 0\n", chosen));
    assert!(almost.contains("; masks 2 5 1 0 "), "{}", almost);
    assert!(almost.contains("at work at feature 2 option 1 depth 2 next 1;"), "{}", almost);
    assert!(almost.contains("; alternatives 0 0 1 0 "), "{}", almost);
    let ready = format!("{}turns 43\n", chosen);
    assert!(last(&format!("{}seat 0\n", ready)).contains("ready; choices - - 0 - "));
    assert_eq!(last(&format!("{}alternatives 0 2\n", ready)), "feature 2: 2 alternatives: 0 1");
    assert_eq!(refusal(&format!("{}alternatives 0 1\n", ready)), 38);
    // An alternative has no example and is not left; the feature has a choice all the same.
    assert_eq!(refusal(&format!("{}example 0 2 1\n", ready)), 37);
    assert_eq!(refusal(&format!("{}choose 0 2 1\n", ready)), 36);
    assert_eq!(last(&format!("{}share 0\n", ready)), "share 0: 4 examples");
    // With option 1 of feature 0 beside it the builds are 100 and 120: 0 and 2 are no alternatives
    // there (011 and 211 have option 1 at feature 2), 0 and 1 are at feature 2 (100 and 121).
    let both = format!("{}choose 0 0 1\nturns 65535\n", ready);
    assert_eq!(last(&format!("{}alternatives 0 0\n", both)), "feature 0: 1 alternatives: 1");
    assert_eq!(last(&format!("{}alternatives 0 2\n", both)), "feature 2: 2 alternatives: 0 1");
    // Posting forgets the bits found before, also those of the other choices.
    let again = format!("{}choose 0 1 0\nseat 0\n", both);
    assert!(last(&again).contains("; alternatives 2 1 1 0 "), "{}", last(&again));
    let dropped = format!("{}relax 0 2\nseat 0\n", both);
    assert!(last(&dropped).contains("; alternatives 2 0 0 0 "), "{}", last(&dropped));
    // 100 alone: feature 0 keeps 1, feature 1 may be 0 or 2 (120), feature 2 keeps 0 (101 is none).
    let alone = format!("{}choose 0 1 0\nturns 65535\nseat 0\n", both);
    assert!(last(&alone).contains("; masks 2 1 1 0 "), "{}", last(&alone));
    assert!(last(&alone).contains("; alternatives 2 5 1 0 "), "{}", last(&alone));
    let left = format!("{}leave 0\nseat 0\n", both);
    assert_eq!(last(&left), last("seat 0\n"));
}

/// "the current domain that it would have if the user would take this assignment back" (002): for
/// all choices that can be made on the trolley and on Example 1.
#[test]
fn relaxing_leaves_exactly_the_alternatives() {
    let mut relaxed = 0;
    for catalogue in [trolley(), read(&[4, 4, 4], &two_by_two()).unwrap()] {
        let mut open = vec![[NONE; 16]];
        while let Some(choices) = open.pop() {
            let ready = searched(&catalogue, choices).1;
            for feature in 0..3 {
                if choices[feature] == NONE {
                    assert_eq!(ready.alternatives[feature], 0);
                    for option in (0..4).filter(|option| ready.masks[feature] & (1 << option) != 0) {
                        let mut more = choices;
                        more[feature] = option;
                        open.push(more);
                    }
                } else {
                    let mut fewer = choices;
                    fewer[feature] = NONE;
                    assert_eq!(searched(&catalogue, fewer).1.masks[feature], ready.alternatives[feature]);
                    relaxed += 1;
                }
            }
        }
    }
    assert!(relaxed > 300, "{}", relaxed);
}

/// Eight ready seats choose in turn; each has 43 steps, and next is 0.
#[test]
fn eight_seats_choose_337_and_344() {
    let enter: String = (0..8).map(|seat| format!("enter {}\n", seat)).collect();
    let choose: String = (0..8).map(|seat| format!("choose {} 2 0\n", seat)).collect();
    let before = format!("{}turns 312\n{}", enter, choose);
    let at = |turns: u32, seat: u32| last(&format!("{}turns {}\nseat {}\n", before, turns, seat));
    for (turn, seat) in [(337, 0), (344, 7)] {
        assert!(at(turn - 1, seat).contains("at work"));
        assert!(at(turn, seat).starts_with(&format!("seat {}: ready;", seat)));
    }
    assert_eq!(last(&format!("{}turns 65535\n", before)), "344 turns made, no seat is at work");
}

#[test]
fn p9_arc_consistent_and_empty() {
    let unequal = |a: u16, b: u16| vec![2, 2, a, b, 0, 1, 1, 0];
    let list = [unequal(0, 1), unequal(0, 2), unequal(1, 2)].concat();
    let catalogue = read(&[2, 2, 2], &list).unwrap();
    assert!(builds(&catalogue).unwrap().is_empty());
    assert_eq!(searched(&catalogue, [NONE; 16]).1.masks, [0; 16]);
}

#[test]
fn p10_one_feature() {
    let catalogue = read(&[1], &[]).unwrap();
    let (steps, record) = searched(&catalogue, [NONE; 16]);
    assert_eq!((steps, record.masks[0]), (vec![1], 1));
}

#[test]
fn eight_seats_305_and_312() {
    let enter: String = (0..8).map(|seat| format!("enter {}\n", seat)).collect();
    let at = |turns: u32, seat: u32| last(&format!("{}turns {}\nseat {}\n", enter, turns, seat));
    for (turn, seat) in [(305, 0), (312, 7)] {
        assert!(at(turn - 1, seat).contains("at work"));
        assert!(at(turn, seat).starts_with(&format!("seat {}: ready;", seat)));
    }
    let end = answers(&format!("{}turns 65535\n", enter));
    assert_eq!(end[8], "312 turns made, no seat is at work");
}

#[test]
fn the_listings_state() {
    let script = "enter 3\nturns 65535\nchoose 3 2 0\nturns 65535\nlist 3\n";
    assert_eq!(
        answers(script)[3..],
        [
            "43 turns made, no seat is at work",
            "seat 3 is ready",
            "feature 0: 1 left: 1; with 1: 1 0 0",
            "feature 1: 2 left: 0 2; with 0: 1 0 0",
            "feature 2: 1 left: 0; with 0: 1 0 0; chosen; alternatives: 0 1",
            "at work: none",
        ]
    );
}

#[test]
fn edges_of_the_trolley_by_hand() {
    let full = |arity: usize| {
        let scope: String = (0..arity).map(|feature| format!(" {}", feature)).collect();
        format!("sizes 2 2 2 2 2 2 2\nrules {} 1{}{}\nopen\n", arity, scope, " 0".repeat(arity))
    };
    assert_eq!((refusal(&full(6)), refusal(&full(7))), (0, 15));
    let many = |count: usize| format!("rules{}\nopen\n", " 1 1 0 0".repeat(count));
    assert_eq!((refusal(&many(64)), refusal(&many(65))), (0, 13));
    let board = |length: usize| refusal(&format!("board {} 255\nopen\n", length));
    assert_eq!((board(32_767), board(32_768), board(32_769)), (1, 0, 1));
    let long = |count: usize| format!("rules 1 {} 0{}\nopen\n", count - 3, " 1".repeat(count - 3));
    assert_eq!((refusal(&long(8192)), refusal(&long(8193))), (0, 12));
    let chosen = "enter 0\nturns 39\nchoose 0 2 0\n";
    assert_eq!(refusal(&format!("{}choose 0 2 0\n", chosen)), 33);
    assert_eq!(refusal(&format!("{}turns 42\nchoose 0 2 0\n", chosen)), 33);
    assert_eq!(refusal(&format!("{}turns 43\nchoose 0 2 0\n", chosen)), 36);
    assert_eq!(refusal(&format!("{}turns 43\nchoose 0 2 1\n", chosen)), 36);
    assert_eq!(refusal(&format!("{}turns 43\nchoose 0 2 2\n", chosen)), 35);
}

#[test]
fn faults_in_their_order() {
    let fault = |sizes: &[u8], list: &[u16]| read(sizes, list).err().unwrap_or(0);
    assert_eq!(fault(&[2], &[3, 1, 0, 0, 9]), 17);
    assert_eq!(fault(&[2], &[3, 1, 0, 9, 0]), 16);
    assert_eq!(fault(&[2], &[7]), 14);
    assert_eq!(fault(&[2], &[7, 0]), 15);
    assert_eq!(fault(&[2], &[1, 2, 0, 9]), 14);
    assert_eq!(fault(&[2], &[1, 1, 0, 2]), 18);
    // k × m = 65,536 does not wrap to 0.
    assert_eq!(fault(&[2, 2], &[2, 32_768, 0, 1]), 14);
    assert_eq!(fault(&[0; 17], &[]), 10);
    assert_eq!(fault(&[0], &[0; 8193]), 11);
    assert_eq!(fault(&[1], &[0; 8193]), 12);
    let mut list = [1u16, 1, 0, 0].repeat(64);
    assert_eq!(fault(&[1], &list), 0);
    list.push(7);
    assert_eq!(fault(&[1], &list), 13);
}

/// One step on a made-up place of seat 0.
fn after_step(setup: &str, share: bool) -> Vec<String> {
    let look = if share { "share 0" } else { "seat 0" };
    let all = answers(&format!("{}\nturns 1\n{}\n", setup, look));
    let from = all.iter().position(|line| line.contains("turns made")).unwrap();
    all[from + 1..].to_vec()
}

fn state_after(setup: &str) -> String {
    after_step(setup, false)[0].split(';').next().unwrap().to_string()
}

#[test]
fn v_that_is_no_candidate_is_placed() {
    let setup = "sizes 3\nrules\nset-work 0 0 1 0 0";
    assert_eq!(after_step(setup, true)[0], format!("option 1 of feature 0: 0{}", " -".repeat(15)));
    assert!(after_step(setup, false)[0].contains("masks 2 0"));
    assert_eq!(state_after(setup), "seat 0: at work at feature 0 option 2 depth 0 next 2");
}

#[test]
fn next_greater_goes_by_value() {
    let setup = "sizes 3\nrules 1 1 0 1\nset-work 0 0 1 0 0";
    assert_eq!(state_after(setup), "seat 0: at work at feature 0 option 1 depth 0 next 1");
    // And so at earlier depths, also where there is one candidate: i = 0, a = 2, placed 0.
    let setup = "sizes 3 1\nrules 1 0 1\nset-work 0 0 2 1 0\nset-trial 0 0 0";
    assert_eq!(state_after(setup), "seat 0: at work at feature 0 option 2 depth 0 next 2");
}

#[test]
fn a_pair_chosen_otherwise_is_searched() {
    // Not at the last feature: v is placed, depth 1 is next, nothing is set.
    let setup = "sizes 2 2\nrules\nset-choice 0 0 1\nset-work 0 0 0 0 0";
    assert_eq!(state_after(setup), "seat 0: at work at feature 0 option 0 depth 1 next 0");
    assert!(after_step(setup, false)[0].contains("; masks 0 0 0 0 0 0 0 0 0 0 0 0 0 0 0 0; alternatives 0 0 "));
    // Found: the bit beside the bits that stand, no example, and the pair ends.
    let setup = "sizes 4\nrules\nset-choice 0 0 3\nset-alternatives 0 0 4\nset-work 0 0 0 0 0";
    assert_eq!(state_after(setup), "seat 0: at work at feature 0 option 1 depth 0 next 1");
    assert!(after_step(setup, false)[0].contains("; masks 0 0 "));
    assert!(after_step(setup, false)[0].contains("; alternatives 5 0 "));
    assert_eq!(after_step(setup, true), ["share 0: 0 examples"]);
    // Not found: 1 at feature 1 is refused, and there is no other candidate anywhere.
    let setup = "sizes 2 2\nrules 1 1 1 0\nset-choice 0 0 1\nset-choice 0 1 1\n\
                 set-work 0 0 0 1 1\nset-trial 0 0 0";
    assert_eq!(state_after(setup), "seat 0: at work at feature 0 option 1 depth 0 next 1");
    assert!(after_step(setup, false)[0].contains("; alternatives 0 0 "));
    // Only the pair's own choice is set aside: at feature 1 the choice alone is the candidate.
    let setup = "sizes 2 3\nrules\nset-choice 0 0 1\nset-choice 0 1 2\nset-work 0 0 0 0 0";
    assert_eq!(state_after(setup), "seat 0: at work at feature 0 option 0 depth 1 next 2");
}

#[test]
fn a_pair_chosen_otherwise_leaves_masks_and_bytes_as_they_are() {
    // Stale bits and bytes at the pair stay, set or not; v is placed though it is no candidate.
    for (mask, byte) in [(0, 255), (1, 7), (3, 7), (2, 0)] {
        let setup = format!(
            "sizes 2\nrules\nset-choice 0 0 1\nset-mask 0 0 {}\nset-byte 3 {}\nset-work 0 0 0 0 1",
            mask, byte
        );
        let record = &after_step(&setup, false)[0];
        assert!(record.contains(&format!("; masks {} 0 ", mask)), "{}", record);
        assert!(record.contains("; alternatives 1 0 "), "{}", record);
        let bytes = if byte == 255 { "-".to_string() } else { byte.to_string() };
        let shown = format!("option 0 of feature 0: - - - {}{}", bytes, " -".repeat(12));
        let expected = if byte == 255 { "share 0: 0 examples" } else { &shown[..] };
        assert_eq!(after_step(&setup, true)[0], expected);
    }
}

#[test]
fn the_pair_of_the_option_in_force_leaves_the_alternatives_as_they_are() {
    for alternatives in [0, 1, 2, 3] {
        let setup = format!(
            "sizes 2\nrules\nset-choice 0 0 1\nset-alternatives 0 0 {}\nset-work 0 0 1 0 1",
            alternatives
        );
        let record = &after_step(&setup, false)[0];
        assert!(record.starts_with("seat 0: ready;"), "{}", record);
        assert!(record.contains("; masks 2 0 "), "{}", record);
        assert!(record.contains(&format!("; alternatives {} 0 ", alternatives)), "{}", record);
        assert_eq!(after_step(&setup, true)[0], format!("option 1 of feature 0: 1{}", " -".repeat(15)));
    }
}

#[test]
fn a_pair_without_example_writes_nothing() {
    let setup = "sizes 2\nrules 1 0 0\nset-mask 0 0 3\nset-byte 0 7\nset-work 0 0 0 0 0";
    assert!(after_step(setup, false)[0].contains("masks 3 0"));
    assert_eq!(after_step(setup, true)[0], format!("option 0 of feature 0: 7{}", " -".repeat(15)));
}

#[test]
fn passed_asks_only_the_rules_of_j() {
    // The trial breaks the rule on feature 0; the build is written all the same.
    let setup = "sizes 2 1\nrules 1 1 0 1\nset-work 0 1 0 1 0\nset-trial 0 0 0";
    assert_eq!(after_step(setup, true)[0], format!("option 0 of feature 1: 0 0{}", " -".repeat(14)));
}

#[test]
fn j_equal_i_comes_before_the_choice() {
    let place = last("enter 0\nturns 39\nchoose 0 0 1\nseat 0\n");
    assert!(place.starts_with("seat 0: at work at feature 0 option 0 depth 0 next 0;"));
}

#[test]
fn highest_is_the_maximum_and_rows_follow_the_rules_order() {
    let catalogue = read(&[2, 3], &[2, 1, 1, 0, 2, 1]).unwrap();
    assert_eq!(catalogue.rules[0].highest(), 1);
    assert_eq!(builds(&catalogue).unwrap().len(), 1);
    assert_eq!(written(&builds(&catalogue).unwrap()[0], 2), "12");
    assert_eq!(searched(&catalogue, [NONE; 16]).1.masks[..2], [2, 4]);
}

#[test]
fn number_20_easy_to_miss() {
    assert_eq!(refusal("set-trial 5 15 0\nturns 0\n"), 20);
    assert_eq!(refusal("set-work 5 0 0 1 0\nset-trial 5 0 0\nset-trial 5 1 0\nturns 0\n"), 20);
    assert_eq!(refusal("set-work 5 0 0 1 0\nturns 0\n"), 20);
    assert_eq!(refusal("set-work 5 0 0 1 0\nset-trial 5 0 2\nturns 0\n"), 0);
    assert_eq!(refusal("sizes 16\nrules\nset-ready 0\nset-mask 0 0 65535\noptions 0 0\n"), 0);
    assert_eq!(refusal("set-ready 0\nset-choice 0 0 2\noptions 0 0\n"), 0);
    assert_eq!(refusal("set-work 0 0 1 0 0\nset-choice 0 0 2\nturns 0\n"), 0);
    assert_eq!(refusal("set-byte 9 9\nturns 0\n"), 0);
    assert_eq!(refusal("set-next 8\nenter 9\n"), 20);
}

/// R-6's clauses of number 20, on seats that are closed, ready and at work.
#[test]
fn number_20_of_alternatives() {
    let fits = |state: &str, choice: &str, feature: u32, mask: u32| {
        let set = format!("{}\n{}\nset-alternatives 4 {} {}\nturns 0\n", state, choice, feature, mask);
        refusal(&set)
    };
    for state in ["set-ready 4", "set-work 4 1 1 0 0", "set-work 4 0 0 0 0"] {
        // The size of feature 0 is 3: bit 2, bit 3, all below, all.
        let choice = "set-choice 4 0 1";
        let masks = [0, 1, 2, 4, 7, 8, 15, 32_768, 65_535];
        let numbers: Vec<u16> = masks.iter().map(|&mask| fits(state, choice, 0, mask)).collect();
        // 0, 1, 4: the option in force lacks its bit, and it is not 20.
        assert_eq!(numbers, [0, 0, 0, 0, 0, 20, 20, 20, 20]);
        // A choice at another feature is none here; a missing feature has none.
        assert_eq!((fits(state, choice, 1, 0), fits(state, choice, 1, 1)), (0, 20));
        assert_eq!((fits(state, choice, 2, 2), fits(state, choice, 3, 0)), (20, 0));
        assert_eq!((fits(state, choice, 3, 1), fits(state, choice, 15, 32_768)), (20, 20));
        assert_eq!((fits(state, "", 0, 0), fits(state, "", 0, 1)), (0, 20));
    }
    assert_eq!((fits("set-closed 4", "", 0, 0), fits("set-closed 4", "", 0, 1)), (0, 20));
    assert_eq!(fits("set-closed 4", "set-choice 4 0 0", 0, 1), 20);
    // Size 16: every bit is below it.
    let wide = "sizes 16\nrules\nset-ready 4\nset-choice 4 0 3\nset-alternatives 4 0 65535\n";
    let all = format!("feature 0: 16 alternatives:{}", words::bits(65_535));
    assert_eq!(last(&format!("{}alternatives 4 0\n", wide)), all);
    // Every seat is looked at, and 20 comes before 30.
    assert_eq!(refusal("set-alternatives 7 0 1\nalternatives 9 0\n"), 20);
}

#[test]
fn refusals_of_alternatives_in_their_order() {
    let ready = "enter 0\nturns 39\n";
    assert_eq!(refusal(&format!("{}alternatives 0 0\n", ready)), 38);
    assert_eq!(refusal(&format!("{}alternatives 0 2\n", ready)), 38);
    // A missing feature has no choice either: 34 comes first.
    assert_eq!(refusal(&format!("{}alternatives 0 3\n", ready)), 34);
    assert_eq!(refusal(&format!("{}alternatives 0 256\n", ready)), 34);
    assert_eq!(refusal(&format!("{}alternatives 0 4294967295\n", ready)), 34);
    assert_eq!(refusal("alternatives 0 3\n"), 31);
    assert_eq!(refusal("enter 0\nalternatives 0 3\n"), 33);
    assert_eq!(refusal("alternatives 8 3\n"), 30);
    assert_eq!(refusal("rules 0\nalternatives 8 3\n"), 14);
    assert_eq!(refusal("board 0 0\nrules 0\nalternatives 8 3\n"), 1);
    // A made-up seat with none, and how that reads.
    let none = "set-ready 0\nset-choice 0 2 1\n";
    assert_eq!(last(&format!("{}alternatives 0 2\n", none)), "feature 2: 0 alternatives");
    assert_eq!(answers(&format!("{}list 0\n", none))[6], "feature 2: 0 left; chosen; alternatives:");
    assert_eq!(last("alternatives 0\n"), "not understood; write: alternatives SEAT FEATURE");
    let form = "not understood; write: set-alternatives SEAT FEATURE MASK";
    for numbers in ["8 0 0", "0 16 0", "0 0 65536", "0 0"] {
        assert_eq!(last(&format!("set-alternatives {}\n", numbers)), form);
    }
}

/// A step: the seat's place (i, a, j, v) before it, the rule kept after it.
type Kept = (u8, u8, u8, u8, u8);

/// A fresh job's steps, each by its place and the rule that it leaves. The record had a rule before.
fn kept_by_steps(catalogue: &Catalogue) -> Vec<Kept> {
    let mut record = Record::closed();
    record.rule = 7;
    post(catalogue, &mut record);
    assert_eq!(record.rule, NONE);
    let mut share = vec![NONE; 4096];
    let mut kept = Vec::new();
    while let State::AtWork { i, a, j, v } = record.state {
        step(catalogue, &mut record, &mut share);
        kept.push((i, a, j, v, record.rule));
        let again = rule_after(catalogue, &[NONE; 16], kept.len() as u64);
        assert!(again == record.rule || !record.at_work());
    }
    kept
}

/// R-1 on the trolley, all 39 steps by hand. Rule 0 is tested at depth 1, rule 1 at depth 2; each list
/// here is a pair.
#[test]
fn rules_that_the_trolleys_job_runs_into() {
    let by_hand: [&[Kept]; 8] = [
        // 0; 00 breaks 0; 01; 010 breaks 1; 011, and the rule stays over the end of the pair.
        &[(0, 0, 0, 0, NONE), (0, 0, 1, 0, 0), (0, 0, 1, 1, 0), (0, 0, 2, 0, 1), (0, 0, 2, 1, 1)],
        // 1, 10, 100: nothing is broken.
        &[(0, 1, 0, 1, 1), (0, 1, 1, 0, 1), (0, 1, 2, 0, 1)],
        // 2; 20 breaks 0; 21; 210 breaks 1; 211.
        &[(0, 2, 0, 2, 1), (0, 2, 1, 0, 0), (0, 2, 1, 1, 0), (0, 2, 2, 0, 1), (0, 2, 2, 1, 1)],
        // 0; 00 breaks 0, and 0 is alone at feature 1; 1, 10, 100.
        &[(1, 0, 0, 0, 1), (1, 0, 1, 0, 0), (1, 0, 0, 1, 0), (1, 0, 1, 0, 0), (1, 0, 2, 0, 0)],
        // 0, 01; 010 breaks 1; 011.
        &[(1, 1, 0, 0, 0), (1, 1, 1, 1, 0), (1, 1, 2, 0, 1), (1, 1, 2, 1, 1)],
        // 0; 02 breaks 0; 1, 12, 120.
        &[(1, 2, 0, 0, 1), (1, 2, 1, 2, 0), (1, 2, 0, 1, 0), (1, 2, 1, 2, 0), (1, 2, 2, 0, 0)],
        // 0; 00 breaks 0; 01; 010 breaks 1, back; 02 breaks 0, back; 1, 10, 100.
        &[
            (2, 0, 0, 0, 0), (2, 0, 1, 0, 0), (2, 0, 1, 1, 0), (2, 0, 2, 0, 1), (2, 0, 1, 2, 0), (2, 0, 0, 1, 0),
            (2, 0, 1, 0, 0), (2, 0, 2, 0, 0),
        ],
        // 0; 00 breaks 0; 01; 011, and the seat is ready: none.
        &[(2, 1, 0, 0, 0), (2, 1, 1, 0, 0), (2, 1, 1, 1, 0), (2, 1, 2, 1, NONE)],
    ];
    assert_eq!(kept_by_steps(&trolley()), by_hand.concat());
    let said = |turns: usize| last(&format!("enter 3\nturns {}\nran-into 3\n", turns));
    assert_eq!(said(0), "seat 3 has run into no rule");
    for (turns, kept) in by_hand.concat().iter().enumerate() {
        assert_eq!(said(turns + 1), words::ran_into(3, kept.4));
    }
}

/// Rule 0, on features 2 and 0, is tested deeper than rule 1, on features 1 and 0; the rows are in the
/// rules' order: at feature 2 only 1; at features 0 and 1 only 02 and 10. The builds are 021 and 101.
#[test]
fn a_lower_rule_that_is_tested_deeper() {
    let catalogue = read(&[2, 3, 2], &[2, 2, 2, 0, 1, 0, 1, 1, 2, 2, 1, 0, 2, 0, 0, 1]).unwrap();
    let by_hand: [&[Kept]; 7] = [
        // 0; 00 and 01 break 1; 02; 020 breaks 0; 021.
        &[
            (0, 0, 0, 0, NONE), (0, 0, 1, 0, 1), (0, 0, 1, 1, 1), (0, 0, 1, 2, 1), (0, 0, 2, 0, 0),
            (0, 0, 2, 1, 0),
        ],
        // 1, 10; 100 breaks 0; 101.
        &[(0, 1, 0, 1, 0), (0, 1, 1, 0, 0), (0, 1, 2, 0, 0), (0, 1, 2, 1, 0)],
        // 0; 00 breaks 1, back; 1, 10; 100 breaks 0; 101.
        &[
            (1, 0, 0, 0, 0), (1, 0, 1, 0, 1), (1, 0, 0, 1, 1), (1, 0, 1, 0, 1), (1, 0, 2, 0, 0), (1, 0, 2, 1, 0),
        ],
        // 0; 01 breaks 1, back; 1; 11 breaks 1: no example, and the rule stays.
        &[(1, 1, 0, 0, 0), (1, 1, 1, 1, 1), (1, 1, 0, 1, 1), (1, 1, 1, 1, 1)],
        // 0, 02; 020 breaks 0; 021.
        &[(1, 2, 0, 0, 1), (1, 2, 1, 2, 1), (1, 2, 2, 0, 0), (1, 2, 2, 1, 0)],
        // 0; 00 and 01 break 1; 02; 020 breaks 0, back to depth 0; 1, 10; 100 breaks 0, back to depth
        // 1; 11 and 12 break 1: no example.
        &[
            (2, 0, 0, 0, 0), (2, 0, 1, 0, 1), (2, 0, 1, 1, 1), (2, 0, 1, 2, 1), (2, 0, 2, 0, 0), (2, 0, 0, 1, 0),
            (2, 0, 1, 0, 0), (2, 0, 2, 0, 0), (2, 0, 1, 1, 1), (2, 0, 1, 2, 1),
        ],
        // 0; 00 and 01 break 1; 02; 021: ready.
        &[(2, 1, 0, 0, 1), (2, 1, 1, 0, 1), (2, 1, 1, 1, 1), (2, 1, 1, 2, 1), (2, 1, 2, 1, NONE)],
    ];
    assert_eq!(kept_by_steps(&catalogue), by_hand.concat());
}

/// Rule 0, at depth 0, is never broken; rule 1 wants 1 at feature 1, rule 2, on features 1 and 0, wants
/// 11. At depth 1 they are the first and the second.
#[test]
fn of_two_rules_broken_at_once_the_lower_is_named() {
    let list = [1, 2, 0, 0, 1, 2, 2, 0, 1, 0, 1, 1, 1, 2, 1, 1, 0, 1, 1];
    let by_hand: [&[Kept]; 4] = [
        // 0; 00 breaks 1 and 2; 01 breaks 2 alone: no example.
        &[(0, 0, 0, 0, NONE), (0, 0, 1, 0, 1), (0, 0, 1, 1, 2)],
        // 1; 10 breaks both; 11.
        &[(0, 1, 0, 1, 2), (0, 1, 1, 0, 1), (0, 1, 1, 1, 1)],
        // 0; 00 breaks both, back; 1; 10 breaks both: no example.
        &[(1, 0, 0, 0, 1), (1, 0, 1, 0, 1), (1, 0, 0, 1, 1), (1, 0, 1, 0, 1)],
        // 0; 01 breaks 2, back; 1, 11: ready.
        &[(1, 1, 0, 0, 1), (1, 1, 1, 1, 2), (1, 1, 0, 1, 2), (1, 1, 1, 1, NONE)],
    ];
    assert_eq!(kept_by_steps(&read(&[2, 2], &list).unwrap()), by_hand.concat());
}

#[test]
fn the_last_of_64_rules_and_a_last_step_that_fails() {
    // 63 rules that nothing breaks, then one that wants 1.
    let many = format!("sizes 2\nrules{} 1 1 0 1\nopen\nenter 0\n", " 1 2 0 0 1".repeat(63));
    assert_eq!(last(&format!("{}turns 1\nran-into 0\n", many)), "seat 0 last ran into rule 63");
    assert_eq!(last(&format!("{}turns 2\nran-into 0\n", many)), "seat 0 has run into no rule");
    // All 64 are broken at once.
    let all = format!("sizes 2\nrules{}\nopen\nenter 0\nturns 1\nran-into 0\n", " 1 0 0".repeat(64));
    assert_eq!(last(&all), "seat 0 last ran into rule 0");
    // No row: both steps fail, the second makes the seat ready.
    let none = "sizes 2\nrules 1 0 0\nopen\nenter 0\n";
    assert_eq!(last(&format!("{}turns 1\nran-into 0\n", none)), "seat 0 last ran into rule 0");
    let ready = last(&format!("{}turns 2\nseat 0\n", none));
    assert!(ready.starts_with("seat 0: ready;") && ready.ends_with("; rule -"), "{}", ready);
    // No rules: none is ever run into.
    let free = "sizes 2 2\nrules\nopen\nenter 0\nturns 3\n";
    assert_eq!(last(&format!("{}ran-into 0\n", free)), "seat 0 has run into no rule");
}

#[test]
fn posting_readiness_and_leaving_forget_the_rule() {
    let at_once = |script: &str| last(&format!("{}ran-into 3\n", script));
    let none = "seat 3 has run into no rule";
    let ready = "enter 3\nturns 39\n";
    assert_eq!((at_once("enter 3\n"), at_once(ready)), (none.to_string(), none.to_string()));
    // Option 0 of feature 2 alone: 0; 00 breaks 0; 01; 010 breaks 1, back; 02 breaks 0: the pair ends.
    let chosen = format!("{}choose 3 2 0\n", ready);
    let rules: Vec<String> = (0..6).map(|turns| at_once(&format!("{}turns {}\n", chosen, turns))).collect();
    let expected: Vec<String> = [NONE, NONE, 0, 0, 1, 0].iter().map(|&rule| words::ran_into(3, rule)).collect();
    assert_eq!(rules, expected);
    // A ready seat has none, so at choosing and relaxing there is nothing to forget; leaving has.
    let relaxed = format!("{}turns 43\nrelax 3 2\n", chosen);
    assert_eq!(at_once(&relaxed), none);
    assert_eq!(at_once(&format!("{}turns 4\n", relaxed)), "seat 3 last ran into rule 1");
    let left = "enter 3\nturns 4\nleave 3\n";
    assert_eq!(last(&format!("{}seat 3\n", left)), last("seat 3\n"));
    assert_eq!(refusal(&format!("{}ran-into 3\n", left)), 31);
    assert_eq!(at_once(&format!("{}enter 3\n", left)), none);
    // Open forgets all, also where the desk does not fit.
    assert_eq!(last("set-rule 3 9\nopen\nseat 3\n"), last("seat 3\n"));
}

#[test]
fn a_made_up_rule_stays_until_a_step_fails() {
    let rule_after = |setup: &str| after_step(setup, false)[0].rsplit("; ").next().unwrap().to_string();
    // Passed, at the first depth and at the last one; the pair ends there.
    assert_eq!(rule_after("set-work 0 0 0 0 0\nset-rule 0 1"), "rule 1");
    let last_depth = "set-work 0 0 0 2 1\nset-trial 0 0 0\nset-trial 0 1 1\nset-rule 0";
    assert_eq!(rule_after(&format!("{} 0", last_depth)), "rule 0");
    assert_eq!(rule_after(&format!("{} 255", last_depth)), "rule -");
    // Failed: 00 breaks 0.
    let failed = "set-work 0 0 0 1 0\nset-trial 0 0 0\nset-rule 0";
    assert_eq!(rule_after(&format!("{} 1", failed)), "rule 0");
    assert_eq!(rule_after(&format!("{} 255", failed)), "rule 0");
    // The last pair of all: ready, passed (211) or failed (22 breaks 0, and no candidate is greater).
    assert_eq!(rule_after("set-work 0 2 1 2 1\nset-trial 0 0 2\nset-trial 0 1 1\nset-rule 0 1"), "rule -");
    assert_eq!(rule_after("set-work 0 2 1 1 2\nset-trial 0 0 2\nset-rule 0 1"), "rule -");
    // Only a rule of this depth is tested: rule 0 is broken by what was placed before.
    let earlier = "sizes 2 2\nrules 1 1 0 1 1 1 1 1\nset-work 0 1 0 1 0\nset-trial 0 0 0";
    assert_eq!(rule_after(earlier), "rule 1");
    // A step is given to one seat: the others keep theirs.
    let two = "set-work 0 0 0 0 0\nset-work 1 0 0 1 0\nset-trial 1 0 0\nset-rule 0 1\nset-rule 1 1\nset-next 1\n";
    let desk = answers(&format!("{}turns 1\ndesk\n", two));
    assert!(desk[8].ends_with("; rule 1") && desk[9].ends_with("; rule 0"), "{:?}", desk);
}

/// R-1's clauses of number 20: with no rule, 1, 2 and 64, in a seat that is at work, ready, closed.
#[test]
fn number_20_of_the_rule() {
    let number = |rules: &str, state: &str, rule: u32| {
        refusal(&format!("rules{}\n{}\nset-rule 4 {}\nturns 0\n", rules, state, rule))
    };
    let one = " 1 1 0 0";
    for (count, above) in [(0, [0, 1, 64, 254]), (1, [1, 2, 64, 254]), (2, [2, 3, 64, 254]), (64, [64, 65, 128, 254])] {
        let rules = one.repeat(count);
        let at_work = "set-work 4 0 0 0 0";
        assert!(above.iter().all(|&rule| number(&rules, at_work, rule) == 20));
        assert_eq!(number(&rules, at_work, 255), 0);
        assert!((0..count as u32).all(|rule| number(&rules, at_work, rule) == 0));
        // Not at work: none alone, also where the catalogue has that rule.
        for state in ["set-closed 4", "set-ready 4"] {
            assert!([0, 1, 63, 64, 254].iter().all(|&rule| number(&rules, state, rule) == 20));
            assert_eq!(number(&rules, state, 255), 0);
        }
    }
    // The seat's state decides, not its place; every seat is looked at; 20 comes before 30.
    assert_eq!(refusal("set-rule 7 0\nran-into 9\n"), 20);
    assert_eq!(refusal("enter 3\nturns 4\nset-ready 3\nset-trial 3 0 255\nset-trial 3 1 255\nturns 0\n"), 20);
    // A seat at work under another catalogue: rule 1 of a list that has one rule, or two.
    let ran = "enter 3\nturns 4\n";
    assert_eq!(refusal(&format!("{}rules{}\nturns 0\n", ran, one)), 20);
    assert_eq!(refusal(&format!("{}rules{}\nturns 0\n", ran, one.repeat(2))), 0);
    // What is accepted is answered.
    assert_eq!(last("set-work 4 0 0 0 0\nset-rule 4 1\nran-into 4\n"), "seat 4 last ran into rule 1");
}

#[test]
fn refusals_of_ran_into_in_their_order() {
    // Any open seat: at work, ready; not a closed one.
    assert_eq!(refusal("enter 0\nran-into 0\n"), 0);
    assert_eq!(refusal("enter 0\nturns 39\nran-into 0\n"), 0);
    assert_eq!(last("enter 0\nran-into 1\n"), "refused 31: seat 1 is closed");
    for seat in [8, 9, 255, 256, 259, 65_536, 4_294_967_295u32] {
        let words = format!("refused 30: there is no seat {}", seat);
        assert_eq!(last(&format!("enter 0\nenter 3\nran-into {}\n", seat)), words);
    }
    assert_eq!(last("set-next 8\nran-into 8\n"), "refused 20: the desk does not fit the catalogue");
    assert_eq!(refusal("set-next 8\nrules 0\nran-into 8\n"), 14);
    assert_eq!(refusal("sizes\nrules 0\nran-into 8\n"), 10);
    assert_eq!(refusal("board 0 0\nsizes\nran-into 8\n"), 1);
    // Nothing beside a refusal, also where the seat has a rule.
    let ran = "enter 3\nturns 4\n";
    assert_eq!(last(&format!("{}set-next 8\nran-into 3\n", ran)), "refused 20: the desk does not fit the catalogue");
    assert_eq!(last("ran-into\n"), "not understood; write: ran-into SEAT");
    assert_eq!(last("ran-into 1 2\n"), "not understood; write: ran-into SEAT");
    for numbers in ["8 0", "0 256", "0", "0 0 0"] {
        assert_eq!(last(&format!("set-rule {}\n", numbers)), "not understood; write: set-rule SEAT RULE");
    }
}

#[test]
fn a_ready_seat_with_a_rule_is_seen() {
    let mut record = searched(&trolley(), [NONE; 16]).1;
    let found = builds(&trolley()).unwrap();
    let (_, share) = shown(&trolley(), &found, &record.choices);
    assert_eq!(wrong_when_ready(&trolley(), Some(&found), &record, &share), None);
    record.rule = 0;
    assert!(wrong_when_ready(&trolley(), Some(&found), &record, &share).is_some());
    assert!(wrong_when_ready(&trolley(), None, &record, &share).is_some());
}

#[test]
fn refusals_by_state_mask_and_width() {
    assert_eq!(refusal("enter 0\noptions 0 9\n"), 33);
    assert_eq!(refusal("options 0 9\n"), 31);
    let bit = "set-ready 0\nset-mask 0 0 1\n";
    assert_eq!(last(&format!("{}example 0 0 0\n", bit)), format!("option 0 of feature 0:{}", " -".repeat(16)));
    assert_eq!(refusal(&format!("{}choose 0 0 0\n", bit)), 0);
    assert_eq!(refusal(&format!("{}choose 0 0 256\n", bit)), 35);
    assert_eq!(refusal(&format!("{}choose 0 65536 0\n", bit)), 34);
    assert_eq!(refusal(&format!("{}choose 256 0 0\n", bit)), 30);
    assert_eq!(last("enter 0\nturns 0\n"), "0 turns made, a seat is at work");
    assert_eq!(answers("set-next 3\nturns 5\ndesk\n")[2], "next 3");
}

#[test]
fn a_refused_turns_reports_nothing_and_a_refused_open_is_fresh() {
    let lent = Lent { sizes: &[1], list: &[] };
    let mut board = vec![7; BOARD - 1];
    let mut desk = Desk::fresh();
    desk.seats[0].state = State::AtWork { i: 0, a: 0, j: 0, v: 0 };
    let turned = desk.turns(&mut board, lent, 5);
    assert_eq!((turned.refusal, turned.made, turned.at_work), (1, 0, false));
    assert_eq!(Desk::open(&mut board, lent), (1, Desk::fresh()));
    assert!(board.iter().all(|&byte| byte == 7));
}

#[test]
fn lines_of_the_console() {
    let script = "\n , \t\r\n#remark \r\n # none\nenter\nenter 1 2\nenter 4294967296\nenter,003\r\nturns 65536\n\
                  set-byte 32768 0\nboard 0 7\nset-byte 0 0\nshare 1\nlist 9\nquit\ndigest";
    let (out, _) = transcript(script.as_bytes());
    assert_eq!(
        String::from_utf8(out).unwrap(),
        "#remark \r\n # none\n\
         not understood; write: enter SEAT\nnot understood; write: enter SEAT\n\
         not understood; write: enter SEAT\nseat 3 has entered and is at work\n\
         not understood; write: turns TURNS\nnot understood; write: set-byte PLACE BYTE\n\
         board: 0 bytes of 7\nnot understood; write: set-byte PLACE BYTE\n\
         the board has 0 bytes, so no shares\nrefused 1: the board has 0 bytes, not 32768\n\
         at work: 3\nend: 5 answered, 6 not understood\n"
    );
}

#[test]
fn a_line_has_at_most_65536_bytes() {
    let long = "not understood; a line has at most 65536 bytes";
    assert_eq!(last(&format!("#{}\n", "x".repeat(65_536))), long);
    assert_eq!(last(&format!("{}\n", " ".repeat(65_537))), long);
    assert_eq!(last(&format!("turns{} 0\n", " ".repeat(65_529))), "0 turns made, no seat is at work");
}

#[test]
fn the_digest_byte_by_byte() {
    // A board of no bytes and the start's desk, but for a rule and two masks (258 is the bytes 2, 1):
    // 8 × (5 zeros, 16 × 255, 32 zeros, 32 zeros, 16 × 255, 255), then 0. Seat 6 has rule 4.
    let mut h: u64 = 0;
    let mut take = |byte: u64, times: usize| {
        for _ in 0..times {
            h = h.wrapping_add(byte + 1).wrapping_mul(1025);
            h ^= h >> 6;
        }
    };
    for seat in 0..8 {
        take(0, 5);
        take(255, 16);
        if seat == 7 {
            take(0, 30);
            take(3, 1);
            take(0, 1);
            take(2, 1);
            take(1, 1);
            take(0, 30);
        } else {
            take(0, 32);
            take(0, 32);
        }
        take(255, 16);
        take(if seat == 6 { 4 } else { 255 }, 1);
    }
    take(0, 1);
    let set = "set-mask 7 15 3\nset-alternatives 7 0 258\nset-rule 6 4\n";
    assert_eq!(last(&format!("board 0 0\n{}digest\n", set)), format!("digest {:016x}", h));
}

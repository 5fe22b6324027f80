//! Random scripts from a seed. Every script mixes sections.

mod author;
mod catalogues;
mod damage;
mod made_up;
mod noise;
mod random;
mod runs;

use crate::desk::{Desk, SEATS};
use crate::tally::Tally;
use author::Author;
pub use random::Random;

/// Calls of a script, about.
pub const CALLS_OF_A_SCRIPT: u64 = 2_000;

pub struct Script {
    pub lines: Vec<Vec<u8>>,
    pub last_line_feed: bool,
    pub transcript: Vec<u8>,
    pub tally: Tally,
    pub problems: Vec<String>,
}

/// The bytes of a script.
pub fn text(lines: &[Vec<u8>], last_line_feed: bool) -> Vec<u8> {
    let mut text = lines.join(&b'\n');
    if last_line_feed && !lines.is_empty() {
        text.push(b'\n');
    }
    text
}

pub fn script(seed: u64) -> Script {
    let mut author = Author::new(seed);
    author.line(format!("# seed {}", seed));
    author.line("digest");
    while author.session.tally.all_calls() < CALLS_OF_A_SCRIPT {
        section(&mut author);
    }
    if author.random.once_in(8) {
        runs::long_work(&mut author);
    }
    let last_line_feed = !author.random.once_in(4);
    if author.random.once_in(2) {
        let word = author.random.pick(&["quit", "exit"]);
        author.line(word);
        for _ in 0..author.random.between(1, 3) {
            let line = author.random.pick(&["digest", "enter 3", "exit", "quit", "# not read", "hello"]);
            author.line(line);
        }
    }
    author.session.end(&mut author.transcript);
    Script {
        lines: author.lines,
        last_line_feed,
        transcript: author.transcript,
        tally: author.session.tally,
        problems: author.session.run.problems,
    }
}

fn section(author: &mut Author) {
    match author.random.below(44) {
        0..=9 => runs::run(author),
        10 => runs::large_run(author),
        11 | 12 => runs::trolley(author),
        13..=23 => made_up::within_limits(author),
        24..=29 => made_up::at_limits(author),
        30..=36 => damaged(author),
        37 => board_length(author),
        38 => noise::noise(author),
        39..=42 => runs::watched(author),
        _ => {
            if author.random.once_in(2) {
                noise::long(author)
            } else {
                noise::noise(author)
            }
        }
    }
}

/// Catalogues at the edges of their faults under whatever desk stands, each kind of call on them.
fn damaged(author: &mut Author) {
    for _ in 0..author.random.between(1, 6) {
        some_seats_open(author);
        let kind = author.random.below(damage::KINDS);
        let draft = damage::at_edge(&mut author.random, kind);
        author.catalogue(&draft);
        if author.random.once_in(3) {
            author.line("catalogue");
        }
        if author.random.once_in(4) {
            author.give_back();
        }
        if author.random.once_in(3) {
            author.call("open");
        }
        for _ in 0..author.random.between(1, 4) {
            let seat = author.random.below(8);
            if author.random.once_in(4) {
                author.call(format!("enter {}", seat));
                let turns = author.random.below(40);
                author.call(format!("turns {}", turns));
            } else if !author.random.once_in(8) || !author.work(seat as u32) {
                author.any_call(seat);
            }
        }
    }
    author.line("trolley");
}

/// None, one or more seats that are not closed, as they are or made so.
fn some_seats_open(author: &mut Author) {
    let open = author.random.pick(&[0, 1, 2, 8, 99]);
    if open == 99 {
        return;
    }
    author.dress(&Desk::fresh());
    for _ in 0..open {
        let seat = author.random.below(SEATS);
        if author.random.once_in(4) {
            author.line(format!("set-work {} 0 0 0 0", seat));
            if author.random.once_in(3) {
                // It fits a catalogue that has a rule.
                author.line(format!("set-rule {} 0", seat));
            }
        } else {
            author.line(format!("set-ready {}", seat));
        }
    }
}

/// 1: a board of another length, with everything else good or bad.
fn board_length(author: &mut Author) {
    let draft = if author.random.once_in(3) {
        let kind = author.random.below(damage::KINDS);
        damage::at_edge(&mut author.random, kind)
    } else {
        catalogues::small(&mut author.random)
    };
    author.catalogue(&draft);
    let length = author.random.pick(&[0, 1, 4096, 32_767, 32_767, 32_768, 32_769, 32_769, 40_000]);
    let byte = author.random.pick(&[255, 0, 7]);
    author.line(format!("board {} {}", length, byte));
    for _ in 0..author.random.between(2, 8) {
        let seat = author.random.below(8);
        author.any_call(seat);
    }
    author.line("share 0");
    let place = author.random.pick(&[0, 32_766, 32_767, 32_768]);
    author.line(format!("set-byte {} {}", place, byte));
    author.line("trolley");
}

#[cfg(test)]
mod tests {
    use super::{script, text};
    use crate::expect::transcript;
    use crate::fit::CLAUSES;
    use crate::tally::{Tally, FAULTS, OF_ALTERNATIVES, OF_RAN_INTO, OF_WORK, REFUSALS, SEEN};

    #[test]
    fn a_seed_repeats_its_script_and_the_script_its_transcript() {
        let (first, again) = (script(5), script(5));
        assert_eq!(first.lines, again.lines);
        let (out, session) = transcript(&text(&first.lines, first.last_line_feed));
        assert!(out == first.transcript && out == again.transcript);
        assert_eq!(session.tally.calls, first.tally.calls);
    }

    /// What was not reached yet.
    fn missing(tally: &Tally) -> Option<String> {
        for (name, known, counts) in [
            ("refusal", &REFUSALS[..], &tally.refusals),
            ("of alternatives", &OF_ALTERNATIVES[..], &tally.alternatives),
            ("of ran-into", &OF_RAN_INTO[..], &tally.ran_into),
            ("of work", &OF_WORK[..], &tally.work),
            ("fault by sizes", &FAULTS[..2], &tally.sizes),
            ("fault by rules", &FAULTS[..], &tally.rules),
            ("fault by catalogue", &FAULTS[..], &tally.looked),
        ] {
            if let Some(number) = known.iter().chain(&[0]).find(|&&number| counts[number] == 0) {
                return Some(format!("{} {}", name, number));
            }
        }
        if tally.failed == 0 || tally.failed_several == 0 || tally.failed_last == 0 {
            return Some("steps that run into a rule".to_string());
        }
        let clauses = CLAUSES.iter().zip(&tally.clauses).map(|((_, name), count)| (name, count));
        let lines = SEEN.iter().zip(&tally.seen).map(|((_, name), count)| (name, count));
        clauses.chain(lines).find(|(_, &count)| count == 0).map(|(name, _)| name.to_string())
    }

    #[test]
    fn a_few_scripts_reach_every_number_clause_and_line() {
        let mut tally = Tally::new();
        let mut seed = 0;
        while seed < 40 && missing(&tally).is_some() {
            let script = script(seed);
            assert_eq!(script.problems, Vec::<String>::new());
            tally.add(&script.tally);
            seed += 1;
        }
        assert_eq!(missing(&tally), None, "{}", tally.lines());
        assert!(tally.calls.iter().all(|&count| count > 0));
        assert!(tally.brute_force > 0);
        assert!(tally.walked > tally.walked_into && tally.walked_into > 0);
    }
}

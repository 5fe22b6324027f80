//! Watches a run — "opened together and handed only from call to call, with one catalogue
//! throughout" — and checks demands 2 and 3, with R-6, at each seat's readiness, and what R-1 keeps
//! until then, apart from the search.

use crate::builds;
use crate::catalogue::{self, Catalogue, FEATURES};
use crate::desk::{Desk, Turned, BOARD, SEATS};
use crate::record::{NONE, SHARE};
use crate::tally::Tally;

/// Steps of a job up to which they are walked again for the rule last run into.
const FEW_STEPS: u64 = 4_000;

#[derive(Clone)]
pub struct Run {
    /// False once a line other than a call touched desk, board or catalogue.
    pure: bool,
    /// The catalogue of the run and its builds, found when first needed.
    known: Option<(Catalogue, Option<Vec<[u8; FEATURES]>>)>,
    /// Steps given to each seat, and turns made, since its job was posted.
    given: [u64; SEATS],
    turns: [u64; SEATS],
    pub problems: Vec<String>,
}

impl Run {
    pub fn new() -> Run {
        Run { pure: true, known: None, given: [0; SEATS], turns: [0; SEATS], problems: Vec::new() }
    }

    /// Desk and board are freshly opened.
    pub fn opened(&mut self) {
        let problems = std::mem::take(&mut self.problems);
        *self = Run { problems, ..Run::new() };
    }

    /// Something other than a call touched desk, board or catalogue.
    pub fn touched(&mut self) {
        self.pure = false;
        self.known = None;
    }

    pub fn posted(&mut self, seat: u32) {
        self.given[seat as usize] = 0;
        self.turns[seat as usize] = 0;
    }

    /// After an accepted turns: looks at each seat that was at work before it.
    pub fn turned(
        &mut self,
        before: &[bool; SEATS],
        desk: &Desk,
        board: &[u8],
        lent: (&[u8], &[u16]),
        turned: &Turned,
        tally: &mut Tally,
    ) {
        if !self.pure || board.len() != BOARD {
            return;
        }
        for seat in (0..SEATS).filter(|&seat| before[seat]) {
            self.given[seat] += turned.given[seat];
            if desk.seats[seat].at_work() {
                self.turns[seat] += u64::from(turned.made);
                self.at_work(seat, desk, lent, tally);
                continue;
            }
            self.turns[seat] += turned.last[seat];
            self.ready(seat, desk, board, lent, tally);
        }
    }

    /// the rule of a seat that is still at work.
    fn at_work(&mut self, seat: usize, desk: &Desk, lent: (&[u8], &[u16]), tally: &mut Tally) {
        let catalogue = match catalogue::read(lent.0, lent.1) {
            Err(_) => return,
            Ok(catalogue) => catalogue,
        };
        let (record, steps) = (&desk.seats[seat], self.given[seat]);
        if record.rule != NONE && usize::from(record.rule) >= catalogue.rules.len() {
            self.problems.push(format!("seat {} is at work with rule {}", seat, record.rule));
        }
        if steps > FEW_STEPS {
            return;
        }
        let rule = builds::rule_after(&catalogue, &record.choices, steps);
        tally.walked += 1;
        tally.walked_into += u64::from(rule != NONE);
        if rule != record.rule {
            self.problems.push(format!(
                "seat {} has rule {} after {} steps, by recursion {}",
                seat, record.rule, steps, rule
            ));
        }
    }

    fn ready(&mut self, seat: usize, desk: &Desk, board: &[u8], lent: (&[u8], &[u16]), tally: &mut Tally) {
        if self.known.is_none() {
            match catalogue::read(lent.0, lent.1) {
                Err(_) => return,
                Ok(catalogue) => {
                    let found = builds::builds(&catalogue);
                    self.known = Some((catalogue, found));
                }
            }
        }
        let (catalogue, found) = match &self.known {
            Some((catalogue, found)) => (catalogue, found.as_deref()),
            None => return,
        };
        tally.ready += 1;
        tally.brute_force += u64::from(found.is_some());
        let record = &desk.seats[seat];
        let share = &board[seat * SHARE..(seat + 1) * SHARE];
        if let Some(wrong) = builds::wrong_when_ready(catalogue, found, record, share) {
            self.problems.push(format!("seat {} is ready: {}", seat, wrong));
        }
        let k: u64 = builds::steps_by_pair(catalogue, &record.choices).iter().sum();
        if k != self.given[seat] {
            self.problems.push(format!(
                "seat {} is ready after {} steps, K by recursion is {}",
                seat, self.given[seat], k
            ));
        }
        // "ready at most 8×K turns after the job was posted"
        if self.turns[seat] > 8 * k {
            self.problems.push(format!(
                "seat {} is ready after {} turns, above 8×{}",
                seat, self.turns[seat], k
            ));
        }
    }
}

//! The first plain version: its rules are grouped by their highest feature once, rows are compared where they stand,
//! and it makes no check. Its row test comes in two kinds: as one first writes it, and tuned as the desk's is.

use crate::seat::{Place, Rules, Seat, State, BOARD, NONE, SHARE};
use crate::Catalogue;

struct Rule {
    number: u8, // in the whole list
    features: Vec<u8>,
    rows: Vec<u8>, // one after another
}

impl Rule {
    /// The options of each row against those placed, one by one.
    fn satisfied(&self, placed: &[u8; 16]) -> bool {
        let matches = |row: &[u8]| {
            row.iter()
                .zip(&self.features)
                .all(|(&option, &feature)| option == placed[usize::from(feature & 15)])
        };
        self.rows.chunks_exact(self.features.len()).any(matches)
    }

    /// From the last option back: most rows differ there. What is placed there is looked up once for all rows.
    fn satisfied_by_last(&self, placed: &[u8; 16]) -> bool {
        let option = |&feature: &u8| placed[usize::from(feature & 15)];
        let end = self.features.len() - 1;
        let last = option(&self.features[end]);
        let others = |row: &[u8]| {
            row[..end]
                .iter()
                .zip(&self.features[..end])
                .rev()
                .all(|(&given, feature)| given == option(feature))
        };
        self.rows
            .chunks_exact(self.features.len())
            .any(|row| row[end] == last && others(row))
    }
}

pub struct Grouped<const BY_LAST: bool> {
    sizes: Vec<u8>,
    rules_at: Vec<Vec<Rule>>, // those tested at each feature
}

impl<const BY_LAST: bool> Grouped<BY_LAST> {
    /// Of a catalogue without a fault.
    pub fn new(catalogue: &Catalogue) -> Grouped<BY_LAST> {
        let (sizes, mut list) = (catalogue.sizes(), catalogue.rule_list());
        let mut rules_at: Vec<Vec<Rule>> = sizes.iter().map(|_| Vec::new()).collect();
        let mut number = 0;
        while !list.is_empty() {
            let (k, m) = (usize::from(list[0]), usize::from(list[1]));
            let bytes = |numbers: &[u16]| numbers.iter().map(|&n| n as u8).collect::<Vec<u8>>();
            let features = bytes(&list[2..2 + k]);
            let rows = bytes(&list[2 + k..2 + k + k * m]);
            let highest = usize::from(*features.iter().max().unwrap());
            rules_at[highest].push(Rule {
                number,
                features,
                rows,
            });
            list = &list[2 + k + k * m..];
            number += 1;
        }
        Grouped {
            sizes: sizes.to_vec(),
            rules_at,
        }
    }
}

impl<const BY_LAST: bool> Rules for Grouped<BY_LAST> {
    fn sizes(&self) -> &[u8] {
        &self.sizes
    }

    fn first_broken(&self, j: usize, placed: &[u8; 16]) -> Option<u8> {
        // A loop: with `find` the row test takes up to 28 % more time where rules have many rows.
        for rule in &self.rules_at[j] {
            let satisfied = if BY_LAST {
                rule.satisfied_by_last(placed)
            } else {
                rule.satisfied(placed)
            };
            if !satisfied {
                return Some(rule.number);
            }
        }
        None
    }
}

/// Eight seats, their board and their catalogue.
pub struct Desk<'a, const BY_LAST: bool> {
    pub seats: [Seat; 8],
    pub next: usize,
    pub board: Vec<u8>,
    catalogue: &'a Grouped<BY_LAST>,
}

impl<'a, const BY_LAST: bool> Desk<'a, BY_LAST> {
    pub fn open(catalogue: &'a Grouped<BY_LAST>) -> Desk<'a, BY_LAST> {
        Desk {
            seats: [Seat::CLOSED; 8],
            next: 0,
            board: vec![NONE; BOARD],
            catalogue,
        }
    }

    pub fn enter(&mut self, c: usize) {
        self.post(c, [NONE; 16]);
    }

    /// A job for a seat under some choices.
    pub fn post(&mut self, c: usize, choices: [u8; 16]) {
        self.board[c * SHARE..(c + 1) * SHARE].fill(NONE);
        self.seats[c] = Seat::post(choices);
    }

    fn first_at_work(&self) -> Option<(usize, Place)> {
        (self.next..8)
            .chain(0..self.next)
            .find_map(|c| match self.seats[c].state {
                State::AtWork(place) => Some((c, place)),
                _ => None,
            })
    }

    /// Answers the turns made, and whether a seat is still at work.
    pub fn turns(&mut self, w: u16) -> (u16, bool) {
        for made in 0..w {
            match self.first_at_work() {
                Some((c, place)) => {
                    let share = &mut self.board[c * SHARE..(c + 1) * SHARE];
                    self.seats[c].step(place, self.catalogue, share);
                    self.next = (c + 1) % 8;
                }
                None => return (made, false),
            }
        }
        (w, self.first_at_work().is_some())
    }
}

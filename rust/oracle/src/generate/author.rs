//! The author of a script: writes each line and plays it at once, so that the next line can be
//! chosen with the desk in view.

use super::catalogues::Draft;
use super::noise;
use super::random::Random;
use crate::catalogue::rules_and_fault;
use crate::desk::{Desk, BOARD, SEATS};
use crate::expect;
use crate::record::{State, NONE};
use crate::script::{Session, MARK};
use crate::tally::Seen;

/// Turns that `work` may take: mostly few, sometimes more than one call of turns makes, as long as
/// the script has not yet spent so much on it.
const FEW: u64 = 8_192;
pub const MANY: u64 = 4 * 65_535;
const SPENT: u64 = 80_000;

pub struct Author {
    pub random: Random,
    pub session: Session,
    pub lines: Vec<Vec<u8>>,
    pub transcript: Vec<u8>,
}

impl Author {
    pub fn new(seed: u64) -> Author {
        Author {
            random: Random::new(seed),
            session: Session::new(),
            lines: Vec::new(),
            transcript: Vec::new(),
        }
    }

    pub fn line<T: AsRef<[u8]>>(&mut self, text: T) {
        let mut line = text.as_ref().to_vec();
        if self.random.once_in(40) && line.len() < 60_000 {
            line = self.disguised(line);
        }
        self.session.line(&line, &mut self.transcript);
        self.lines.push(line);
    }

    /// The same line with a byte-order mark before it, other blanks before, between, after, or a
    /// remark behind it.
    fn disguised(&mut self, line: Vec<u8>) -> Vec<u8> {
        let count = self.random.between(1, 3);
        let blanks: Vec<u8> = (0..count).map(|_| self.random.pick(b" \t,\r")).collect();
        match self.random.below(8) {
            0 | 1 => [MARK, &line[..]].concat(),
            2 => [MARK, &blanks[..], &line[..]].concat(),
            3 => [&blanks[..], &line[..]].concat(),
            4 => [&line[..], &blanks[..]].concat(),
            5 | 6 => [&line[..], &blanks[..], &noise::remark(&mut self.random)[..]].concat(),
            _ => line.split(|&byte| byte == b' ').collect::<Vec<_>>().join(&blanks[..]),
        }
    }

    /// A call and, after every call, a digest; the longer looks now and then.
    pub fn call<T: AsRef<[u8]>>(&mut self, text: T) {
        self.line(text);
        self.line("digest");
        let seat = self.random.below(SEATS);
        match self.random.below(300) {
            0 => self.line("desk"),
            1 | 2 => self.line(format!("share {}", seat)),
            3 | 4 => self.line(format!("seat {}", seat)),
            5..=12 => {
                let seat = self.random.near(SEATS);
                self.line(format!("list {}", seat));
            }
            13 => self.line("catalogue"),
            14 => self.line("numbers"),
            15 => self.line(&b" \t,\r# a remark, 1 2 3"[seat.min(4)..]),
            16 | 17 => noise::odd(self),
            18..=29 => {
                let seat = self.working().unwrap_or(seat);
                self.line(format!("ran-into {}", seat));
            }
            _ => {}
        }
    }

    /// What `numbers` answers, given back as it is.
    pub fn give_back(&mut self) {
        let from = self.transcript.len();
        self.line("numbers");
        let answer = self.transcript[from..].to_vec();
        for line in expect::lines(&answer) {
            self.line(line);
        }
        self.session.tally.see(Seen::GivenBack);
    }

    /// `work` where that does not take long; else nothing, and false.
    pub fn work(&mut self, seat: u32) -> bool {
        let spent = self.session.tally.work_steps >= SPENT;
        let limit = if !spent && self.random.once_in(8) { MANY } else { FEW };
        self.work_within(seat, limit)
    }

    pub fn work_within(&mut self, seat: u32, limit: u64) -> bool {
        let short = self.is_ready_within(seat, limit);
        if short {
            self.call(format!("work {}", seat));
        }
        short
    }

    /// Plays `work` before on a copy of desk and board; what it would refuse takes no turn.
    fn is_ready_within(&self, seat: u32, limit: u64) -> bool {
        let lent = self.session.lent();
        let mut desk = self.session.desk.clone();
        if desk.options(&self.session.board, lent, seat, 0).refusal != 33 {
            return true;
        }
        let mut board = self.session.board.clone();
        let mut made = 0;
        while desk.seats[seat as usize].at_work() && made < limit {
            made += u64::from(desk.turns(&mut board, lent, FEW as u16).made);
        }
        !desk.seats[seat as usize].at_work()
    }

    pub fn features(&self) -> usize {
        self.session.sizes.len()
    }

    pub fn size(&self, feature: usize) -> usize {
        self.session.sizes.get(feature).map_or(0, |&size| usize::from(size))
    }

    /// Sizes and rule list, the list in one line or in several.
    pub fn catalogue(&mut self, draft: &Draft) {
        let sizes: Vec<u16> = draft.sizes.iter().map(|&size| u16::from(size)).collect();
        self.line(format!("sizes{}", joined(&sizes)));
        let list = draft.list();
        let mut from = 0;
        let mut word = "rules";
        loop {
            let mut to = list.len();
            if self.random.once_in(4) {
                to = self.random.between(from, to);
            }
            self.line(format!("{}{}", word, joined(&list[from..to])));
            if to == list.len() {
                break;
            }
            word = "more";
            from = to;
        }
    }

    /// A board, nearly always of the right length and mostly full of 255.
    pub fn board(&mut self) {
        let byte = if self.random.once_in(4) { self.random.below(256) } else { 255 };
        self.line(format!("board {} {}", BOARD, byte));
    }

    /// Sets the desk's fields one by one until the desk is `wanted`.
    pub fn dress(&mut self, wanted: &Desk) {
        if self.session.desk.next != wanted.next {
            self.line(format!("set-next {}", wanted.next));
        }
        for seat in 0..SEATS {
            let record = wanted.seats[seat].clone();
            if self.session.desk.seats[seat].state != record.state {
                match record.state {
                    State::Closed => self.line(format!("set-closed {}", seat)),
                    State::Ready => self.line(format!("set-ready {}", seat)),
                    State::AtWork { i, a, j, v } => {
                        self.line(format!("set-work {} {} {} {} {}", seat, i, a, j, v))
                    }
                }
            }
            if self.session.desk.seats[seat].rule != record.rule {
                self.line(format!("set-rule {} {}", seat, record.rule));
            }
            for feature in 0..16 {
                let now = &self.session.desk.seats[seat];
                let (choice, mask) = (record.choices[feature], record.masks[feature]);
                let (other_choice, other_mask) = (now.choices[feature] != choice, now.masks[feature] != mask);
                let other_alternatives = now.alternatives[feature] != record.alternatives[feature];
                let other_trial = now.trial[feature] != record.trial[feature];
                if other_choice {
                    self.line(format!("set-choice {} {} {}", seat, feature, choice));
                }
                if other_alternatives {
                    let alternatives = record.alternatives[feature];
                    self.line(format!("set-alternatives {} {} {}", seat, feature, alternatives));
                }
                if other_mask {
                    self.line(format!("set-mask {} {} {}", seat, feature, mask));
                }
                if other_trial {
                    self.line(format!("set-trial {} {} {}", seat, feature, record.trial[feature]));
                }
            }
        }
    }

    /// How many turns to ask for.
    pub fn some_turns(&mut self) -> usize {
        match self.random.below(24) {
            0 => 0,
            1..=5 => 1,
            6..=9 => self.random.between(2, 9),
            10..=14 => self.random.below(70),
            15..=18 => self.random.below(700),
            19..=21 => self.random.below(7_000),
            22 => self.random.pick(&[255, 256, 257, 65_534, 65_535]),
            _ => 65_535,
        }
    }

    /// A call of any kind on a seat, its numbers near their limits, whatever the seat's state is.
    pub fn any_call(&mut self, seat: usize) {
        let seat = if self.random.once_in(16) { self.random.near(SEATS) } else { seat as u32 };
        let feature = self.random.near(self.features());
        let known = (feature as usize).min(15);
        let option = self.random.near(self.size(known));
        let text = match self.random.below(40) {
            0 => "open".to_string(),
            1..=4 => format!("enter {}", seat),
            5..=8 => format!("leave {}", seat),
            9..=12 => format!("choose {} {} {}", seat, feature, option),
            13..=16 => format!("relax {} {}", seat, feature),
            17..=20 => format!("options {} {}", seat, feature),
            21..=24 => format!("example {} {} {}", seat, feature, option),
            25..=28 => {
                let seat = if self.random.once_in(4) { self.random.near(SEATS) } else { seat };
                format!("alternatives {} {}", seat, feature)
            }
            29..=31 => {
                let seat = if self.random.once_in(4) { self.random.near(SEATS) } else { seat };
                let word = if self.is_ready_within(seat, FEW) { "work" } else { "leave" };
                format!("{} {}", word, seat)
            }
            32..=35 => {
                let seat = if self.random.once_in(4) { self.random.near(SEATS) } else { seat };
                format!("ran-into {}", seat)
            }
            _ => format!("turns {}", self.some_turns()),
        };
        self.call(text);
    }

    /// Rules of the catalogue as it stands, those before its fault if it has one.
    pub fn rules(&self) -> usize {
        rules_and_fault(&self.session.sizes, &self.session.list).0.len()
    }

    /// A seat that is at work, if any is.
    pub fn working(&mut self) -> Option<usize> {
        let seats = &self.session.desk.seats;
        let working: Vec<usize> = (0..SEATS).filter(|&seat| seats[seat].at_work()).collect();
        if working.is_empty() {
            return None;
        }
        Some(self.random.pick(&working))
    }

    /// A feature of the seat that has a choice, if any has.
    pub fn chosen(&mut self, seat: usize) -> Option<usize> {
        let choices = self.session.desk.seats[seat].choices;
        let chosen: Vec<usize> = (0..16).filter(|&feature| choices[feature] != NONE).collect();
        if chosen.is_empty() {
            return None;
        }
        Some(self.random.pick(&chosen))
    }

    /// An alternative of the seat that is not the option in force, if there is one.
    pub fn alternative(&mut self, seat: usize) -> Option<(usize, usize)> {
        let record = &self.session.desk.seats[seat];
        let mut others: Vec<(usize, usize)> = Vec::new();
        for feature in 0..16 {
            for option in (0..16).filter(|&option| record.alternatives[feature] & (1 << option) != 0) {
                if record.chosen_otherwise(feature, option) {
                    others.push((feature, option.into()));
                }
            }
        }
        if others.is_empty() {
            return None;
        }
        Some(self.random.pick(&others))
    }
}

pub fn joined(numbers: &[u16]) -> String {
    numbers.iter().map(|number| format!(" {}", number)).collect()
}

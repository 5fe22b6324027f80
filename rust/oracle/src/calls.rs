//! The desk's calls as lines: each call made, its answer or refusal in words.

use crate::catalogue::rules_and_fault;
use crate::desk::{Desk, Left, Lent, RanInto, Turned, SEATS};
use crate::fit::{misfit, CLAUSES};
use crate::look::nothing_left;
use crate::record::NONE;
use crate::script::Session;
use crate::tally::Seen;
use crate::words::{self, counted, say, Spoken};

impl Session {
    /// One of the desk's calls but `work`.
    pub(crate) fn call(&mut self, word: &str, n: &[u32]) -> String {
        let clause = self.clause_if_misfit();
        let (refusal, answer) = match word {
            "open" => self.open(),
            "enter" | "leave" | "choose" | "relax" => self.change(word, n),
            "options" | "alternatives" => self.ask(word, n),
            "ran-into" => self.ask_rule(n[0]),
            "example" => {
                let (refusal, bytes) = self.desk.example(&self.board, self.lent(), n[0], n[1], n[2]);
                let text = format!("option {} of feature {}:{}", n[2], n[1], words::entries(bytes));
                (refusal, if refusal == 0 { text } else { words::entries(bytes) })
            }
            _ => {
                let turned = self.turns(n[0] as u16);
                let text = words::turned(turned.made, turned.at_work);
                let beside = turned.made != 0 || turned.at_work;
                (turned.refusal, if turned.refusal != 0 { words::beside(beside, text) } else { text })
            }
        };
        if word == "alternatives" {
            self.tally.alternatives[usize::from(refusal)] += 1;
        }
        self.tally_refusal(refusal, clause);
        if refusal == 0 {
            return answer;
        }
        let mut text = words::refusal(refusal, Spoken::of(&self.board, self.lent(), n));
        // Nothing but 0, "no seat at work", no rule and an example of length 0 may stand beside a
        // refusal; were there anything, it would show here.
        if matches!(word, "options" | "alternatives" | "example" | "ran-into" | "turns") {
            text.push_str(&answer);
        }
        text
    }

    /// The fresh desk that a refused open hands back is not taken: "a line that is refused …
    /// changes nothing".
    fn open(&mut self) -> (u16, String) {
        let lent = Lent { sizes: &self.sizes, list: &self.list };
        let (refusal, fresh) = Desk::open(&mut self.board, lent);
        if refusal == 0 {
            self.desk = fresh;
            self.run.opened();
        }
        (refusal, "opened: eight seats, all closed".to_string())
    }

    /// The calls that change a seat and answer nothing but the refusal.
    fn change(&mut self, word: &str, n: &[u32]) -> (u16, String) {
        let lent = Lent { sizes: &self.sizes, list: &self.list };
        let (desk, board) = (&mut self.desk, &mut self.board);
        let (done, answer) = match word {
            "enter" => (desk.enter(board, lent, n[0]), format!("seat {} has entered and is at work", n[0])),
            "leave" => (desk.leave(board, lent, n[0]), format!("seat {} has left", n[0])),
            "choose" => (
                desk.choose(board, lent, n[0], n[1], n[2]),
                format!("seat {} chose option {} of feature {} and is at work", n[0], n[2], n[1]),
            ),
            _ => (
                desk.relax(board, lent, n[0], n[1]),
                format!("seat {} dropped its choice of feature {} and is at work", n[0], n[1]),
            ),
        };
        if done.is_ok() && word != "leave" {
            self.run.posted(n[0]);
        }
        (done.err().unwrap_or(0), answer)
    }

    /// `options` and `alternatives`.
    fn ask(&self, word: &str, n: &[u32]) -> (u16, String) {
        let (answer, what) = if word == "options" {
            (self.desk.options(&self.board, self.lent(), n[0], n[1]), "left")
        } else {
            (self.desk.alternatives(&self.board, self.lent(), n[0], n[1]), "alternatives")
        };
        let Left { refusal, mask, count } = answer;
        let text = words::mask_and_count(n[1], what, mask, count);
        (refusal, if refusal != 0 { words::beside((mask, count) != (0, 0), text) } else { text })
    }

    fn ask_rule(&mut self, seat: u32) -> (u16, String) {
        let RanInto { refusal, rule } = self.desk.ran_into(&self.board, self.lent(), seat);
        self.tally.ran_into[usize::from(refusal)] += 1;
        if refusal == 0 {
            self.tally_rule(self.desk.seats[seat as usize].at_work(), rule);
        }
        let text = words::ran_into(seat, rule);
        (refusal, if refusal != 0 { words::beside(rule != NONE, text) } else { text })
    }

    fn tally_rule(&mut self, at_work: bool, rule: u8) {
        self.tally.see(match (at_work, rule) {
            (false, _) => Seen::RanIntoReady,
            (true, NONE) => Seen::RanIntoNone,
            (true, 0) => Seen::RanIntoFirst,
            (true, 1..=9) => Seen::RanIntoLater,
            (true, _) => Seen::RanIntoFromTen,
        });
        if rule != NONE && !self.is_numbered_as_at_its_depth(usize::from(rule)) {
            self.tally.see(Seen::RanIntoOtherNumber);
        }
    }

    /// Is the rule's number also its place among the rules that are tested where it is?
    fn is_numbered_as_at_its_depth(&self, rule: usize) -> bool {
        let (rules, _) = rules_and_fault(&self.sizes, &self.list);
        rules[..rule].iter().all(|before| before.highest() == rules[rule].highest())
    }

    fn turns(&mut self, w: u16) -> Turned {
        let mut before = [false; SEATS];
        for (before, record) in before.iter_mut().zip(&self.desk.seats) {
            *before = record.at_work();
        }
        let lent = Lent { sizes: &self.sizes, list: &self.list };
        let turned = self.desk.turns(&mut self.board, lent, w);
        if turned.refusal == 0 {
            self.tally.steps += u64::from(turned.made);
            self.tally.failed += turned.failed;
            self.tally.failed_several += turned.failed_several;
            self.tally.failed_last += turned.failed_last;
            let lent = (&self.sizes[..], &self.list[..]);
            self.run.turned(&before, &self.desk, &self.board, lent, &turned, &mut self.tally);
        }
        turned
    }

    /// "`work S` makes the call `options S 0` first. If that is refused with another number than 33,
    /// the refusal is its answer."
    pub(crate) fn work(&mut self, seat: u32, out: &mut Vec<u8>) {
        let clause = self.clause_if_misfit();
        let first = self.desk.options(&self.board, self.lent(), seat, 0).refusal;
        let refusal = if first == 33 { 0 } else { first };
        self.tally.work[usize::from(refusal)] += 1;
        self.tally_refusal(refusal, clause);
        if refusal != 0 {
            return say(out, &words::refusal(refusal, Spoken::of(&self.board, self.lent(), &[seat])));
        }
        let number = seat as usize;
        if (0..SEATS).any(|other| other != number && self.desk.seats[other].at_work()) {
            self.tally.see(Seen::WorkBesideOthers);
        }
        let mut made: u64 = 0;
        while self.desk.seats[number].at_work() {
            if made >= self.work_limit {
                self.given_up = true;
                self.over = true;
                return;
            }
            made += u64::from(self.turns(65_535).made);
        }
        say(out, &format!("seat {} is ready after {}", seat, counted(made as usize, "turn")));
        let nothing = nothing_left(&self.desk.seats[number], self.lent());
        if nothing {
            say(out, words::NO_PRODUCT);
        }
        self.tally_work(made, nothing);
    }

    fn tally_work(&mut self, made: u64, nothing: bool) {
        self.tally.work_steps += made;
        self.tally.see(match made {
            0 => Seen::WorkReadyAlready,
            1 => Seen::WorkOneTurn,
            2..=65_535 => Seen::WorkOneCall,
            _ => Seen::WorkMoreCalls,
        });
        if nothing {
            self.tally.see(Seen::WorkNoProduct);
        }
        if self.desk.any_at_work() {
            self.tally.see(Seen::WorkLeavesOthers);
        }
    }

    fn tally_refusal(&mut self, refusal: u16, clause: Option<usize>) {
        self.tally.refusals[usize::from(refusal)] += 1;
        if let (20, Some(clause)) = (refusal, clause) {
            self.tally.clauses[clause] += 1;
        }
    }

    fn clause_if_misfit(&self) -> Option<usize> {
        let catalogue = crate::catalogue::read(&self.sizes, &self.list).ok()?;
        let clause = misfit(self.desk.next, &self.desk.seats, &catalogue)?;
        CLAUSES.iter().position(|(other, _)| *other == clause)
    }
}

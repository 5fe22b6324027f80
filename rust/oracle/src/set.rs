//! The lines that set something: catalogue, board, the desk's fields.

use crate::catalogue::{self, Fault, Place};
use crate::record::{Record, State};
use crate::script::Session;
use crate::tally::Seen;
use crate::words::{self, counted, say};

impl Session {
    /// `sizes`, `rules` and `more`.
    pub(crate) fn set_catalogue(&mut self, word: &str, n: &[u32], out: &mut Vec<u8>) {
        self.run.touched();
        let (fault, count, good) = if word == "sizes" {
            self.sizes = n.iter().map(|&size| size as u8).collect();
            // "looks at the sizes alone"
            (catalogue::fault_of_sizes(&self.sizes), n.len(), counted(n.len(), "feature"))
        } else {
            if word == "rules" {
                self.list.clear();
            }
            self.list.extend(n.iter().map(|&number| number as u16));
            let (rules, fault) = catalogue::rules_and_fault(&self.sizes, &self.list);
            (fault, self.list.len(), counted(rules.len(), "rule"))
        };
        let what = fault.map_or(good, |fault| words::fault(fault, self.lent()));
        say(out, &format!("{}: {}", counted(count, "number"), what));
        let open = self.desk.seats.iter().filter(|record| record.state != State::Closed).count();
        if open > 0 {
            // "if the first line named a fault": one of the list is not named by `sizes`.
            let mend = if fault.is_some() { "mend the fault, then " } else { "" };
            say(out, &format!("seats are still open on the old catalogue; {}open begins anew", mend));
        }
        self.tally_catalogue(word, fault, open);
    }

    fn tally_catalogue(&mut self, word: &str, fault: Option<Fault>, open: usize) {
        let number = fault.map_or(0, |fault| usize::from(fault.number));
        let by_number = if word == "sizes" { &mut self.tally.sizes } else { &mut self.tally.rules };
        by_number[number] += 1;
        self.tally.see(match (fault.is_some(), open) {
            (true, 0) => Seen::FaultAllClosed,
            (true, 1) => Seen::FaultOneOpen,
            (true, _) => Seen::FaultManyOpen,
            (false, 0) => Seen::GoodAllClosed,
            (false, 1) => Seen::GoodOneOpen,
            (false, _) => Seen::GoodManyOpen,
        });
        let place = fault.map_or(Place::Nowhere, |fault| fault.place);
        match place {
            Place::Feature(feature) if feature > 0 => self.tally.see(Seen::FaultLaterFeature),
            Place::Rule(rule) | Place::Row(rule, _) if rule >= 10 => self.tally.see(Seen::FaultRuleFromTen),
            Place::Rule(rule) | Place::Row(rule, _) if rule > 0 => self.tally.see(Seen::FaultLaterRule),
            _ => {}
        }
        match place {
            Place::Row(_, row) if row >= 10 => self.tally.see(Seen::FaultRowFromTen),
            Place::Row(_, row) if row > 0 => self.tally.see(Seen::FaultLaterRow),
            _ => {}
        }
    }

    /// The start state, the board and the desk's fields.
    pub(crate) fn set(&mut self, word: &str, n: &[u32]) -> String {
        self.run.touched();
        match word {
            "trolley" => {
                let start = Session::new();
                self.sizes = start.sizes;
                self.list = start.list;
                self.board = start.board;
                self.desk = start.desk;
                self.run.opened();
                return "the trolley, eight seats closed".to_string();
            }
            "board" => {
                self.board = vec![n[1] as u8; n[0] as usize];
                return format!("board: {} bytes of {}", n[0], n[1]);
            }
            "set-byte" => self.board[n[0] as usize] = n[1] as u8,
            "set-next" => self.desk.next = n[0] as u8,
            _ => set_field(&mut self.desk.seats[n[0] as usize], word, n),
        }
        "set".to_string()
    }
}

fn set_field(record: &mut Record, word: &str, n: &[u32]) {
    let byte = |place: usize| n[place] as u8;
    match word {
        "set-closed" => record.state = State::Closed,
        "set-ready" => record.state = State::Ready,
        "set-work" => record.state = State::AtWork { i: byte(1), a: byte(2), j: byte(3), v: byte(4) },
        "set-choice" => record.choices[n[1] as usize] = byte(2),
        "set-mask" => record.masks[n[1] as usize] = n[2] as u16,
        "set-alternatives" => record.alternatives[n[1] as usize] = n[2] as u16,
        "set-rule" => record.rule = byte(1),
        _ => record.trial[n[1] as usize] = byte(2),
    }
}

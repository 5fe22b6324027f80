//! A script: the console's lines read and answered as CONSOLE.md says.

use crate::desk::{Desk, Lent, BOARD};
use crate::look;
use crate::record::NONE;
use crate::run::Run;
use crate::tally::{Seen, Tally};
use crate::words::{self, say, CALLS};

const ANY: u32 = u32::MAX;
const LINE: usize = 65_536;
const NUMBERS: usize = 9000;
/// A byte-order mark.
pub const MARK: &[u8] = b"\xef\xbb\xbf";

/// All that a script holds.
#[derive(Clone)]
pub struct Session {
    pub sizes: Vec<u8>,
    pub list: Vec<u16>,
    pub board: Vec<u8>,
    pub desk: Desk,
    pub tally: Tally,
    pub run: Run,
    pub over: bool,
    /// Turns that one `work` may make before the script is given up, and whether it was: shortened
    /// scripts may ask for a search that never ends.
    pub work_limit: u64,
    pub given_up: bool,
    answered: u64,
    not_understood: u64,
}

/// What a line was, for the tally.
#[derive(Clone, Copy, PartialEq, Eq)]
enum Kind {
    Blank,
    Remark,
    Command,
    NotUnderstood,
    TooLong,
}

impl Session {
    /// The start state: the trolley.
    pub fn new() -> Session {
        Session {
            sizes: vec![3, 3, 2],
            list: vec![2, 4, 0, 1, 0, 1, 1, 0, 1, 2, 2, 1, 2, 4, 1, 2, 0, 0, 1, 1, 2, 0, 2, 1],
            board: vec![NONE; BOARD],
            desk: Desk::fresh(),
            tally: Tally::new(),
            run: Run::new(),
            over: false,
            work_limit: u64::MAX,
            given_up: false,
            answered: 0,
            not_understood: 0,
        }
    }

    pub fn lent(&self) -> Lent<'_> {
        Lent { sizes: &self.sizes, list: &self.list }
    }

    /// Answers one line (without its line feed).
    pub fn line(&mut self, line: &[u8], out: &mut Vec<u8>) {
        if self.over {
            return;
        }
        // One mark is passed over, "the line is what comes after it"; but it counts for the length.
        let rest = line.strip_prefix(MARK);
        let kind = if line.len() > LINE {
            self.no(out, "a line has at most 65536 bytes");
            Kind::TooLong
        } else {
            self.within_length(rest.unwrap_or(line), out)
        };
        if rest.is_some() {
            self.tally.see(match kind {
                Kind::Blank => Seen::MarkBlank,
                Kind::Remark => Seen::MarkRemark,
                Kind::Command => Seen::MarkCommand,
                Kind::NotUnderstood => Seen::MarkNotUnderstood,
                Kind::TooLong => Seen::MarkTooLong,
            });
        }
    }

    fn within_length(&mut self, line: &[u8], out: &mut Vec<u8>) -> Kind {
        let first = match line.iter().position(|byte| !blank(byte)) {
            None => return Kind::Blank,
            Some(first) => first,
        };
        if line[first] == b'#' {
            // "written back as it is, blanks included"
            out.extend(line);
            out.push(b'\n');
            if first > 0 {
                self.tally.see(Seen::RemarkAfterBlanks);
            }
            return Kind::Remark;
        }
        let command = before_remark(line);
        let mut parts = command.split(blank).filter(|part| !part.is_empty());
        let word = String::from_utf8_lossy(parts.next().unwrap_or(b"")).into_owned();
        let form = match words::form_of(&word) {
            None => {
                self.no(out, "help lists the commands");
                return Kind::NotUnderstood;
            }
            Some(form) => form,
        };
        let numbers: Option<Vec<u32>> = parts.map(number).collect();
        match numbers {
            Some(numbers) if self.takes(&word, &numbers) => {
                self.answered += 1;
                if command.len() < line.len() {
                    self.tally.see(Seen::RemarkBehindCommand);
                }
                self.perform(&word, &numbers, out);
                Kind::Command
            }
            _ => {
                self.no(out, &format!("write: {}", form));
                Kind::NotUnderstood
            }
        }
    }

    /// The last line of a script.
    pub fn end(&self, out: &mut Vec<u8>) {
        let (answered, not) = (self.answered, self.not_understood);
        say(out, &format!("end: {} answered, {} not understood", answered, not));
    }

    fn no(&mut self, out: &mut Vec<u8>, why: &str) {
        self.not_understood += 1;
        say(out, &format!("not understood; {}", why));
    }

    /// Has the line as many numbers as the command takes, each in its range?
    fn takes(&self, word: &str, n: &[u32]) -> bool {
        match word {
            "open" | "trolley" | "desk" | "catalogue" | "numbers" | "digest" | "help" | "quit" | "exit" => {
                n.is_empty()
            }
            "enter" | "leave" | "ran-into" | "work" | "list" => within(n, &[ANY]),
            "relax" | "options" | "alternatives" => within(n, &[ANY, ANY]),
            "choose" | "example" => within(n, &[ANY, ANY, ANY]),
            "turns" => within(n, &[65_535]),
            "sizes" => n.len() <= 64 && n.iter().all(|&size| size <= 255),
            "rules" => n.len() <= NUMBERS && n.iter().all(|&number| number <= 65_535),
            "more" => {
                self.list.len() + n.len() <= NUMBERS && n.iter().all(|&number| number <= 65_535)
            }
            "board" => within(n, &[40_000, 255]),
            "set-byte" => within(n, &[ANY, 255]) && (n[0] as usize) < self.board.len(),
            "set-next" => within(n, &[255]),
            "set-closed" | "set-ready" | "seat" | "share" => within(n, &[7]),
            "set-work" => within(n, &[7, 255, 255, 255, 255]),
            "set-rule" => within(n, &[7, 255]),
            "set-choice" | "set-trial" => within(n, &[7, 15, 255]),
            "set-mask" | "set-alternatives" => within(n, &[7, 15, 65_535]),
            _ => false,
        }
    }

    fn perform(&mut self, word: &str, n: &[u32], out: &mut Vec<u8>) {
        if let Some(call) = CALLS.iter().position(|call| *call == word) {
            self.tally.calls[call] += 1;
            if word == "work" {
                return self.work(n[0], out);
            }
            let answer = self.call(word, n);
            return say(out, &answer);
        }
        let lent = Lent { sizes: &self.sizes, list: &self.list };
        match word {
            "seat" => say(out, &words::seat(n[0] as usize, &self.desk.seats[n[0] as usize])),
            "desk" => look::whole_desk(&self.desk, out),
            "share" => look::share(&self.board, n[0] as usize, out),
            "list" => look::list_seat(&self.desk, &self.board, lent, n[0], out, &mut self.tally),
            "catalogue" => look::whole_catalogue(lent, out, &mut self.tally),
            "numbers" => {
                self.tally.see(Seen::NumbersLine);
                look::numbers(lent, out);
            }
            "digest" => say(out, &format!("digest {:016x}", words::digest(&self.desk, &self.board))),
            "help" => {}
            "quit" | "exit" => {
                self.tally.see(if word == "quit" { Seen::Quit } else { Seen::Exit });
                self.over = true;
            }
            "sizes" | "rules" | "more" => self.set_catalogue(word, n, out),
            _ => {
                let answer = self.set(word, n);
                say(out, &answer);
            }
        }
    }
}

/// "Blanks are the space, the tab, the comma and the carriage return."
fn blank(byte: &u8) -> bool {
    matches!(byte, b' ' | b'\t' | b',' | b'\r')
}

/// What is left of a command's line where "a `#` after a blank begins a remark that ends the command".
pub fn before_remark(line: &[u8]) -> &[u8] {
    let end = line.windows(2).position(|pair| blank(&pair[0]) && pair[1] == b'#');
    &line[..end.unwrap_or(line.len())]
}

/// "A number is decimal digits alone, at most 4294967295."
fn number(part: &[u8]) -> Option<u32> {
    let mut value: u64 = 0;
    for &byte in part {
        if !byte.is_ascii_digit() {
            return None;
        }
        value = value * 10 + u64::from(byte - b'0');
        if value > u64::from(u32::MAX) {
            return None;
        }
    }
    Some(value as u32)
}

fn within(numbers: &[u32], limits: &[u32]) -> bool {
    numbers.len() == limits.len() && numbers.iter().zip(limits).all(|(n, limit)| n <= limit)
}

//! Makes a script that shows a difference as short as can be.

use crate::console::Console;
use crate::difference::{self, Difference};
use crate::script::{before_remark, MARK};
use std::time::{Duration, Instant};

pub struct Shrunk {
    pub lines: Vec<Vec<u8>>,
    pub last_line_feed: bool,
    pub difference: Difference,
    pub runs: u64,
    pub in_time: bool,
}

struct Shrinker<'a> {
    console: &'a Console,
    best: Shrunk,
    until: Instant,
}

/// Until nothing can be removed, or the time is over.
pub fn shrink(
    console: &Console,
    lines: Vec<Vec<u8>>,
    last_line_feed: bool,
    difference: Difference,
    time: Duration,
) -> Shrunk {
    let best = Shrunk { lines, last_line_feed, difference, runs: 0, in_time: true };
    let mut shrinker = Shrinker { console, best, until: Instant::now() + time };
    let last = shrinker.best.difference.script_line + 1;
    if last < shrinker.best.lines.len() {
        let cut = shrinker.best.lines[..last].to_vec();
        shrinker.take_if_different(cut);
    }
    loop {
        let before = shrinker.best.lines.clone();
        shrinker.remove_lines();
        shrinker.forget_seats();
        shrinker.forget_choices();
        shrinker.lower_depths();
        shrinker.remove_windows();
        shrinker.plainer_lines();
        shrinker.remove_numbers();
        shrinker.smaller_numbers();
        if shrinker.best.lines == before && !shrinker.remove_with_another() {
            return shrinker.best;
        }
    }
}

impl Shrinker<'_> {
    /// Runs both on the candidate; if they still differ it is the new best.
    fn take_if_different(&mut self, lines: Vec<Vec<u8>>) -> bool {
        if Instant::now() >= self.until {
            self.best.in_time = false;
            return false;
        }
        let mut ends = vec![true];
        if !self.best.last_line_feed {
            ends.push(false);
        }
        for last_line_feed in ends {
            self.best.runs += 1;
            if let Some(difference) = difference::of_script(self.console, &lines, last_line_feed) {
                let last = difference.script_line + 1;
                self.best.lines = lines;
                self.best.last_line_feed = last_line_feed;
                self.best.difference = difference;
                // Cut after the difference, if it stays: a console that crashed may have kept back
                // what it had answered before.
                if last < self.best.lines.len() {
                    let cut = self.best.lines[..last].to_vec();
                    self.take_if_different(cut);
                }
                return true;
            }
        }
        false
    }

    /// Chunks of lines, from the end, halving down to single lines, until none can go.
    fn remove_lines(&mut self) {
        let mut chunk = (self.best.lines.len() / 2).max(1);
        loop {
            let mut removed = false;
            let mut end = self.best.lines.len();
            while end > 0 {
                let start = end.saturating_sub(chunk);
                let mut lines = self.best.lines.clone();
                lines.drain(start..end);
                if self.take_if_different(lines) {
                    removed = true;
                }
                end = start.min(self.best.lines.len());
            }
            if chunk > 1 {
                chunk /= 2;
            } else if !removed {
                return;
            }
        }
    }

    /// All that the set- lines say of one seat: its place and its trial can only go together.
    fn forget_seats(&mut self) {
        for seat in 0..8 {
            let mut lines = self.best.lines.clone();
            lines.retain(|line| field_of(line).map_or(true, |(_, numbers)| numbers[0] != seat));
            if lines.len() < self.best.lines.len() {
                self.take_if_different(lines);
            }
        }
    }

    /// A choice with its alternatives: without it these are number 20.
    fn forget_choices(&mut self) {
        for seat in 0..8 {
            for feature in 0..16 {
                let mut lines = self.best.lines.clone();
                lines.retain(|line| match field_of(line) {
                    Some((word, numbers)) if word == "set-choice" || word == "set-alternatives" => {
                        !numbers.starts_with(&[seat, feature])
                    }
                    _ => true,
                });
                if lines.len() < self.best.lines.len() {
                    self.take_if_different(lines);
                }
            }
        }
    }

    /// A place one depth less, with the trial entry that is then none.
    fn lower_depths(&mut self) {
        let mut line = 0;
        while line < self.best.lines.len() {
            let lower = match field_of(&self.best.lines[line]) {
                Some((word, mut numbers)) if word == "set-work" && numbers.len() == 5 && numbers[3] > 0 => {
                    numbers[3] -= 1;
                    let mut lines = self.best.lines.clone();
                    lines[line] = whole(&word, &numbers);
                    let entry = whole("set-trial", &[numbers[0], numbers[3]]);
                    lines.retain(|line| !line.starts_with(&entry));
                    self.take_if_different(lines)
                }
                _ => false,
            };
            if !lower {
                line += 1;
            }
        }
    }

    /// Neighbouring lines that can only go together.
    fn remove_windows(&mut self) {
        for width in 2..=8 {
            let mut start = 0;
            while start + width <= self.best.lines.len().min(100) {
                let mut lines = self.best.lines.clone();
                lines.drain(start..start + width);
                if !self.take_if_different(lines) {
                    start += 1;
                }
            }
        }
    }

    /// One line gone and at the same time another gone or one of its numbers smaller: the last
    /// resort, for scripts that are short already.
    fn remove_with_another(&mut self) -> bool {
        let count = self.best.lines.len();
        if count > 24 {
            return false;
        }
        for gone in 0..count {
            for other in (0..count).filter(|&other| other != gone) {
                for edited in edits(&self.best.lines[other]) {
                    let mut lines = self.best.lines.clone();
                    lines[other] = edited;
                    lines.remove(gone);
                    lines.retain(|line| !line.is_empty());
                    if self.take_if_different(lines) {
                        return true;
                    }
                }
            }
        }
        false
    }

    /// Lines without their byte-order mark, with single blanks alone, and without a remark behind.
    fn plainer_lines(&mut self) {
        for line in 0..self.best.lines.len() {
            for plainer in plainer(self.best.lines.get(line).map_or(&[][..], |line| line)) {
                let mut lines = self.best.lines.clone();
                if let Some(place) = lines.get_mut(line) {
                    *place = plainer;
                    self.take_if_different(lines);
                }
            }
        }
    }

    /// Numbers of the lines that take any count of them (sizes, rules, more), in halving chunks.
    fn remove_numbers(&mut self) {
        let mut line = 0;
        while line < self.best.lines.len() {
            let (word, count) = match parts(&self.best.lines[line]) {
                Some((word, numbers)) => (word, numbers.len()),
                None => (String::new(), 0),
            };
            if matches!(&word[..], "sizes" | "rules" | "more") {
                // Lists of thousands of numbers only in coarse chunks.
                let mut chunk = count.max(1);
                while chunk > count / 100 && chunk > 0 {
                    self.remove_chunks(line, chunk);
                    chunk /= 2;
                }
            }
            line += 1;
        }
    }

    fn remove_chunks(&mut self, line: usize, chunk: usize) {
        let mut start = 0;
        while let Some((word, mut numbers)) = self.best.lines.get(line).and_then(|line| parts(line)) {
            if start >= numbers.len() {
                return;
            }
            let end = (start + chunk).min(numbers.len());
            numbers.drain(start..end);
            let mut lines = self.best.lines.clone();
            lines[line] = whole(&word, &numbers);
            if !self.take_if_different(lines) {
                start = end;
            }
        }
    }

    fn smaller_numbers(&mut self) {
        let mut line = 0;
        while line < self.best.lines.len() {
            let count = parts(&self.best.lines[line]).map_or(0, |(_, numbers)| numbers.len());
            for place in 0..count.min(50) {
                let mut rounds = 0;
                while rounds < 20 && self.smaller_number(line, place) {
                    rounds += 1;
                }
            }
            line += 1;
        }
    }

    fn smaller_number(&mut self, line: usize, place: usize) -> bool {
        let (word, numbers) = match self.best.lines.get(line).and_then(|line| parts(line)) {
            Some(found) if place < found.1.len() => found,
            _ => return false,
        };
        let now = numbers[place];
        // Less by all of it, by a half, a quarter … and by one.
        let mut less = now;
        while less > 0 {
            let mut numbers = numbers.clone();
            numbers[place] = now - less;
            less /= 2;
            let mut lines = self.best.lines.clone();
            lines[line] = whole(&word, &numbers);
            if self.take_if_different(lines) {
                return true;
            }
        }
        false
    }
}

/// What a line may become beside another's removal: nothing, or one number less by one.
fn edits(line: &[u8]) -> Vec<Vec<u8>> {
    let mut edits = vec![Vec::new()];
    if let Some((word, numbers)) = parts(line) {
        for place in (0..numbers.len().min(12)).filter(|&place| numbers[place] > 0) {
            let mut numbers = numbers.clone();
            numbers[place] -= 1;
            edits.push(whole(&word, &numbers));
        }
    }
    edits
}

/// A line in plainer forms, those that are others than itself.
fn plainer(line: &[u8]) -> Vec<Vec<u8>> {
    let unmarked = line.strip_prefix(MARK).unwrap_or(line);
    let mut forms = vec![unmarked.to_vec(), single_blanks(unmarked), single_blanks(before_remark(unmarked))];
    forms.dedup();
    forms.retain(|form| &form[..] != line);
    forms
}

fn single_blanks(line: &[u8]) -> Vec<u8> {
    let words: Vec<&[u8]> = line
        .split(|byte| matches!(byte, b' ' | b'\t' | b',' | b'\r'))
        .filter(|word| !word.is_empty())
        .collect();
    words.join(&b' ')
}

/// A line that sets a field of a seat.
fn field_of(line: &[u8]) -> Option<(String, Vec<u64>)> {
    let (word, numbers) = parts(line)?;
    let seats = word.starts_with("set-") && word != "set-next" && word != "set-byte";
    if seats && !numbers.is_empty() {
        Some((word, numbers))
    } else {
        None
    }
}

/// A line as a word and numbers, if it is one.
fn parts(line: &[u8]) -> Option<(String, Vec<u64>)> {
    let text = std::str::from_utf8(line).ok()?;
    let mut parts = text.split_ascii_whitespace();
    let word = parts.next()?.to_string();
    let numbers: Option<Vec<u64>> = parts.map(|part| part.parse().ok()).collect();
    Some((word, numbers?))
}

fn whole(word: &str, numbers: &[u64]) -> Vec<u8> {
    let mut text = word.to_string();
    for number in numbers {
        text.push_str(&format!(" {}", number));
    }
    text.into_bytes()
}

#[cfg(test)]
mod tests {
    use super::plainer;

    #[test]
    fn plainer_forms_of_a_line() {
        assert!(plainer(b"enter 3").is_empty());
        assert!(plainer(b"").is_empty());
        assert_eq!(plainer(b",enter\t3\r"), [b"enter 3".to_vec()]);
        assert_eq!(plainer(b"\xef\xbb\xbf enter 3"), [b" enter 3".to_vec(), b"enter 3".to_vec()]);
        assert_eq!(plainer(b"enter 3,# 4"), [b"enter 3 # 4".to_vec(), b"enter 3".to_vec()]);
        assert!(plainer(b"enter 3#").is_empty());
    }
}

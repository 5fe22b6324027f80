//! `oracle compare`: random scripts played by a console and by the oracle, line by line.

use crate::console::Console;
use crate::difference::{self, Difference};
use crate::expect;
use crate::generate::{self, Random, Script};
use crate::script::Session;
use crate::shrink::{self, Shrunk};
use crate::tally::Tally;
use std::sync::Mutex;
use std::thread;
use std::time::{Duration, Instant};

/// Two consoles at a time, for two cores.
const AT_A_TIME: usize = 2;

pub struct Wish {
    pub console: String,
    pub seed: u64,
    pub calls: u64,
    /// Instead of a number of calls.
    pub seconds: Option<u64>,
    pub patience: u64,
    pub shrink_seconds: u64,
}

struct Shared {
    scripts: u64,
    tally: Tally,
    found: Option<Found>,
}

struct Found {
    number: u64,
    seed: u64,
    calls: u64,
    script: Script,
    difference: Difference,
}

/// True if there was no difference.
pub fn compare(wish: &Wish) -> bool {
    println!("compare: console `{}`, seed {}", wish.console, wish.seed);
    let start = Instant::now();
    let patience = Duration::from_secs(wish.patience);
    let console = Console { command: wish.console.clone(), patience, loud: false };
    let shared = Mutex::new(Shared { scripts: 0, tally: Tally::new(), found: None });
    thread::scope(|scope| {
        for _ in 0..AT_A_TIME {
            scope.spawn(|| work(wish, &console, &shared, start));
        }
    });
    let shared = match shared.into_inner() {
        Ok(shared) => shared,
        Err(_) => return false,
    };
    print!("{}", shared.tally.lines());
    println!("scripts {}, seconds {:.1}", shared.scripts, start.elapsed().as_secs_f64());
    match shared.found {
        None => {
            println!("compare: {} calls, no difference", shared.tally.all_calls());
            true
        }
        Some(found) => {
            report(&console, found, wish);
            false
        }
    }
}

/// Script after script until there is enough, or a difference.
fn work(wish: &Wish, console: &Console, shared: &Mutex<Shared>, start: Instant) {
    loop {
        let number = match next_number(wish, shared, start) {
            Some(number) => number,
            None => return,
        };
        // Every script has a seed of its own, whichever thread plays it.
        let seed = Random::new(wish.seed.wrapping_add(number.wrapping_mul(0x2545_f491_4f6c_dd1d))).next();
        let script = generate::script(seed);
        let text = generate::text(&script.lines, script.last_line_feed);
        let played = console.play(text, script.transcript.len() + 1_000_000);
        let difference = difference::between(
            &script.lines,
            &script.transcript,
            &played.transcript,
            played.trouble.as_deref(),
            &script.problems,
        );
        let mut shared = match shared.lock() {
            Ok(shared) => shared,
            Err(_) => return,
        };
        match difference {
            None => shared.tally.add(&script.tally),
            Some(difference) => {
                if shared.found.is_none() {
                    let calls = shared.tally.all_calls() + calls_until(&script.lines, difference.script_line);
                    shared.found = Some(Found { number, seed, calls, script, difference });
                }
                return;
            }
        }
    }
}

/// The number of the next script; None if there is enough, or a difference.
fn next_number(wish: &Wish, shared: &Mutex<Shared>, start: Instant) -> Option<u64> {
    let mut shared = shared.lock().ok()?;
    let enough = match wish.seconds {
        Some(seconds) => start.elapsed() >= Duration::from_secs(seconds),
        // Scripts under way elsewhere are counted as if they were done.
        None => {
            let under_way = shared.scripts * generate::CALLS_OF_A_SCRIPT;
            shared.tally.all_calls().max(under_way) >= wish.calls
        }
    };
    if enough || shared.found.is_some() {
        return None;
    }
    shared.scripts += 1;
    Some(shared.scripts)
}

/// Calls of a script up to and with one of its lines.
fn calls_until(lines: &[Vec<u8>], last: usize) -> u64 {
    let mut session = Session::new();
    for line in lines.iter().take(last + 1) {
        session.line(line, &mut Vec::new());
    }
    session.tally.all_calls()
}

fn report(console: &Console, found: Found, wish: &Wish) {
    println!(
        "difference after {} calls, in script {} (its own seed {}), line {} of {}",
        found.calls,
        found.number,
        found.seed,
        found.difference.script_line + 1,
        found.script.lines.len()
    );
    show(&found.difference);
    println!("shrinking …");
    let Script { lines, last_line_feed, .. } = found.script;
    let time = Duration::from_secs(wish.shrink_seconds);
    let shrunk = shrink::shrink(console, lines, last_line_feed, found.difference, time);
    println!("the shortest script, {} lines, after {} runs:", shrunk.lines.len(), shrunk.runs);
    if !shrunk.in_time {
        println!("(not shrunk to the end within {} seconds)", wish.shrink_seconds);
    }
    println!("----");
    for line in &shrunk.lines {
        println!("{}", String::from_utf8_lossy(line));
    }
    println!("----");
    show(&shrunk.difference);
    both_desks(console, &shrunk);
    println!("compare: a difference after {} calls; --seed {} repeats it", found.calls, wish.seed);
}

fn show(difference: &Difference) {
    println!("expected: {}", difference.expected);
    println!("answered: {}", difference.answered);
}

/// Both desks and boards at that point: those lines that differ.
fn both_desks(console: &Console, shrunk: &Shrunk) {
    let mut lines = shrunk.lines.clone();
    lines.truncate(before_the_end(&lines));
    lines.push(b"# both desks".to_vec());
    lines.push(b"desk".to_vec());
    for seat in 0..8 {
        lines.push(format!("share {}", seat).into_bytes());
    }
    let text = generate::text(&lines, true);
    let (expected, _) = expect::transcript(&text);
    let console = Console { command: console.command.clone(), patience: console.patience, loud: true };
    let played = console.play(text, expected.len() + 1_000_000);
    let ours = after_remark(&expected);
    let theirs = after_remark(&played.transcript);
    println!("desk and board at that point, lines that only one side has:");
    for (side, lines, others) in [("expected", &ours, &theirs), ("answered", &theirs, &ours)] {
        for line in lines.iter().filter(|line| !others.contains(line)) {
            println!("  {}: {}", side, line);
        }
    }
}

/// How many lines stand before `quit` or `exit`.
fn before_the_end(lines: &[Vec<u8>]) -> usize {
    let mut session = Session::new();
    let ends = |line: &Vec<u8>| {
        session.line(line, &mut Vec::new());
        session.over
    };
    lines.iter().position(ends).unwrap_or(lines.len())
}

fn after_remark(transcript: &[u8]) -> Vec<String> {
    let lines = expect::lines(transcript);
    let from = lines.iter().position(|line| *line == &b"# both desks"[..]).map_or(lines.len(), |at| at + 1);
    lines[from..].iter().map(|line| String::from_utf8_lossy(line).into_owned()).collect()
}

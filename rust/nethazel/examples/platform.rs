//! A platform in small: ten thousand clinics on 1,250 desks and four threads. The clinics come two at a time; each enters its
//! seat and makes a choice. The threads give their desks turns in portions, and pass over those on which nobody is at work.
//! At the end every clinic's answers are held to all builds, one after another.
//!
//! usage: platform [CLINICS [THREADS [TURNS]]], numbers from 1 on, else 10000 4 64; TURNS a portion, at most 65535

use nethazel::{Board, Catalogue, Desk, Refusal};
use std::error::Error;
use std::mem::size_of;
use std::process::exit;
use std::thread;
use std::time::{Duration, Instant};

const SIZES: [usize; 3] = [3, 3, 2];
const RULES: [([usize; 2], [[usize; 2]; 4]); 2] = [
    ([0, 1], [[0, 1], [1, 0], [1, 2], [2, 1]]),
    ([1, 2], [[0, 0], [1, 1], [2, 0], [2, 1]]),
];
/// What a clinic may wish: a feature and its option. On the trolley each is in some build.
const WISHES: [(usize, usize); 8] = [
    (0, 0),
    (0, 1),
    (0, 2),
    (1, 0),
    (1, 1),
    (1, 2),
    (2, 0),
    (2, 1),
];
const SEATS: usize = 8;
const ROUNDS_OF_ARRIVAL: usize = 32;

const USAGE: &str =
    "usage: platform [CLINICS [THREADS [TURNS]]], numbers from 1 on, else 10000 4 64; TURNS a portion, at most 65535";

fn main() -> Result<(), Box<dyn Error>> {
    let arguments: Vec<String> = std::env::args().skip(1).collect();
    let (clinics, threads, portion) = numbers(&arguments).unwrap_or_else(|| {
        eprintln!("{USAGE}");
        exit(2)
    });
    let mut tables = open_tables(clinics)?;
    let threads = threads.min(tables.len());
    let start = Instant::now();
    let done = serve_all(&mut tables, threads, portion)?;
    let time = start.elapsed();
    println!(
        "{clinics} clinics on {} desks, {threads} threads",
        tables.len()
    );
    report(&done, portion, time);
    report_memory(tables.len());
    for table in &tables {
        check(table)?;
    }
    println!("every clinic was shown what all builds say");
    Ok(())
}

/// How many clinics, threads, and turns a portion; `None` where an argument is no such number, or one too many.
fn numbers(arguments: &[String]) -> Option<(usize, usize, u16)> {
    let number = |place: usize, default: usize| match arguments.get(place) {
        Some(argument) => argument.parse().ok().filter(|number| *number > 0),
        None => Some(default),
    };
    let (clinics, threads) = (number(0, 10_000)?, number(1, 4)?);
    let portion = u16::try_from(number(2, 64)?).ok()?; // more than one job of the trolley, less than two
    (arguments.len() <= 3).then_some((clinics, threads, portion))
}

/// A desk and the clinics at its seats.
struct Table {
    desk: Desk,
    clinics: Vec<Clinic>,
}

struct Clinic {
    arrives: usize, // in this round
    wish: (usize, usize),
    stage: Stage,
}

enum Stage {
    Away,
    Entered,
    Chosen,
    Served,
}

#[derive(Default)]
struct Done {
    jobs: u64,
    turns: u64,
    portions: u64,
    passed_over: u64,
}

fn trolley() -> Catalogue {
    let rules = RULES.iter();
    rules.fold(Catalogue::new(&SIZES), |catalogue, (features, rows)| {
        catalogue.rule(features, rows)
    })
}

fn open_tables(clinics: usize) -> Result<Vec<Table>, Refusal> {
    let catalogue = trolley(); // one, shared by all desks
    let clinic = |number: usize| Clinic {
        arrives: number / 2 * 7919 % ROUNDS_OF_ARRIVAL, // two at a time, scattered over the rounds
        wish: WISHES[(number + number / SEATS) % WISHES.len()],
        stage: Stage::Away,
    };
    let first_seats = (0..clinics).step_by(SEATS);
    let table = |first: usize| {
        let numbers = first..clinics.min(first + SEATS);
        Ok(Table {
            desk: Desk::open(&catalogue)?,
            clinics: numbers.map(clinic).collect(),
        })
    };
    first_seats.map(table).collect()
}

/// Each thread serves a part of the tables, which share nothing that is written: there is no lock.
fn serve_all(tables: &mut [Table], threads: usize, portion: u16) -> Result<Done, Refusal> {
    let part = (tables.len() + threads - 1) / threads;
    let parts: Vec<Result<Done, Refusal>> = thread::scope(|scope| {
        let running: Vec<_> = tables
            .chunks_mut(part)
            .map(|part| scope.spawn(move || serve(part, portion)))
            .collect();
        let ended = running.into_iter().map(|thread| thread.join());
        ended.map(|done| done.expect("no panic")).collect()
    });
    let mut all = Done::default();
    for done in parts {
        let done = done?;
        all.jobs += done.jobs;
        all.turns += done.turns;
        all.portions += done.portions;
        all.passed_over += done.passed_over;
    }
    Ok(all)
}

/// Rounds over the tables: the clinics make their calls, then the desk gets a portion of turns, if it needs any.
fn serve(tables: &mut [Table], portion: u16) -> Result<Done, Refusal> {
    let mut done = Done::default();
    let mut unserved: usize = tables.iter().map(|table| table.clinics.len()).sum();
    for round in 0.. {
        if unserved == 0 {
            break;
        }
        for Table { desk, clinics } in tables.iter_mut() {
            for (seat, clinic) in clinics.iter_mut().enumerate() {
                done.jobs += u64::from(clinic.call(desk, seat, round)?);
                unserved -= usize::from(clinic.is_served_now(desk, seat)?);
            }
            if !desk.is_working() {
                done.passed_over += 1;
                continue;
            }
            done.portions += 1;
            done.turns += u64::from(desk.turns(portion)?.made);
        }
    }
    Ok(done)
}

impl Clinic {
    /// Makes the clinic's next call, if it is time for it; whether it gave the seat a job.
    fn call(&mut self, desk: &mut Desk, seat: usize, round: usize) -> Result<bool, Refusal> {
        match self.stage {
            Stage::Away if self.arrives <= round => {
                desk.enter(seat)?;
                self.stage = Stage::Entered;
                Ok(true)
            }
            Stage::Entered if desk.seat(seat)?.is_ready() => {
                desk.choose(seat, self.wish.0, self.wish.1)?;
                self.stage = Stage::Chosen;
                Ok(true)
            }
            _ => Ok(false),
        }
    }

    /// Whether its last job has just come to its end.
    fn is_served_now(&mut self, desk: &Desk, seat: usize) -> Result<bool, Refusal> {
        let now = matches!(self.stage, Stage::Chosen) && desk.seat(seat)?.is_ready();
        if now {
            self.stage = Stage::Served;
        }
        Ok(now)
    }
}

fn report(done: &Done, portion: u16, time: Duration) {
    let seconds = time.as_secs_f64();
    println!("{} jobs done in {} turns", done.jobs, done.turns);
    println!(
        "{} portions of {portion} turns asked for, {} passed over, for nobody was at work",
        done.portions, done.passed_over
    );
    let speed = done.turns as f64 / seconds;
    println!("{seconds:.2} s, {speed:.0} turns a second");
}

fn report_memory(desks: usize) {
    let (desk, board) = (size_of::<Desk>(), Board::LENGTH);
    let megabytes = (desks * (desk + board)) as f64 / 1e6;
    println!("{megabytes:.1} MB: {desk} bytes for each desk, {board} for its board");
}

/// All builds in dictionary order that satisfy every rule.
fn builds() -> impl Iterator<Item = [usize; 3]> {
    let all = (0..SIZES.iter().product()).map(|number: usize| {
        let pair = SIZES[1] * SIZES[2];
        [
            number / pair,
            number / SIZES[2] % SIZES[1],
            number % SIZES[2],
        ]
    });
    all.filter(|build| {
        RULES
            .iter()
            .all(|([first, second], rows)| rows.contains(&[build[*first], build[*second]]))
    })
}

/// Each clinic's answers are those of all builds.
fn check(table: &Table) -> Result<(), Box<dyn Error>> {
    for (seat, clinic) in table.clinics.iter().enumerate() {
        let right = is_right(&table.desk, seat, clinic.wish)?;
        if !matches!(clinic.stage, Stage::Served) || !right {
            return Err(format!("seat {seat} with {:?} is served wrongly", clinic.wish).into());
        }
    }
    Ok(())
}

fn is_right(desk: &Desk, seat: usize, wish: (usize, usize)) -> Result<bool, Refusal> {
    let wished = |build: &[usize; 3]| build[wish.0] == wish.1;
    let mut right = true;
    for (feature, size) in SIZES.iter().enumerate() {
        let left = desk.options(seat, feature)?;
        for option in 0..*size {
            let has = |build: &[usize; 3]| build[feature] == option;
            let first = builds().filter(wished).find(has);
            right &= left.has(option) == first.is_some();
            if let Some(build) = first {
                right &= desk.example(seat, feature, option)?.options().eq(build);
            }
        }
    }
    let instead = desk.alternatives(seat, wish.0)?;
    let mut options = 0..SIZES[wish.0];
    right &=
        options.all(|option| instead.has(option) == builds().any(|build| build[wish.0] == option));
    Ok(right)
}

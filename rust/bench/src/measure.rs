//! Times, taken in turn: desk, plain, checked, desk, .. Of several rounds the best of each counts.

use crate::clock::cpu_time;
use crate::families::Family;
use crate::{checked, door, plain};
use std::time::{Duration, Instant};

pub const ROUNDS: u32 = 5;

/// The same steps made by the desk and by a plain version, and how long each took.
#[derive(Clone, Copy)]
pub struct Pair {
    pub desk: Duration,
    pub plain: Duration,
    pub steps: u64,
}

impl Pair {
    const NEVER: Pair = Pair {
        desk: Duration::MAX,
        plain: Duration::MAX,
        steps: 0,
    };

    pub fn desk_rate(&self) -> f64 {
        self.steps as f64 / self.desk.as_secs_f64()
    }

    pub fn plain_rate(&self) -> f64 {
        self.steps as f64 / self.plain.as_secs_f64()
    }

    /// Above 1 the desk is the faster.
    pub fn ratio(&self) -> f64 {
        self.plain.as_secs_f64() / self.desk.as_secs_f64()
    }

    fn better(&mut self, (desk, steps): (Duration, u64), (plain, plain_steps): (Duration, u64)) {
        assert_eq!(steps, plain_steps);
        *self = Pair {
            desk: self.desk.min(desk),
            plain: self.plain.min(plain),
            steps,
        };
    }
}

/// The desk against the plain versions.
pub struct Against {
    pub plain: Pair,
    pub by_last: Pair, // plain, with the tuned row test
    pub checked: Pair,
}

pub fn busy_desk(family: &Family, seats: usize) -> door::Desk<'_> {
    let mut desk = door::Desk::open(&family.catalogue);
    for c in 0..seats {
        assert_eq!(desk.enter(c), 0);
    }
    desk
}

pub fn busy_plain<const BY_LAST: bool>(
    catalogue: &plain::Grouped<BY_LAST>,
    seats: usize,
) -> plain::Desk<'_, BY_LAST> {
    let mut desk = plain::Desk::open(catalogue);
    for c in 0..seats {
        desk.enter(c);
    }
    desk
}

pub fn busy_checked(family: &Family, seats: usize) -> checked::Host<'_> {
    let mut host = checked::Host::open(&family.catalogue);
    for c in 0..seats {
        host.enter(c);
    }
    host
}

/// Time and steps of some calls from a posted job on; where all jobs end, others are posted outside the time.
fn timed_calls<D>(
    fresh: impl Fn() -> D,
    turns: impl Fn(&mut D) -> (u16, bool),
    calls: u32,
) -> (Duration, u64) {
    let mut desk = fresh();
    let (mut time, mut steps) = (Duration::ZERO, 0);
    for _ in 0..calls {
        let start = cpu_time();
        let (made, working) = turns(&mut desk);
        time += cpu_time() - start;
        steps += u64::from(made);
        if !working {
            desk = fresh();
        }
    }
    (time, steps)
}

/// Some calls of turns(w) with so many seats at work.
pub fn turns(family: &Family, seats: usize, w: u16, calls: u32) -> Against {
    let grouped = plain::Grouped::<false>::new(&family.catalogue);
    let tuned = plain::Grouped::<true>::new(&family.catalogue);
    let mut best = Against {
        plain: Pair::NEVER,
        by_last: Pair::NEVER,
        checked: Pair::NEVER,
    };
    for _ in 0..ROUNDS {
        let desk = timed_calls(|| busy_desk(family, seats), |desk| desk.turns(w), calls);
        let plain = timed_calls(|| busy_plain(&grouped, seats), |desk| desk.turns(w), calls);
        let by_last = timed_calls(|| busy_plain(&tuned, seats), |desk| desk.turns(w), calls);
        let checked = timed_calls(|| busy_checked(family, seats), |host| host.turns(w), calls);
        best.plain.better(desk, plain);
        best.by_last.better(desk, by_last);
        best.checked.better(desk, checked);
    }
    best
}

/// From an enter on a fresh desk until its seat is ready; none where that takes more than so many steps.
pub fn enter_to_ready(family: &Family, most: u64) -> Option<Pair> {
    let grouped = plain::Grouped::<false>::new(&family.catalogue);
    let mut best = Pair::NEVER;
    for _ in 0..ROUNDS {
        let mut desk = door::Desk::open(&family.catalogue);
        let start = cpu_time();
        desk.enter(0);
        let steps = until_ready(|| desk.turns(65535), most)?;
        let desk_time = cpu_time() - start;
        let mut plain = plain::Desk::open(&grouped);
        let start = cpu_time();
        plain.enter(0);
        let plain_steps = until_ready(|| plain.turns(65535), most)?;
        best.better((desk_time, steps), (cpu_time() - start, plain_steps));
    }
    Some(best)
}

fn until_ready(mut turns: impl FnMut() -> (u16, bool), most: u64) -> Option<u64> {
    let mut steps = 0;
    loop {
        let (made, working) = turns();
        steps += u64::from(made);
        if !working {
            return Some(steps);
        }
        if most < steps {
            return None;
        }
    }
}

/// One call of turns(w) where so many seats have just entered, by the desk and by the checked version. A call may be
/// shorter than the clock's own, so the clock is read around some that begin alike, and the mean counts.
pub fn same_call(family: &Family, seats: usize, w: u16) -> Pair {
    let (sizes, rules) = (family.catalogue.sizes(), family.catalogue.rule_list());
    let desk = busy_desk(family, seats);
    let host = busy_checked(family, seats);
    let mut best = Pair::NEVER;
    for _ in 0..4 * ROUNDS {
        let (mut board, mut checked_board) = (desk.board.clone(), host.board.clone());
        best.better(
            mean_call(&desk.record, |desk| {
                door::turns(desk, &mut board, &family.catalogue, w)
            }),
            mean_call(&host.desk, |desk| {
                checked::turns(desk, &mut checked_board, sizes, rules, w)
            }),
        );
    }
    best
}

fn mean_call<D: Clone>(
    fresh: &D,
    mut turns: impl FnMut(&mut D) -> Result<(u16, bool), u8>,
) -> (Duration, u64) {
    const CALLS: u32 = 50;
    let mut desks = vec![fresh.clone(); CALLS as usize];
    let mut steps = 0;
    let start = cpu_time();
    for desk in &mut desks {
        steps += u64::from(turns(desk).expect("turns refused").0);
    }
    ((cpu_time() - start) / CALLS, steps / u64::from(CALLS))
}

/// What a call takes, each on a desk with one seat at work.
pub struct Calls {
    pub none: Duration, // turns(0): the checks, and finding the rules of each feature
    pub one: Duration,
    pub many: Duration, // turns(4,096)
    pub options: Duration,
    pub alternatives: Duration,
    pub enter: Duration, // for an open seat: refused, so the checks alone
}

pub fn calls(family: &Family) -> Calls {
    Calls {
        none: call_time(family, 300, |desk| desk.turns(0)),
        one: call_time(family, 300, |desk| desk.turns(1)),
        many: call_time(family, 20, |desk| desk.turns(4096)),
        options: call_time(family, 300, |desk| desk.options(0, 0)),
        alternatives: call_time(family, 300, |desk| desk.alternatives(0, 0)),
        enter: call_time(family, 300, |desk| assert_eq!(desk.enter(0), 32)),
    }
}

fn call_time<Answer>(
    family: &Family,
    calls: u32,
    call: impl Fn(&mut door::Desk) -> Answer,
) -> Duration {
    let round = || {
        let mut desk = busy_desk(family, 1);
        let start = cpu_time();
        for _ in 0..calls {
            call(&mut desk);
        }
        (cpu_time() - start) / calls
    };
    (0..ROUNDS).map(|_| round()).min().unwrap()
}

/// Steps per second of so many desks, each on a thread of its own, by the clock on the wall.
pub fn on_threads(family: &Family, threads: usize, calls: u32) -> f64 {
    let start = Instant::now();
    let steps: u64 = std::thread::scope(|scope| {
        let work = || timed_calls(|| busy_desk(family, 1), |desk| desk.turns(65535), calls).1;
        let desks: Vec<_> = (0..threads).map(|_| scope.spawn(work)).collect();
        desks.into_iter().map(|desk| desk.join().unwrap()).sum()
    });
    steps as f64 / start.elapsed().as_secs_f64()
}

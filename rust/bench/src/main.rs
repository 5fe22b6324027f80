//! The desk through its door against the written search in plain Rust, in one run of one x86-64 program. There are two
//! plain versions: `plain` has its rules grouped and checks nothing, with a row test as one first writes it or a tuned
//! one; `checked` does all that a call of the desk does.
//!
//! `tools/bench` builds and runs it; with `--write` it also writes the tables between the marks of `docs/BENCH.md`, and
//! `docs/bench.svg`; with `--ratios` it prints the ratios alone.

mod checked;
mod clock;
mod door;
mod families;
mod measure;
mod plain;
mod report;
mod same;
mod seat;

// The door as the crate of the Rust hosts declares it.
#[allow(dead_code)]
#[path = "../../nethazel/src/catalogue.rs"]
mod catalogue;
#[allow(dead_code)]
#[path = "../../nethazel/src/ffi.rs"]
mod ffi;

use catalogue::Catalogue;
use families::{drawn, frames, one_rule, pairs_of_features, trolley, Family};
use report::{hundredths, micros, millions, nanos_each, ratio, turns_of, Bars, Table};

/// The trolley, catalogues of 10 to 16 features with 3 to 8 options and 10 to 25 rules, the longest rule lists, and rows
/// that are alike at one end.
fn all_families() -> Vec<Family> {
    let kinds = [
        (10, 3, 10, 45),
        (10, 8, 25, 45),
        (11, 5, 18, 40),
        (12, 4, 12, 50),
        (13, 4, 20, 30),
        (13, 4, 20, 60),
        (14, 6, 20, 45),
        (15, 7, 15, 30),
        (16, 3, 25, 30),
        (16, 3, 25, 60),
        (16, 8, 10, 45),
    ];
    let mut families = vec![trolley()];
    for (features, size, rules, percent) in kinds {
        families.push(drawn(features, size, rules, percent, 1));
    }
    families.push(one_rule(1364));
    families.push(pairs_of_features(64));
    families.extend([false, true].map(frames));
    families
}

/// Calls enough for some hundred thousand steps: of turns(65,535) where jobs are long, more where they are short.
fn calls_for(family: &Family) -> u32 {
    if family.catalogue.sizes().len() < 10 {
        500
    } else {
        3
    }
}

fn speeds(families: &[Family]) -> (Table, Vec<Bars>) {
    let title = "Steps per second, in millions, by calls of turns(65,535)";
    let head =
        "catalogue | numbers | desk, one seat | plain | ratio | desk, eight seats | plain | ratio";
    let mut table = Table::new(title, head);
    let mut bars = Vec::new();
    for family in families {
        let one = measure::turns(family, 1, 65535, calls_for(family)).plain;
        let eight = measure::turns(family, 8, 65535, calls_for(family)).plain;
        let mut cells = vec![family.name.clone(), family.numbers().to_string()];
        for pair in [one, eight] {
            cells.extend([
                millions(pair.desk_rate()),
                millions(pair.plain_rate()),
                ratio(pair.ratio()),
            ]);
        }
        table.row(cells);
        bars.push(Bars {
            name: family.name.clone(),
            ratios: [one, eight].map(|pair| pair.ratio()),
        });
    }
    (table, bars)
}

fn waits(families: &[Family]) -> Table {
    let title = "From enter to ready, in microseconds, one seat (jobs of at most a million steps)";
    let head = "catalogue | steps | desk | plain | ratio";
    let mut table = Table::new(title, head);
    for family in families {
        if let Some(pair) = measure::enter_to_ready(family, 1_000_000) {
            let times = [micros(pair.desk), micros(pair.plain), ratio(pair.ratio())];
            let job = vec![family.name.clone(), pair.steps.to_string()];
            table.row([job, times.to_vec()].concat());
        }
    }
    table
}

fn call_costs() -> Table {
    let title = "What a call costs, in microseconds: the checks, and the rules found once a call";
    let head =
        "catalogue | numbers | turns(0) | turns(1) | options | alternatives | enter, refused \
                | turns(4,096) | turns(0) in it, %";
    let mut table = Table::new(title, head);
    let short = [
        trolley(),
        one_rule(40),
        pairs_of_features(8),
        drawn(16, 3, 25, 28, 1),
    ];
    let long = [one_rule(1364), pairs_of_features(64)];
    for family in short.into_iter().chain(long) {
        let calls = measure::calls(&family);
        let share = 100.0 * calls.none.as_secs_f64() / calls.many.as_secs_f64();
        let mut cells = vec![family.name.clone(), family.numbers().to_string()];
        let times = [
            calls.none,
            calls.one,
            calls.options,
            calls.alternatives,
            calls.enter,
            calls.many,
        ];
        cells.extend(times.map(micros));
        cells.push(format!("{:.1}", share));
        table.row(cells);
    }
    table
}

/// Some calls by the desk and by the checked version, from the moment on that the seats have entered.
fn same_calls() -> Table {
    let title = "The same call with the same checks in plain Rust, in microseconds";
    let head =
        "catalogue | call | desk, one seat | checked | ratio | desk, eight seats | checked | ratio";
    let mut table = Table::new(title, head);
    let some = &[0, 1, 16, 256][..];
    for (family, calls) in [
        (trolley(), &[0, 1, 16, 256, 65535][..]),
        (drawn(16, 3, 25, 28, 1), some),
        (pairs_of_features(64), some),
    ] {
        for &w in calls {
            let mut cells = vec![family.name.clone(), turns_of(w)];
            for pair in [1, 8].map(|seats| measure::same_call(&family, seats, w)) {
                cells.extend([pair.desk, pair.plain].map(hundredths));
                cells.push(ratio(pair.ratio()));
            }
            table.row(cells);
        }
    }
    table
}

fn growth() -> Table {
    let title = "Nanoseconds a step, as one thing grows";
    let head = "grows | at | desk | plain | ratio";
    let mut table = Table::new(title, head);
    let mut line = |grows: &str, at: usize, family: &Family, w: u16, calls: u32| {
        let pair = measure::turns(family, 1, w, calls).plain;
        let times = [
            nanos_each(pair.desk, pair.steps),
            nanos_each(pair.plain, pair.steps),
            ratio(pair.ratio()),
        ];
        table.row([vec![grows.to_string(), at.to_string()], times.to_vec()].concat());
    };
    for rows in [10, 40, 160, 640, 1364] {
        line("rows of one rule", rows, &one_rule(rows), 65535, 3);
    }
    for rules in [4, 16, 64] {
        line(
            "rules of 62 rows",
            rules,
            &pairs_of_features(rules),
            65535,
            2,
        );
    }
    for features in [6, 8, 10, 12, 14, 16] {
        let family = drawn(features, 4, 12, 45, 1);
        line(
            "features of 4 options, 12 rules",
            features,
            &family,
            65535,
            3,
        );
    }
    for (w, calls) in [(1, 3000), (16, 2000), (256, 300), (4096, 30), (65535, 3)] {
        line(
            "w, on 16 features of 3",
            w.into(),
            &drawn(16, 3, 25, 45, 1),
            w,
            calls,
        );
    }
    table
}

fn threads() -> Table {
    let title = "Several desks on several threads, millions of steps per second together, by the wall clock";
    let mut table = Table::new(title, "threads | steps");
    let most = std::thread::available_parallelism().map_or(1, |n| n.get().min(8));
    let family = drawn(16, 3, 25, 45, 1);
    for threads in (1..=most).filter(|n| n.is_power_of_two()) {
        let rate = measure::on_threads(&family, threads, 6);
        table.row(vec![threads.to_string(), millions(rate)]);
    }
    table
}

/// What stands between the marks of the page is replaced.
fn write_page(tables: &str) -> std::io::Result<()> {
    let page = std::fs::read_to_string("docs/BENCH.md")?;
    let (begin, end) = ("<!-- measured -->\n", "<!-- end -->");
    let from = page.find(begin).expect("no mark where the tables begin") + begin.len();
    let to = page.find(end).expect("no mark where the tables end");
    std::fs::write(
        "docs/BENCH.md",
        format!("{}\n{}\n{}", &page[..from], tables.trim_end(), &page[to..]),
    )
}

/// A line for each catalogue, for a script to gather: its name, the ratios against `plain` with one seat and with
/// eight, against its tuned kind, and against `checked`.
fn print_ratios(families: &[Family]) {
    for family in families {
        let [one, eight] =
            [1, 8].map(|seats| measure::turns(family, seats, 65535, calls_for(family)));
        let plain = [one.plain, eight.plain, one.by_last, eight.by_last];
        let ratios = [plain.as_slice(), &[one.checked, eight.checked]].concat();
        let ratios: Vec<String> = ratios.iter().map(|pair| ratio(pair.ratio())).collect();
        println!("{}\t{}", family.name, ratios.join("\t"));
    }
}

fn main() -> std::io::Result<()> {
    let asked = |word: &str| std::env::args().any(|given| given == word);
    let families = all_families();
    same::same_refusals();
    same::same_alternatives();
    same::same_ran_into();
    for family in &families {
        for seats in [1, 8] {
            same::same_steps::<false>(family, seats);
            same::same_steps::<true>(family, seats);
        }
    }
    if asked("--ratios") {
        print_ratios(&families);
        return Ok(());
    }
    let processor = report::processor();
    let mut tables = format!("Processor: {}.\n", processor);
    let (speeds, bars) = speeds(&families);
    let costs = [call_costs(), same_calls(), growth(), threads()];
    for table in [speeds, waits(&families)].iter().chain(&costs) {
        tables.push('\n');
        tables.push_str(&table.markdown());
    }
    print!("{}", tables);
    if asked("--write") {
        write_page(&tables)?;
        let title = format!("Steps of the desk for one of plain Rust. {}", processor);
        std::fs::write("docs/bench.svg", report::plot(&title, &bars))?;
    }
    Ok(())
}

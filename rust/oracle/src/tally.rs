//! What a script reached: calls, refusals by number, clauses of number 20, faults of catalogues, and
//! the lines that are special in some way.

use crate::fit::CLAUSES;
use crate::words::CALLS;

/// What a line can be beside its command, one count for each.
#[derive(Clone, Copy, Debug, PartialEq, Eq)]
pub enum Seen {
    MarkCommand,
    MarkRemark,
    MarkBlank,
    MarkNotUnderstood,
    MarkTooLong,
    RemarkAfterBlanks,
    RemarkBehindCommand,
    Quit,
    Exit,
    NumbersLine,
    GivenBack,
    ListReady,
    ListNoProduct,
    ListAtWork,
    ListRule,
    ListNoRule,
    ListRefused,
    RanIntoFirst,
    RanIntoLater,
    RanIntoFromTen,
    RanIntoOtherNumber,
    RanIntoNone,
    RanIntoReady,
    WorkReadyAlready,
    WorkOneTurn,
    WorkOneCall,
    WorkMoreCalls,
    WorkNoProduct,
    WorkBesideOthers,
    WorkLeavesOthers,
    FaultAllClosed,
    FaultOneOpen,
    FaultManyOpen,
    GoodAllClosed,
    GoodOneOpen,
    GoodManyOpen,
    FaultLaterFeature,
    FaultLaterRule,
    FaultRuleFromTen,
    FaultLaterRow,
    FaultRowFromTen,
}

pub const SEEN: [(Seen, &str); 41] = [
    (Seen::MarkCommand, "a byte-order mark before a command"),
    (Seen::MarkRemark, "a byte-order mark before a remark"),
    (Seen::MarkBlank, "a byte-order mark before blanks or nothing"),
    (Seen::MarkNotUnderstood, "a byte-order mark before what is not understood"),
    (Seen::MarkTooLong, "a byte-order mark before a line too long"),
    (Seen::RemarkAfterBlanks, "a remark after blanks"),
    (Seen::RemarkBehindCommand, "a remark behind a command"),
    (Seen::Quit, "quit"),
    (Seen::Exit, "exit"),
    (Seen::NumbersLine, "numbers"),
    (Seen::GivenBack, "numbers given back"),
    (Seen::ListReady, "list of a ready seat"),
    (Seen::ListNoProduct, "list without a product"),
    (Seen::ListAtWork, "list of a seat at work"),
    (Seen::ListRule, "list of a seat at work that ran into a rule"),
    (Seen::ListNoRule, "list of a seat at work that ran into none"),
    (Seen::ListRefused, "list refused"),
    (Seen::RanIntoFirst, "ran-into answered with rule 0"),
    (Seen::RanIntoLater, "ran-into answered with rules 1 to 9"),
    (Seen::RanIntoFromTen, "ran-into answered with a rule from 10 on"),
    (Seen::RanIntoOtherNumber, "ran-into answered with a number that isn't the rule's place at its depth"),
    (Seen::RanIntoNone, "ran-into answered with none at a seat at work"),
    (Seen::RanIntoReady, "ran-into answered at a ready seat"),
    (Seen::WorkReadyAlready, "work, ready already"),
    (Seen::WorkOneTurn, "work of 1 turn"),
    (Seen::WorkOneCall, "work of 2 to 65,535 turns"),
    (Seen::WorkMoreCalls, "work of more turns"),
    (Seen::WorkNoProduct, "work without a product"),
    (Seen::WorkBesideOthers, "work beside others at work"),
    (Seen::WorkLeavesOthers, "work after which others are at work"),
    (Seen::FaultAllClosed, "a catalogue line with a fault, no seat open"),
    (Seen::FaultOneOpen, "a catalogue line with a fault, one seat open"),
    (Seen::FaultManyOpen, "a catalogue line with a fault, more open"),
    (Seen::GoodAllClosed, "a catalogue line without a fault, no seat open"),
    (Seen::GoodOneOpen, "a catalogue line without a fault, one seat open"),
    (Seen::GoodManyOpen, "a catalogue line without a fault, more open"),
    (Seen::FaultLaterFeature, "a fault in a feature after the first"),
    (Seen::FaultLaterRule, "a fault in rules 1 to 9"),
    (Seen::FaultRuleFromTen, "a fault in a rule from 10 on"),
    (Seen::FaultLaterRow, "a fault in rows 1 to 9"),
    (Seen::FaultRowFromTen, "a fault in a row from 10 on"),
];

#[derive(Clone, Debug)]
pub struct Tally {
    pub calls: [u64; CALLS.len()],
    /// By refusal number; 0 counts what was accepted.
    pub refusals: [u64; 40],
    /// The same for the calls of alternatives alone, of the rule run into, and for `work`.
    pub alternatives: [u64; 40],
    pub ran_into: [u64; 40],
    pub work: [u64; 40],
    pub clauses: [u64; CLAUSES.len()],
    /// By fault number, 0 for none: what `sizes`, `rules` and `more` said, what `catalogue` showed.
    pub sizes: [u64; 40],
    pub rules: [u64; 40],
    pub looked: [u64; 40],
    pub seen: [u64; SEEN.len()],
    pub steps: u64,
    /// Those of the steps that `work` asked for.
    pub work_steps: u64,
    /// Those that ran into a rule, into several at once, and those of the first that made their seat
    /// ready.
    pub failed: u64,
    pub failed_several: u64,
    pub failed_last: u64,
    /// Seats that became ready in a run, and those of them compared with brute force.
    pub ready: u64,
    pub brute_force: u64,
    /// Times that the rule of a seat at work in a run was found again by recursion, and those of
    /// them with a rule.
    pub walked: u64,
    pub walked_into: u64,
}

impl Tally {
    pub fn new() -> Tally {
        Tally {
            calls: [0; CALLS.len()],
            refusals: [0; 40],
            alternatives: [0; 40],
            ran_into: [0; 40],
            work: [0; 40],
            clauses: [0; CLAUSES.len()],
            sizes: [0; 40],
            rules: [0; 40],
            looked: [0; 40],
            seen: [0; SEEN.len()],
            steps: 0,
            work_steps: 0,
            failed: 0,
            failed_several: 0,
            failed_last: 0,
            ready: 0,
            brute_force: 0,
            walked: 0,
            walked_into: 0,
        }
    }

    pub fn all_calls(&self) -> u64 {
        self.calls.iter().sum()
    }

    pub fn see(&mut self, what: Seen) {
        self.seen[what as usize] += 1;
    }

    pub fn add(&mut self, other: &Tally) {
        add_each(&mut self.calls, &other.calls);
        add_each(&mut self.refusals, &other.refusals);
        add_each(&mut self.alternatives, &other.alternatives);
        add_each(&mut self.ran_into, &other.ran_into);
        add_each(&mut self.work, &other.work);
        add_each(&mut self.clauses, &other.clauses);
        add_each(&mut self.sizes, &other.sizes);
        add_each(&mut self.rules, &other.rules);
        add_each(&mut self.looked, &other.looked);
        add_each(&mut self.seen, &other.seen);
        self.steps += other.steps;
        self.work_steps += other.work_steps;
        self.failed += other.failed;
        self.failed_several += other.failed_several;
        self.failed_last += other.failed_last;
        self.ready += other.ready;
        self.brute_force += other.brute_force;
        self.walked += other.walked;
        self.walked_into += other.walked_into;
    }

    pub fn lines(&self) -> String {
        let mut text = String::from("calls:");
        for (word, count) in CALLS.iter().zip(&self.calls) {
            text.push_str(&format!(" {} {}", word, count));
        }
        text.push_str(&format!("; {} steps, {} of them by work\n", self.steps, self.work_steps));
        text.push_str(&format!(
            "steps that ran into a rule: {}, into several at once: {}, and made the seat ready: {}\n",
            self.failed, self.failed_several, self.failed_last
        ));
        text.push_str(&by_number("accepted", "refusals", &self.refusals, &REFUSALS));
        text.push_str(&by_number("alternatives: accepted", "refusals", &self.alternatives, &OF_ALTERNATIVES));
        text.push_str(&by_number("ran-into: accepted", "refusals", &self.ran_into, &OF_RAN_INTO));
        text.push_str(&by_number("work: accepted", "refusals", &self.work, &OF_WORK));
        text.push_str(&by_number("sizes: good", "faults", &self.sizes, &FAULTS[..2]));
        text.push_str(&by_number("rules and more: good", "faults", &self.rules, &FAULTS));
        text.push_str(&by_number("catalogue: good", "faults", &self.looked, &FAULTS));
        text.push_str("clauses of 20:\n");
        for ((_, name), count) in CLAUSES.iter().zip(&self.clauses) {
            text.push_str(&format!("  {}: {}\n", name, count));
        }
        text.push_str("lines:\n");
        for ((_, name), count) in SEEN.iter().zip(&self.seen) {
            text.push_str(&format!("  {}: {}\n", name, count));
        }
        text.push_str(&format!(
            "seats ready in runs: {}, compared with brute force: {}\n",
            self.ready, self.brute_force
        ));
        text.push_str(&format!(
            "rules of seats at work in runs found again by recursion: {}, not none: {}\n",
            self.walked, self.walked_into
        ));
        text
    }
}

/// One line of counts; a number never reached shows as ×0, one that can't be only if it was.
fn by_number(good: &str, others: &str, counts: &[u64; 40], known: &[usize]) -> String {
    let mut text = format!("{} {}; {}:", good, counts[0], others);
    for number in (1..40).filter(|&number| known.contains(&number) || counts[number] > 0) {
        text.push_str(&format!(" {}×{}", number, counts[number]));
    }
    text.push('\n');
    text
}

/// Every number of the table, so that one never reached shows as ×0.
pub const REFUSALS: [usize; 20] =
    [1, 10, 11, 12, 13, 14, 15, 16, 17, 18, 20, 30, 31, 32, 33, 34, 35, 36, 37, 38];

/// Those that the call of alternatives can give: 32 is for enter only, 38 comes after 34.
pub const OF_ALTERNATIVES: [usize; 16] =
    [1, 10, 11, 12, 13, 14, 15, 16, 17, 18, 20, 30, 31, 33, 34, 38];

/// Those that the call of the rule run into can give: R-1, "1 to 31 only".
pub const OF_RAN_INTO: [usize; 13] = [1, 10, 11, 12, 13, 14, 15, 16, 17, 18, 20, 30, 31];

/// Those that `work` can give: at 33 it works, and a catalogue always has a feature 0.
pub const OF_WORK: [usize; 13] = [1, 10, 11, 12, 13, 14, 15, 16, 17, 18, 20, 30, 31];

/// A catalogue's faults; the first two are those of the sizes.
pub const FAULTS: [usize; 9] = [10, 11, 12, 13, 14, 15, 16, 17, 18];

fn add_each(sum: &mut [u64], other: &[u64]) {
    for (sum, other) in sum.iter_mut().zip(other) {
        *sum += other;
    }
}

#[cfg(test)]
mod tests {
    use super::SEEN;

    #[test]
    fn each_count_has_its_own_name() {
        for (place, (seen, _)) in SEEN.iter().enumerate() {
            assert_eq!(*seen as usize, place);
        }
    }
}

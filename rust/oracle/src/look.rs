//! The lines that only look: `desk`, `share`, `list`, `catalogue`, `numbers`.

use crate::catalogue;
use crate::desk::{Desk, Lent, BOARD};
use crate::record::{Record, State, EXAMPLE, NONE, SHARE};
use crate::tally::{Seen, Tally};
use crate::words::{self, counted, say, Spoken};

pub fn whole_desk(desk: &Desk, out: &mut Vec<u8>) {
    say(out, &format!("next {}", desk.next));
    for (number, record) in desk.seats.iter().enumerate() {
        say(out, &words::seat(number, record));
    }
}

pub fn share(board: &[u8], seat: usize, out: &mut Vec<u8>) {
    if board.len() != BOARD {
        return say(out, &format!("the board has {} bytes, so no shares", board.len()));
    }
    let share = &board[seat * SHARE..(seat + 1) * SHARE];
    let mut examples = 0;
    for (place, bytes) in share.chunks(EXAMPLE).enumerate() {
        if bytes.iter().any(|&byte| byte != NONE) {
            examples += 1;
            let (feature, option) = (place / 16, place % 16);
            let entries = words::entries(bytes);
            say(out, &format!("option {} of feature {}:{}", option, feature, entries));
        }
    }
    say(out, &format!("share {}: {} examples", seat, examples));
}

/// "no feature of the catalogue has an option left" in the record of a seat.
pub fn nothing_left(record: &Record, lent: Lent) -> bool {
    record.masks[..lent.sizes.len()].iter().all(|&mask| mask == 0)
}

/// `list S`, for people.
pub fn list_seat(desk: &Desk, board: &[u8], lent: Lent, seat: u32, out: &mut Vec<u8>, tally: &mut Tally) {
    match desk.options(board, lent, seat, 0).refusal {
        0 => list_ready(desk, board, lent, seat, out, tally),
        33 => {
            tally.see(Seen::ListAtWork);
            let (pair, pairs) = pair_of_pairs(&desk.seats[seat as usize], lent.sizes);
            say(out, &format!("seat {} is at work: pair {} of {}", seat, pair, pairs));
            let rule = desk.ran_into(board, lent, seat).rule;
            tally.see(if rule == NONE { Seen::ListNoRule } else { Seen::ListRule });
            say(out, &words::ran_into(seat, rule));
        }
        refusal => {
            tally.see(Seen::ListRefused);
            say(out, &words::refusal(refusal, Spoken::of(board, lent, &[seat])));
        }
    }
    say(out, &words::at_work(desk));
}

/// "N is the sum of the sizes, P counts from 1, feature by feature and option by option, up to the
/// pair at which the seat's record is."
fn pair_of_pairs(record: &Record, sizes: &[u8]) -> (usize, usize) {
    let sum = |sizes: &[u8]| sizes.iter().map(|&size| usize::from(size)).sum::<usize>();
    let pair = match record.state {
        State::AtWork { i, a, .. } => sum(&sizes[..usize::from(i)]) + usize::from(a) + 1,
        State::Closed | State::Ready => 0,
    };
    (pair, sum(sizes))
}

fn list_ready(desk: &Desk, board: &[u8], lent: Lent, seat: u32, out: &mut Vec<u8>, tally: &mut Tally) {
    let record = &desk.seats[seat as usize];
    tally.see(Seen::ListReady);
    say(out, &format!("seat {} is ready", seat));
    if nothing_left(record, lent) {
        tally.see(Seen::ListNoProduct);
        say(out, words::NO_PRODUCT);
    }
    for feature in 0..lent.sizes.len() as u32 {
        let left = desk.options(board, lent, seat, feature);
        let mut text = words::mask_and_count(feature, "left", left.mask, left.count);
        if left.mask != 0 {
            let least = left.mask.trailing_zeros();
            let (_, bytes) = desk.example(board, lent, seat, feature, least);
            let shown = &bytes[..lent.sizes.len().min(bytes.len())];
            text.push_str(&format!("; with {}:{}", least, words::entries(shown)));
        }
        if record.choices[feature as usize] != NONE {
            let alternatives = desk.alternatives(board, lent, seat, feature);
            text.push_str("; chosen; alternatives:");
            text.push_str(&words::bits(alternatives.mask));
        }
        say(out, &text);
    }
}

/// `catalogue`: "the catalogue as rules, in columns", up to the fault met first.
pub fn whole_catalogue(lent: Lent, out: &mut Vec<u8>, tally: &mut Tally) {
    let (rules, fault) = catalogue::rules_and_fault(lent.sizes, lent.list);
    tally.looked[fault.map_or(0, |fault| usize::from(fault.number))] += 1;
    let features = lent.sizes.len();
    say(out, &format!("{}, {}", counted(features, "feature"), counted(rules.len(), "rule")));
    say(out, &columns("feature", 0..features));
    say(out, &columns("options", lent.sizes.iter().map(|&size| usize::from(size))));
    for (number, rule) in rules.iter().enumerate() {
        let rows = rule.rows.chunks(rule.features.len());
        say(out, &format!("rule {}: {}", number, counted(rows.len(), "row")));
        say(out, &columns("feature", rule.features.iter().copied()));
        for (row, options) in rows.enumerate() {
            say(out, &columns(&format!("row {}", row), options.iter().map(|&option| usize::from(option))));
        }
    }
    if let Some(fault) = fault {
        say(out, &words::fault(fault, lent));
    }
}

/// "What a line of numbers begins with is filled with spaces to 8 bytes; each number takes 4, spaces
/// before it." Where there are no numbers the 8 bytes stand alone.
fn columns(begin: &str, numbers: impl Iterator<Item = usize>) -> String {
    let mut text = format!("{:<8}", begin);
    for number in numbers {
        text.push_str(&format!("{:>4}", number));
    }
    text
}

/// `numbers`: "two lines that can be given back as they are".
pub fn numbers(lent: Lent, out: &mut Vec<u8>) {
    let mut sizes = String::from("sizes");
    for size in lent.sizes {
        sizes.push_str(&format!(" {}", size));
    }
    say(out, &sizes);
    let mut rules = String::from("rules");
    for number in lent.list {
        rules.push_str(&format!(" {}", number));
    }
    say(out, &rules);
}

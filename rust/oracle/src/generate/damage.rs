//! Catalogues at the edges of faults 10 to 18, on both sides of each.

use super::catalogues::{self, scope, Draft};
use super::random::Random;

pub const KINDS: usize = 14;

/// A catalogue at an edge of its kind; about half are accepted.
pub fn at_edge(random: &mut Random, kind: usize) -> Draft {
    let mut draft = catalogues::small(random);
    match kind {
        0 => feature_count(random, &mut draft),
        1 => one_size(random, &mut draft),
        2 => length(random, &mut draft),
        3 => rule_count(random, &mut draft),
        4 => cut_short(random, &mut draft),
        5 => wrapping_rows(random, &mut draft),
        6 => arity(random, &mut draft),
        7 => feature_number(random, &mut draft),
        8 => named_twice(random, &mut draft),
        9 => row_option(random, &mut draft),
        10 => junk(random, &mut draft),
        11 => one_number(random, &mut draft),
        12 => draft = late(random),
        _ => draft = two_faults(random),
    }
    if (2..12).contains(&kind) && random.once_in(if kind == 2 { 3 } else { 6 }) {
        // A fault of the sizes is met before every fault of the list.
        one_size(random, &mut draft);
    }
    // The console's own limits.
    draft.sizes.truncate(64);
    let mut room = 9000;
    for rule in &mut draft.rules {
        rule.truncate(room);
        room -= rule.len();
    }
    draft
}

/// Two faults at once: the one met first is given.
fn two_faults(random: &mut Random) -> Draft {
    let first = random.below(11);
    let second = random.below(11);
    let mut draft = at_edge(random, first);
    let other = at_edge(random, second);
    if random.once_in(2) {
        draft.sizes = other.sizes;
    } else {
        draft.rules.extend(other.rules);
    }
    draft
}

/// 14 to 18 with many good rules before.
fn late(random: &mut Random) -> Draft {
    let kind = random.pick(&[4, 5, 6, 7, 8, 9, 9]);
    let mut draft = at_edge(random, kind);
    let before = random.between(1, 62);
    // Feature 0 has option 0 in any catalogue that is accepted.
    let mut rules = vec![vec![1, 1, 0, 0]; before];
    rules.append(&mut draft.rules);
    draft.rules = rules;
    draft
}

/// 10.
fn feature_count(random: &mut Random, draft: &mut Draft) {
    let count = random.pick(&[0, 1, 15, 16, 17, 18, 64]);
    draft.sizes = (0..count).map(|_| random.between(1, 3) as u8).collect();
    if random.once_in(2) {
        draft.rules.clear();
    }
    if count == 17 && random.once_in(2) {
        // 10 is met before 11.
        draft.sizes[random.below(17)] = 0;
    }
}

/// 11.
fn one_size(random: &mut Random, draft: &mut Draft) {
    let place = random.below(draft.sizes.len());
    if draft.sizes.is_empty() {
        return;
    }
    draft.sizes[place] = random.pick(&[0, 1, 15, 16, 17, 32, 255]);
}

/// 12: lists of 8,191 to 8,193 numbers and 9,000, good ones and bad ones.
fn length(random: &mut Random, draft: &mut Draft) {
    let length = random.pick(&[8191, 8192, 8192, 8193, 8193, 8194, 9000]);
    let arity = random.between(1, draft.sizes.len().min(6));
    let scope = scope(random, draft.sizes.len(), arity);
    // Rules of arity 1 fill up what whole rows of this arity leave over: 3 + m for one, 2 + k + k×m.
    let rest = (length - 2 - arity) % arity;
    let filler = if rest == 0 { 0 } else { 3 + (rest + 3 * arity - 3) % arity };
    let rows = (length - 2 - arity - filler) / arity;
    draft.rules.clear();
    if filler > 0 {
        let mut rule = vec![1, filler as u16 - 3, 0];
        rule.resize(filler, 0);
        draft.rules.push(rule);
    }
    let mut rule = vec![arity as u16, rows as u16];
    rule.extend(&scope);
    for _ in 0..rows {
        for &feature in &scope {
            rule.push(random.below(draft.sizes[usize::from(feature)].into()) as u16);
        }
    }
    draft.rules.push(rule);
    if random.once_in(4) {
        // 12 is met before every fault of the list itself.
        draft.rules[0][0] = random.pick(&[0, 7]);
    }
}

/// 13.
fn rule_count(random: &mut Random, draft: &mut Draft) {
    let count = random.pick(&[63, 64, 64, 64, 65, 65, 66]);
    draft.rules = (0..count).map(|_| catalogues::never_broken(random, &draft.sizes)).collect();
    match random.below(4) {
        0 => draft.rules.push(vec![random.pick(&[0, 1, 7, 65_535])]),
        1 => {
            // A fault within the last rule is met before numbers that remain.
            if let Some(last) = draft.rules.last_mut() {
                let place = random.below(last.len());
                last[place] = random.pick(&[0, 7, 16, 65_535]);
            }
        }
        _ => {}
    }
}

/// 14: a list that ends within header, features or rows.
fn cut_short(random: &mut Random, draft: &mut Draft) {
    ensure_rule(random, draft);
    let last = draft.rules.len() - 1;
    let rule = &mut draft.rules[last];
    let arity = usize::from(rule[0]);
    let keep = match random.below(6) {
        0 => 1,
        1 => 2,
        2 => random.between(2, 1 + arity),
        3 => 2 + arity,
        4 => random.between(1, rule.len()),
        _ => rule.len() - 1,
    };
    rule.truncate(keep);
    if random.once_in(4) {
        // What was left may hold a fault too: "rows cut short are 14 whatever they hold".
        let place = random.below(rule.len());
        rule[place] = random.pick(&[0, 1, 7, 16, 255, 65_535]);
    }
}

/// 14 again: k × m that wraps at 16 bits to just what is there.
fn wrapping_rows(random: &mut Random, draft: &mut Draft) {
    let arity = random.between(1, draft.sizes.len().min(6));
    let scope = scope(random, draft.sizes.len(), arity);
    let times = random.between(0, arity);
    let present = random.below(40) * arity;
    let count = ((65_536 * times + present) / arity).min(65_535);
    let numbers = (arity * count) % 65_536;
    let mut rule = vec![arity as u16, count as u16];
    rule.extend(scope);
    rule.extend(std::iter::repeat(0).take(numbers.min(1000)));
    draft.rules.push(rule);
}

/// 15, with and without what an arity of 7 would need.
fn arity(random: &mut Random, draft: &mut Draft) {
    while draft.sizes.len() < 8 {
        draft.sizes.push(2);
    }
    let arity: u16 = random.pick(&[0, 1, 5, 6, 6, 7, 7, 8, 255, 256, 257, 262, 65_535]);
    let rows = random.below(4);
    let known = usize::from(arity).min(8);
    let mut rule = vec![arity, rows as u16];
    rule.extend(scope(random, 8, known));
    let row: Vec<u16> = rule[2..].iter().map(|_| 0).collect();
    for _ in 0..rows {
        rule.extend(&row);
    }
    if random.once_in(5) {
        rule.truncate(random.between(1, 2));
    }
    let at = random.between(0, draft.rules.len());
    draft.rules.insert(at, rule);
}

/// 16.
fn feature_number(random: &mut Random, draft: &mut Draft) {
    ensure_rule(random, draft);
    let count = draft.sizes.len() as u16;
    let rule = random.below(draft.rules.len());
    let arity = usize::from(draft.rules[rule][0]);
    let place = 2 + random.below(arity);
    let good = draft.rules[rule][place];
    draft.rules[rule][place] =
        random.pick(&[count - 1, count, count + 1, 15, 16, 255, 256 + good, 65_535]);
    if random.once_in(3) {
        // Both 16 and 17 in one rule, in either order: "16 before 17" feature by feature.
        let other = 2 + random.below(arity);
        draft.rules[rule][other] = random.pick(&[0, count, 9]);
    }
}

/// 17.
fn named_twice(random: &mut Random, draft: &mut Draft) {
    let known = draft.sizes.len();
    let arity = random.between(2, 6);
    let mut named: Vec<u16> = (0..arity).map(|place| (place % known) as u16).collect();
    random.shuffle(&mut named);
    if known >= arity {
        let (from, to) = (random.below(arity), random.below(arity));
        named[to] = named[from];
    }
    if random.once_in(2) {
        let place = random.below(arity);
        named[place] = random.pick(&[known as u16, 9, 300]);
    }
    let rows = random.below(3);
    let mut rule = vec![arity as u16, rows as u16];
    rule.extend(named);
    // Sometimes the rows are missing: 17 comes before 14 for the rows.
    if !random.once_in(4) {
        rule.extend(std::iter::repeat(0).take(rows * arity));
    }
    let at = random.between(0, draft.rules.len());
    draft.rules.insert(at, rule);
}

/// 18, in any row.
fn row_option(random: &mut Random, draft: &mut Draft) {
    ensure_rule(random, draft);
    let rule = random.below(draft.rules.len());
    let arity = usize::from(draft.rules[rule][0]);
    let rows = usize::from(draft.rules[rule][1]);
    if rows == 0 {
        return;
    }
    let any = random.below(rows);
    let row = random.pick(&[0, rows - 1, any]);
    let place = random.below(arity);
    let size = u16::from(draft.sizes[usize::from(draft.rules[rule][2 + place])]);
    draft.rules[rule][2 + arity + row * arity + place] =
        random.pick(&[size - 1, size, size + 1, 16, 255, 256, 65_535]);
}

/// A short list of small numbers, whatever they mean.
fn junk(random: &mut Random, draft: &mut Draft) {
    let count = random.between(0, 14);
    let rule = (0..count).map(|_| random.pick(&[0, 0, 1, 1, 2, 2, 3, 4, 6, 7, 16])).collect();
    draft.rules = vec![rule];
}

/// Any one number of a good list changed.
fn one_number(random: &mut Random, draft: &mut Draft) {
    ensure_rule(random, draft);
    let rule = random.below(draft.rules.len());
    let place = random.below(draft.rules[rule].len());
    let now = draft.rules[rule][place];
    draft.rules[rule][place] =
        random.pick(&[now.wrapping_add(1), now.wrapping_sub(1), 0, 1, 2, 3, 7, 16, 256 + (now & 255)]);
}

fn ensure_rule(random: &mut Random, draft: &mut Draft) {
    while draft.rules.is_empty() {
        let other = catalogues::small(random);
        if !other.rules.is_empty() {
            *draft = other;
        }
    }
}

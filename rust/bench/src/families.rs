//! Catalogues to measure on, each the same in every run.

use crate::Catalogue;

pub struct Family {
    pub name: String,
    pub catalogue: Catalogue,
}

impl Family {
    pub fn numbers(&self) -> usize {
        self.catalogue.rule_list().len()
    }
}

/// A small generator (xorshift), so that a seed names a catalogue.
struct Dice(u64);

impl Dice {
    fn below(&mut self, n: usize) -> usize {
        self.0 ^= self.0 << 13;
        self.0 ^= self.0 >> 7;
        self.0 ^= self.0 << 17;
        (self.0 >> 33) as usize % n
    }
}

pub fn trolley() -> Family {
    let a = [2, 4, 0, 1, 0, 1, 1, 0, 1, 2, 2, 1];
    let b = [2, 4, 1, 2, 0, 0, 1, 1, 2, 0, 2, 1];
    Family {
        name: "trolley".to_string(),
        catalogue: Catalogue::from_numbers(&[3, 3, 2], &[a, b].concat()),
    }
}

/// A rule of the given arity on different features drawn at random, with rows drawn at random.
fn drawn_rule(dice: &mut Dice, sizes: &[u8], arity: usize, rows: usize) -> Vec<u16> {
    let mut features: Vec<usize> = Vec::new();
    while features.len() < arity {
        let feature = dice.below(sizes.len());
        if !features.contains(&feature) {
            features.push(feature);
        }
    }
    rule_on(dice, sizes, &features, rows)
}

fn rule_on(dice: &mut Dice, sizes: &[u8], features: &[usize], rows: usize) -> Vec<u16> {
    let mut rule = vec![features.len() as u16, rows as u16];
    rule.extend(features.iter().map(|&feature| feature as u16));
    for _ in 0..rows {
        rule.extend(
            features
                .iter()
                .map(|&feature| dice.below(sizes[feature].into()) as u16),
        );
    }
    rule
}

/// Features of one size and rules of arity 2 to 4. Of a rule's possible rows some `percent` in a hundred are there, as
/// far as the list has room for them: the name gives the percentage that was asked for.
pub fn drawn(features: usize, size: u8, rules: usize, percent: usize, seed: u64) -> Family {
    let mut dice = Dice(0x9e37_79b9_7f4a_7c15 ^ (seed << 20));
    let sizes = vec![size; features];
    let room = 8192 / rules;
    let mut list = Vec::new();
    for n in 0..rules {
        let arity = 2 + n % 3;
        let possible = usize::from(size).pow(arity as u32);
        let rows = (possible * percent / 100).min((room - 2 - arity) / arity);
        list.extend(drawn_rule(&mut dice, &sizes, arity, rows));
    }
    Family {
        name: format!(
            "{} features of {}, {} rules, {} %",
            features, size, rules, percent
        ),
        catalogue: Catalogue::from_numbers(&sizes, &list),
    }
}

/// One rule of six features with so many rows, tested at the last of twelve features of four options.
pub fn one_rule(rows: usize) -> Family {
    let sizes = vec![4u8; 12];
    let rules = rule_on(&mut Dice(77), &sizes, &[11, 9, 7, 5, 3, 1], rows);
    Family {
        name: format!("one rule of {} rows ({} numbers)", rows, rules.len()),
        catalogue: Catalogue::from_numbers(&sizes, &rules),
    }
}

/// So many rules of two features and 62 rows; 64 of them are 8,192 numbers.
pub fn pairs_of_features(rules: usize) -> Family {
    let sizes = vec![16u8; 16];
    let mut dice = Dice(4711);
    let list: Vec<u16> = (0..rules)
        .flat_map(|_| drawn_rule(&mut dice, &sizes, 2, 62))
        .collect();
    Family {
        name: format!("{} rules of 62 rows ({} numbers)", rules, list.len()),
        catalogue: Catalogue::from_numbers(&sizes, &list),
    }
}

/// Five features of a frame and eleven others; for each of these a rule on the frame and it. A rule's rows are sixteen
/// builds of the frame, which agree in their first three options, each with five options of the other feature: the rows
/// begin alike. With each rule's features and rows written backwards they end alike, and mean the same.
pub fn frames(backwards: bool) -> Family {
    let sizes = [2, 2, 2, 4, 4, 8, 8, 8, 8, 8, 8, 8, 8, 8, 8, 8];
    let mut dice = Dice(1009);
    let mut list = Vec::new();
    for feature in 5..16 {
        let mut lines = vec![[0, 1, 2, 3, 4, feature]]; // the rule's features, then its rows
        for frame in 0..16 {
            let mut options = vec![0, 1, 2, 3, 4, 5, 6, 7];
            for _ in 0..3 {
                options.remove(dice.below(options.len()));
            }
            lines.extend(options.iter().map(|&o| [0, 0, 0, frame / 4, frame % 4, o]));
        }
        if backwards {
            lines.iter_mut().for_each(|line| line.reverse());
        }
        list.extend([6, lines.len() as u16 - 1]);
        list.extend(lines.concat());
    }
    Family {
        name: format!(
            "11 rules of 80 rows that {} alike ({} numbers)",
            if backwards { "end" } else { "begin" },
            list.len()
        ),
        catalogue: Catalogue::from_numbers(&sizes, &list),
    }
}

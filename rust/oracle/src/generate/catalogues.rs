//! Catalogues that are accepted: sizes and rules at random.

use super::random::Random;

/// A catalogue as it will be handed over, rule by rule; damage may leave anything in it.
#[derive(Clone, Debug)]
pub struct Draft {
    pub sizes: Vec<u8>,
    pub rules: Vec<Vec<u16>>,
}

impl Draft {
    pub fn list(&self) -> Vec<u16> {
        self.rules.concat()
    }
}

/// Mostly 1 to 6 features of sizes 1 to 4 with 0 to 6 rules, so that searches end.
pub fn small(random: &mut Random) -> Draft {
    let most = random.pick(&[3, 6]);
    let features = random.between(1, most);
    let largest = random.between(1, 4);
    let sizes = (0..features).map(|_| random.between(1, largest) as u8).collect();
    let count = random.between(0, 6);
    with_rules(random, sizes, count)
}

/// 10 to 16 features of sizes up to 16.
pub fn large(random: &mut Random) -> Draft {
    let features = if random.once_in(3) { 16 } else { random.between(10, 16) };
    let largest = random.pick(&[2, 3, 4, 8, 16]);
    let sizes = (0..features)
        .map(|_| if random.once_in(3) { largest as u8 } else { random.between(1, largest) as u8 })
        .collect();
    let count = random.between(0, 30);
    with_rules(random, sizes, count)
}

/// Up to 64 rules on few features, most of them never broken, so that also one with a high number is
/// the first that breaks; several are tested at the same feature.
pub fn many_rules(random: &mut Random) -> Draft {
    let features = random.between(1, 4);
    let sizes: Vec<u8> = (0..features).map(|_| random.between(1, 4) as u8).collect();
    let count = random.pick(&[2, 3, 8, 11, 20, 40, 63, 64]);
    let tight = random.pick(&[2, 4, 10]);
    let mut draft = with_rules(random, sizes, count);
    for rule in &mut draft.rules {
        if !random.once_in(tight) {
            *rule = never_broken(random, &draft.sizes);
        }
    }
    draft
}

/// A rule of one feature that has all its options as rows.
pub fn never_broken(random: &mut Random, sizes: &[u8]) -> Vec<u16> {
    let feature = random.below(sizes.len());
    let size = u16::from(sizes[feature]);
    let mut rule = vec![1, size, feature as u16];
    rule.extend(0..size);
    rule
}

/// Any of these, and single features of size 1 and 16.
pub fn any(random: &mut Random) -> Draft {
    match random.below(13) {
        0 => large(random),
        1 => many_rules(random),
        2 => {
            let sizes = vec![random.pick(&[1, 2, 15, 16]); random.between(1, 2)];
            let count = random.between(0, 2);
            with_rules(random, sizes, count)
        }
        _ => small(random),
    }
}

fn with_rules(random: &mut Random, sizes: Vec<u8>, count: usize) -> Draft {
    // A planted build that most rules allow, or few catalogues would have a build at all.
    let planted: Vec<u16> = sizes.iter().map(|&size| random.below(size.into()) as u16).collect();
    let keep = !random.once_in(5);
    let mut rules: Vec<Vec<u16>> = Vec::new();
    let mut numbers = 0;
    for _ in 0..count {
        let planted = if keep { Some(&planted[..]) } else { None };
        let rule = rule(random, &sizes, planted);
        if numbers + rule.len() <= 8192 {
            numbers += rule.len();
            rules.push(rule);
        }
    }
    Draft { sizes, rules }
}

/// Features of a rule, different and in any order: "highest-numbered" need not be last.
pub fn scope(random: &mut Random, features: usize, arity: usize) -> Vec<u16> {
    let mut all: Vec<u16> = (0..features as u16).collect();
    random.shuffle(&mut all);
    all.truncate(arity);
    all
}

fn rule(random: &mut Random, sizes: &[u8], planted: Option<&[u16]>) -> Vec<u16> {
    let most = sizes.len().min(6);
    let arity = if random.once_in(3) { random.between(1, most) } else { most.min(random.between(1, 3)) };
    let scope = scope(random, sizes.len(), arity);
    let size = |feature: u16| usize::from(sizes[usize::from(feature)]);
    let product: usize = scope.iter().map(|&feature| size(feature)).product();
    let mut rows: Vec<Vec<u16>> = Vec::new();
    if product <= 300 && !random.once_in(4) {
        // Each possible row with some likelihood.
        let tenths = random.between(3, 9);
        for number in 0..product {
            if random.below(10) < tenths {
                rows.push(possible_row(sizes, &scope, number));
            }
        }
    } else {
        for _ in 0..random.between(0, 40) {
            rows.push(scope.iter().map(|&feature| random.below(size(feature)) as u16).collect());
        }
    }
    if let Some(planted) = planted {
        if !random.once_in(20) {
            rows.push(scope.iter().map(|&feature| planted[usize::from(feature)]).collect());
        }
    } else if random.once_in(8) {
        // "m may be 0; then no build exists."
        rows.clear();
    }
    if !rows.is_empty() && random.once_in(4) {
        // "Repeated rows mean nothing extra."
        let again = rows[random.below(rows.len())].clone();
        rows.push(again);
    }
    random.shuffle(&mut rows);
    let mut numbers = vec![arity as u16, rows.len() as u16];
    numbers.extend(scope);
    numbers.extend(rows.concat());
    numbers
}

/// The possible rows of a scope, numbered.
fn possible_row(sizes: &[u8], scope: &[u16], number: usize) -> Vec<u16> {
    let mut rest = number;
    let mut row = Vec::new();
    for &feature in scope {
        let size = usize::from(sizes[usize::from(feature)]);
        row.push((rest % size) as u16);
        rest /= size;
    }
    row
}

//! The catalogue in numbers: its faults 10 to 18 and the rules that a list means.

pub const FEATURES: usize = 16;

/// One rule: "its arity k, its row count m, k different feature numbers, then m rows of k options".
#[derive(Clone, Debug, PartialEq, Eq)]
pub struct Rule {
    pub features: Vec<usize>,
    pub rows: Vec<u16>,
}

impl Rule {
    /// "whose highest-numbered feature": the maximum, wherever the rule names it.
    pub fn highest(&self) -> usize {
        self.features.iter().copied().max().unwrap_or(0)
    }

    /// "A build satisfies a rule when its options at the rule's features, in the rule's order, are
    /// one of the rows."
    pub fn satisfied_by(&self, build: &[u8; FEATURES]) -> bool {
        self.rows.chunks(self.features.len()).any(|row| {
            row.iter()
                .zip(&self.features)
                .all(|(&option, &feature)| option == u16::from(build[feature]))
        })
    }
}

/// An accepted catalogue.
#[derive(Clone, Debug, PartialEq, Eq)]
pub struct Catalogue {
    pub sizes: Vec<u8>,
    pub rules: Vec<Rule>,
    /// For each feature the numbers of the rules whose highest feature it is.
    pub ending_at: Vec<Vec<usize>>,
}

impl Catalogue {
    pub fn features(&self) -> usize {
        self.sizes.len()
    }
}

/// Where a fault was met; features, rules and the rows of a rule are counted from 0.
#[derive(Clone, Copy, Debug, PartialEq, Eq)]
pub enum Place {
    Nowhere,
    Feature(usize),
    Rule(usize),
    Row(usize, usize),
}

#[derive(Clone, Copy, Debug, PartialEq, Eq)]
pub struct Fault {
    pub number: u16,
    pub place: Place,
}

impl Fault {
    fn at(number: u16, place: Place) -> Fault {
        Fault { number, place }
    }
}

/// The fault that the sizes alone have: "10 is met before the first size".
pub fn fault_of_sizes(sizes: &[u8]) -> Option<Fault> {
    if sizes.is_empty() || sizes.len() > FEATURES {
        return Some(Fault::at(10, Place::Nowhere));
    }
    let feature = sizes.iter().position(|&size| size == 0 || size > 16)?;
    Some(Fault::at(11, Place::Feature(feature)))
}

/// Reads sizes and rule list "from the front": the rules before the fault met first, and that fault.
pub fn rules_and_fault(sizes: &[u8], list: &[u16]) -> (Vec<Rule>, Option<Fault>) {
    let mut rules = Vec::new();
    if let Some(fault) = fault_of_sizes(sizes) {
        return (rules, Some(fault));
    }
    // "12 before the first number of the rule list"
    if list.len() > 8192 {
        return (rules, Some(Fault::at(12, Place::Nowhere)));
    }
    let mut rest = list;
    while !rest.is_empty() {
        match read_rule(sizes, rest, rules.len()) {
            Err(fault) => return (rules, Some(fault)),
            Ok((rule, after)) => {
                rules.push(rule);
                rest = after;
            }
        }
    }
    (rules, None)
}

/// The catalogue, or the number of its fault.
pub fn read(sizes: &[u8], list: &[u16]) -> Result<Catalogue, u16> {
    let (rules, fault) = rules_and_fault(sizes, list);
    if let Some(fault) = fault {
        return Err(fault.number);
    }
    let ending_at = (0..sizes.len())
        .map(|feature| {
            (0..rules.len())
                .filter(|&number| rules[number].highest() == feature)
                .collect()
        })
        .collect();
    Ok(Catalogue { sizes: sizes.to_vec(), rules, ending_at })
}

/// "Within one rule the order is 13, 14 for the header, 15, 14 for the features, then each feature
/// in turn (16 before 17), 14 for the rows, 18."
fn read_rule<'a>(sizes: &[u8], rest: &'a [u16], number: usize) -> Result<(Rule, &'a [u16]), Fault> {
    let fault = |what: u16| Err(Fault::at(what, Place::Rule(number)));
    if number == 64 {
        return Err(Fault::at(13, Place::Nowhere));
    }
    if rest.len() < 2 {
        return fault(14);
    }
    let arity = usize::from(rest[0]);
    let count = usize::from(rest[1]);
    let rest = &rest[2..];
    if arity == 0 || arity > 6 {
        return fault(15);
    }
    if rest.len() < arity {
        return fault(14);
    }
    let features = match read_scope(sizes, &rest[..arity]) {
        Err(what) => return fault(what),
        Ok(features) => features,
    };
    let rest = &rest[arity..];
    // At most 6 × 65,535, so nothing wraps here.
    let needed = arity * count;
    if rest.len() < needed {
        return fault(14);
    }
    let rows = &rest[..needed];
    let within = |row: &[u16]| row.iter().zip(&features).all(|(&option, &f)| option < u16::from(sizes[f]));
    if let Some(row) = rows.chunks(arity).position(|row| !within(row)) {
        return Err(Fault::at(18, Place::Row(number, row)));
    }
    Ok((Rule { features, rows: rows.to_vec() }, &rest[needed..]))
}

/// "each feature in turn (16 before 17)"
fn read_scope(sizes: &[u8], named: &[u16]) -> Result<Vec<usize>, u16> {
    let mut features: Vec<usize> = Vec::new();
    for &number in named {
        let feature = usize::from(number);
        if feature >= sizes.len() {
            return Err(16);
        }
        if features.contains(&feature) {
            return Err(17);
        }
        features.push(feature);
    }
    Ok(features)
}

//! Builds by brute force, and what a ready seat must show by demand 2, with what
//! add to it. Nothing here knows of the written search, but for the last functions, which count K and
//! find the rule last run into by plain recursion.

use crate::catalogue::{Catalogue, Rule, FEATURES};
use crate::record::{Record, EXAMPLE, NONE, SHARE};

/// Above this many instantiations brute force is left out.
pub const SMALL_ENOUGH: u64 = 200_000;

/// All builds in dictionary order (255 for missing features); None where there are too many
/// instantiations to test.
pub fn builds(catalogue: &Catalogue) -> Option<Vec<[u8; FEATURES]>> {
    let mut product: u64 = 1;
    for &size in &catalogue.sizes {
        product *= u64::from(size);
        if product > SMALL_ENOUGH {
            return None;
        }
    }
    let mut found = Vec::new();
    let mut build = [NONE; FEATURES];
    build[..catalogue.features()].copy_from_slice(&vec![0; catalogue.features()]);
    loop {
        if catalogue.rules.iter().all(|rule| rule.satisfied_by(&build)) {
            found.push(build);
        }
        // The next instantiation in dictionary order: count up from the last feature.
        let mut feature = catalogue.features();
        loop {
            if feature == 0 {
                return Some(found);
            }
            feature -= 1;
            build[feature] += 1;
            if build[feature] < catalogue.sizes[feature] {
                break;
            }
            build[feature] = 0;
        }
    }
}

/// Masks and share of a ready seat as demand 2 has them: "an option is shown as left exactly when
/// some complete build satisfies every rule and every choice now in force and contains that
/// option … Beside each such option stands the first such build in dictionary order."
pub fn shown(
    catalogue: &Catalogue,
    builds: &[[u8; FEATURES]],
    choices: &[u8; FEATURES],
) -> ([u16; FEATURES], Vec<u8>) {
    let mut masks = [0u16; FEATURES];
    let mut share = vec![NONE; SHARE];
    for build in builds {
        let in_force = (0..FEATURES).all(|f| choices[f] == NONE || choices[f] == build[f]);
        if !in_force {
            continue;
        }
        for feature in 0..catalogue.features() {
            let option = usize::from(build[feature]);
            if masks[feature] & (1 << option) == 0 {
                masks[feature] |= 1 << option;
                let place = feature * 256 + option * EXAMPLE;
                share[place..place + EXAMPLE].copy_from_slice(build);
            }
        }
    }
    (masks, share)
}

/// The alternatives of a ready seat as R-6 has them: "For a feature with a choice … the options
/// contained in some build that satisfies all rules and all the other choices"; "empty where no
/// choice is in force".
pub fn alternatives(builds: &[[u8; FEATURES]], choices: &[u8; FEATURES]) -> [u16; FEATURES] {
    let mut masks = [0u16; FEATURES];
    for feature in (0..FEATURES).filter(|&feature| choices[feature] != NONE) {
        for build in builds {
            let mut others = (0..FEATURES).filter(|&other| other != feature);
            if others.all(|f| choices[f] == NONE || choices[f] == build[f]) {
                masks[feature] |= 1 << build[feature];
            }
        }
    }
    masks
}

/// What is wrong with a ready seat of a run, if anything is.
pub fn wrong_when_ready(
    catalogue: &Catalogue,
    builds: Option<&[[u8; FEATURES]]>,
    record: &Record,
    share: &[u8],
) -> Option<String> {
    if let Some(wrong) = wrong_by_choices(catalogue, record) {
        return Some(wrong);
    }
    let builds = builds?;
    // "If the catalogue has a build, every ready seat shows at least one option for each feature;
    // if it has none, no option anywhere."
    for feature in 0..catalogue.features() {
        if (record.masks[feature] == 0) != builds.is_empty() {
            return Some(format!(
                "the catalogue has {} builds and feature {} shows mask {}",
                builds.len(),
                feature,
                record.masks[feature]
            ));
        }
    }
    let (masks, examples) = shown(catalogue, builds, &record.choices);
    if masks != record.masks {
        return Some(format!("masks {:?}, by brute force {:?}", record.masks, masks));
    }
    let replacing = alternatives(builds, &record.choices);
    if replacing != record.alternatives {
        return Some(format!("alternatives {:?}, by brute force {:?}", record.alternatives, replacing));
    }
    let place = (0..SHARE).find(|&place| share[place] != examples[place])?;
    Some(format!(
        "byte {} of the share is {}, by brute force {}",
        place, share[place], examples[place]
    ))
}

/// What needs no builds to be seen.
fn wrong_by_choices(catalogue: &Catalogue, record: &Record) -> Option<String> {
    // "255 for none … when ready"
    if record.rule != NONE {
        return Some(format!("its rule is {}", record.rule));
    }
    for feature in 0..catalogue.features() {
        let choice = record.choices[feature];
        // "in a ready seat a feature that has a choice shows that option alone as left"
        if choice != NONE && record.masks[feature] != 1 << choice {
            return Some(format!(
                "feature {} has choice {} and shows mask {}",
                feature, choice, record.masks[feature]
            ));
        }
        // "empty where no choice is in force", and "the option in force always counts"
        let alternatives = record.alternatives[feature];
        let fine = if choice == NONE { alternatives == 0 } else { alternatives & (1 << choice) != 0 };
        if !fine {
            return Some(format!(
                "feature {} has choice {} and alternatives {}",
                feature, choice, alternatives
            ));
        }
    }
    None
}

/// What the recursion has done so far, and how many steps it may take.
struct Walk {
    steps: u64,
    most: u64,
    /// The rule last run into.
    rule: u8,
}

/// K, pair by pair: how many steps the written search takes for each pair (i, a), with the choice
/// in force at i, if there is one, set aside.
pub fn steps_by_pair(catalogue: &Catalogue, choices: &[u8; FEATURES]) -> Vec<u64> {
    let mut steps = Vec::new();
    for fixed in fixed_by_pair(catalogue, choices) {
        let mut walk = Walk { steps: 0, most: u64::MAX, rule: NONE };
        place_from(catalogue, &fixed, 0, &mut [NONE; FEATURES], &mut walk);
        steps.push(walk.steps);
    }
    steps
}

/// "the last rule broken in this job" after so many of its steps, fewer than K.
pub fn rule_after(catalogue: &Catalogue, choices: &[u8; FEATURES], steps: u64) -> u8 {
    let mut walk = Walk { steps: 0, most: steps, rule: NONE };
    for fixed in fixed_by_pair(catalogue, choices) {
        if walk.steps < walk.most {
            place_from(catalogue, &fixed, 0, &mut [NONE; FEATURES], &mut walk);
        }
    }
    walk.rule
}

/// For each pair (i, a) in its order the options that are fixed: the choices, and a at i.
fn fixed_by_pair(catalogue: &Catalogue, choices: &[u8; FEATURES]) -> Vec<[u8; FEATURES]> {
    let mut pairs = Vec::new();
    for i in 0..catalogue.features() {
        for a in 0..catalogue.sizes[i] {
            let mut fixed = *choices;
            fixed[i] = a;
            pairs.push(fixed);
        }
    }
    pairs
}

/// Places options from `depth` on, one step counted for each; true once a build is found or no step
/// is left.
fn place_from(
    catalogue: &Catalogue,
    fixed: &[u8; FEATURES],
    depth: usize,
    build: &mut [u8; FEATURES],
    walk: &mut Walk,
) -> bool {
    if depth == catalogue.features() || walk.steps == walk.most {
        return true;
    }
    for option in 0..catalogue.sizes[depth] {
        if fixed[depth] != NONE && fixed[depth] != option {
            continue;
        }
        build[depth] = option;
        walk.steps += 1;
        let broken = |rule: &Rule| rule.highest() == depth && !rule.satisfied_by(build);
        match catalogue.rules.iter().position(broken) {
            Some(rule) => walk.rule = rule as u8,
            None if place_from(catalogue, fixed, depth + 1, build, walk) => return true,
            None => {}
        }
        if walk.steps == walk.most {
            return true;
        }
    }
    build[depth] = NONE;
    false
}

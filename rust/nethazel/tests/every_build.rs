//! Small catalogues by chance, each compared with all its builds, one after another, and with the rules that its search
//! runs into, turn by turn.

mod common;

use common::finish;
use nethazel::{Catalogue, Desk, Refusal, State};

/// Numbers by chance, the same at every run (Marsaglia's xorshift).
struct Chance(u64);

impl Chance {
    fn below(&mut self, bound: usize) -> usize {
        self.0 ^= self.0 << 13;
        self.0 ^= self.0 >> 7;
        self.0 ^= self.0 << 17;
        (self.0 >> 20) as usize % bound
    }
}

struct Rule {
    features: Vec<usize>,
    rows: Vec<Vec<usize>>,
}

fn any_rule(chance: &mut Chance, sizes: &[usize]) -> Rule {
    let mut features: Vec<usize> = (0..sizes.len()).collect();
    while features.len() > 3 || features.len() > 1 && chance.below(3) == 0 {
        features.swap_remove(chance.below(features.len()));
    }
    let mut rows = vec![vec![]];
    for &feature in &features {
        let options = 0..sizes[feature];
        rows = rows
            .iter()
            .flat_map(|row| {
                options
                    .clone()
                    .map(move |option| [&row[..], &[option]].concat())
            })
            .collect();
    }
    rows.retain(|_| chance.below(3) > 0);
    Rule { features, rows }
}

impl Rule {
    fn allows(&self, placed: &[usize]) -> bool {
        let at = |feature: &usize| placed[*feature];
        self.rows.contains(&self.features.iter().map(at).collect())
    }
}

type Choice = (usize, usize); // a feature and its option
type Build = Vec<usize>;

/// All builds in dictionary order that satisfy every rule.
fn builds(sizes: &[usize], rules: &[Rule]) -> Vec<Build> {
    let mut builds = vec![vec![]];
    for &size in sizes {
        builds = builds
            .iter()
            .flat_map(|build| (0..size).map(move |option| [&build[..], &[option]].concat()))
            .collect();
    }
    builds.retain(|build: &Build| rules.iter().all(|rule| rule.allows(build)));
    builds
}

/// The first build that has the option at the feature, and all the choices.
fn first_with<'a>(
    builds: &'a [Build],
    choices: &[Choice],
    feature: usize,
    option: usize,
) -> Option<&'a Build> {
    let mut builds = builds.iter();
    builds.find(|build| build[feature] == option && choices.iter().all(|&(at, a)| build[at] == a))
}

/// Seat 5, ready under the choices, shows each option exactly when a build has it with every choice, the first such build
/// as example.
fn compare_options(desk: &Desk, builds: &[Build], choices: &[Choice]) -> Result<(), Refusal> {
    for feature in 0..desk.catalogue().features() {
        let left = desk.options(5, feature)?;
        assert_eq!(left.iter().count(), left.count());
        for option in 0..desk.catalogue().size(feature).unwrap() {
            let first = first_with(builds, choices, feature, option);
            assert_eq!(left.has(option), first.is_some());
            let example = desk.example(5, feature, option);
            match first {
                Some(build) => assert!(example?.options().eq(build.iter().copied())),
                None => assert_eq!(example, Err(Refusal::OptionNotLeft)),
            }
        }
    }
    Ok(())
}

fn without(choices: &[Choice], feature: usize) -> Vec<Choice> {
    let mut others = choices.to_vec();
    others.retain(|&(at, _)| at != feature);
    others
}

/// As what could replace a choice it shows an option exactly when a build has it with every other choice.
fn compare_alternatives(desk: &Desk, builds: &[Build], choices: &[Choice]) -> Result<(), Refusal> {
    for feature in 0..desk.catalogue().features() {
        let others = without(choices, feature);
        if others.len() == choices.len() {
            let refused = desk.alternatives(5, feature);
            assert_eq!(refused, Err(Refusal::FeatureHasNoChoice));
            continue;
        }
        let alternatives = desk.alternatives(5, feature)?;
        assert_eq!(alternatives.iter().count(), alternatives.count());
        for option in 0..desk.catalogue().size(feature).unwrap() {
            let first = first_with(builds, &others, feature, option);
            assert_eq!(alternatives.has(option), first.is_some());
        }
    }
    Ok(())
}

fn compare(desk: &Desk, builds: &[Build], choices: &[Choice]) -> Result<(), Refusal> {
    compare_options(desk, builds, choices)?;
    compare_alternatives(desk, builds, choices)
}

/// Once a choice is dropped, the options left of its feature are those that could have replaced it.
fn compare_relaxed(desk: &Desk, builds: &[Build], choices: &[Choice]) -> Result<(), Refusal> {
    for &(feature, _) in choices {
        let mut relaxed = desk.clone();
        relaxed.relax(5, feature)?;
        finish(&mut relaxed)?;
        assert_eq!(relaxed.options(5, feature)?, desk.alternatives(5, feature)?);
        compare(&relaxed, builds, &without(choices, feature))?;
    }
    Ok(())
}

/// Sizes and rules, and the catalogue that has them.
fn any_catalogue(chance: &mut Chance) -> (Vec<usize>, Vec<Rule>, Catalogue) {
    let sizes: Vec<usize> = (0..=chance.below(5)).map(|_| 1 + chance.below(4)).collect();
    let rules: Vec<Rule> = (0..chance.below(5))
        .map(|_| any_rule(chance, &sizes))
        .collect();
    let catalogue = rules
        .iter()
        .fold(Catalogue::new(&sizes), |catalogue, rule| {
            let with_rule = catalogue.rule_of_rows(&rule.features, &rule.rows);
            with_rule.expect("even rows")
        });
    (sizes, rules, catalogue)
}

/// Of the rules that are tested where the last option is placed, the lowest-numbered that what is placed breaks.
fn first_broken(rules: &[Rule], placed: &[usize]) -> Option<usize> {
    let depth = placed.len() - 1;
    let tested = |rule: &Rule| rule.features.iter().max() == Some(&depth);
    rules
        .iter()
        .position(|rule| tested(rule) && !rule.allows(placed))
}

/// Turn by turn seat 5 names the rule that the option tried has broken, else the one that it named before; ready, none.
fn follow_rules(desk: &mut Desk, rules: &[Rule]) -> Result<(), Refusal> {
    let mut named = None;
    while let State::AtWork(place) = desk.seat(5)?.state() {
        assert_eq!(desk.ran_into(5)?, named);
        let trial = desk.seat(5)?.trial().iter().copied().map(usize::from);
        let placed: Vec<usize> = trial.take(place.depth).chain([place.next]).collect();
        named = first_broken(rules, &placed).or(named);
        desk.turns(1)?;
    }
    assert_eq!(desk.ran_into(5)?, None);
    Ok(())
}

#[test]
fn the_rules_run_into_are_those_that_the_options_tried_break() -> Result<(), Refusal> {
    let mut chance = Chance(1105);
    for _ in 0..40 {
        let (_, rules, catalogue) = any_catalogue(&mut chance);
        let mut desk = Desk::open(&catalogue)?;
        desk.enter(5)?;
        follow_rules(&mut desk, &rules)?;
        if let Some(option) = desk.options(5, 0)?.iter().last() {
            desk.choose(5, 0, option)?;
            follow_rules(&mut desk, &rules)?;
        }
    }
    Ok(())
}

#[test]
fn options_examples_and_alternatives_are_those_of_all_builds() -> Result<(), Refusal> {
    let mut chance = Chance(4711);
    for _ in 0..200 {
        let (sizes, rules, catalogue) = any_catalogue(&mut chance);
        let mut desk = Desk::open(&catalogue)?;
        desk.enter(5)?;
        finish(&mut desk)?;
        let builds = builds(&sizes, &rules);
        let mut choices = Vec::new();
        compare(&desk, &builds, &choices)?;
        let mut features: Vec<usize> = (0..sizes.len()).collect();
        while !features.is_empty() && choices.len() < 3 {
            let feature = features.swap_remove(chance.below(features.len()));
            if let Some(option) = desk.options(5, feature)?.iter().last() {
                desk.choose(5, feature, option)?;
                finish(&mut desk)?;
                choices.push((feature, option));
                compare(&desk, &builds, &choices)?;
            }
        }
        compare_relaxed(&desk, &builds, &choices)?;
    }
    Ok(())
}

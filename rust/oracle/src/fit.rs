//! Number 20, clause by clause: "the desk doesn't fit the catalogue".

use crate::catalogue::{Catalogue, FEATURES};
use crate::record::{Record, State, NONE};

/// The clauses of number 20 in the paper's order, R-6's and R-1's after them. Only the count of each tells
/// them apart.
#[derive(Clone, Copy, Debug, PartialEq, Eq)]
pub enum Clause {
    Next,
    Choice,
    ChoiceOfMissing,
    Mask,
    MaskOfMissing,
    PlaceFeature,
    PlaceDepth,
    PlaceOption,
    PlaceNext,
    TrialBefore,
    TrialFromDepth,
    TrialNotAtWork,
    ClosedChoice,
    ClosedMask,
    Alternative,
    AlternativeWithoutChoice,
    Rule,
    RuleReady,
    RuleClosed,
}

pub const CLAUSES: [(Clause, &str); 19] = [
    (Clause::Next, "next above 7"),
    (Clause::Choice, "a choice that is no option"),
    (Clause::ChoiceOfMissing, "a choice for a missing feature"),
    (Clause::Mask, "a mask bit not below the size"),
    (Clause::MaskOfMissing, "a mask bit for a missing feature"),
    (Clause::PlaceFeature, "i not a feature"),
    (Clause::PlaceDepth, "j not a feature"),
    (Clause::PlaceOption, "a not below the size of i"),
    (Clause::PlaceNext, "v not below the size of j"),
    (Clause::TrialBefore, "a trial entry before j not below the size"),
    (Clause::TrialFromDepth, "a trial entry from j on that isn't 255"),
    (Clause::TrialNotAtWork, "a trial entry of a seat not at work"),
    (Clause::ClosedChoice, "a closed seat with a choice"),
    (Clause::ClosedMask, "a closed seat with a mask bit"),
    (Clause::Alternative, "an alternative not below the size"),
    (Clause::AlternativeWithoutChoice, "an alternative at a feature with no choice"),
    (Clause::Rule, "a rule not below the rule count, at work"),
    (Clause::RuleReady, "a ready seat with a rule"),
    (Clause::RuleClosed, "a closed seat with a rule"),
];

/// The first clause met, if any, by the desk's next and its seats; all eight are looked at.
pub fn misfit(next: u8, seats: &[Record], catalogue: &Catalogue) -> Option<Clause> {
    if next > 7 {
        return Some(Clause::Next);
    }
    seats.iter().find_map(|record| misfit_of_seat(record, catalogue))
}

fn misfit_of_seat(record: &Record, catalogue: &Catalogue) -> Option<Clause> {
    misfit_of_features(record, catalogue)
        .or_else(|| misfit_of_place(record, catalogue))
        .or_else(|| misfit_of_closed(record))
        .or_else(|| misfit_of_alternatives(record, catalogue))
        .or_else(|| misfit_of_rule(record, catalogue))
}

fn misfit_of_features(record: &Record, catalogue: &Catalogue) -> Option<Clause> {
    for feature in 0..FEATURES {
        let (choice, mask) = (record.choices[feature], record.masks[feature]);
        match catalogue.sizes.get(feature) {
            Some(&size) => {
                if choice != NONE && choice >= size {
                    return Some(Clause::Choice);
                }
                // In 32 bits: a shift by 16 leaves nothing.
                if u32::from(mask) >> size != 0 {
                    return Some(Clause::Mask);
                }
            }
            None => {
                if choice != NONE {
                    return Some(Clause::ChoiceOfMissing);
                }
                if mask != 0 {
                    return Some(Clause::MaskOfMissing);
                }
            }
        }
    }
    None
}

fn misfit_of_place(record: &Record, catalogue: &Catalogue) -> Option<Clause> {
    let size = |feature: usize| catalogue.sizes[feature];
    let (i, a, j, v) = match record.state {
        State::AtWork { i, a, j, v } => (usize::from(i), a, usize::from(j), v),
        State::Closed | State::Ready => {
            let other = record.trial.iter().any(|&entry| entry != NONE);
            return if other { Some(Clause::TrialNotAtWork) } else { None };
        }
    };
    if i >= catalogue.features() {
        return Some(Clause::PlaceFeature);
    }
    if j >= catalogue.features() {
        return Some(Clause::PlaceDepth);
    }
    if a >= size(i) {
        return Some(Clause::PlaceOption);
    }
    if v >= size(j) {
        return Some(Clause::PlaceNext);
    }
    if (0..j).any(|entry| record.trial[entry] >= size(entry)) {
        return Some(Clause::TrialBefore);
    }
    // "any other trial entry that isn't 255": trial[j] itself and all after it.
    if (j..FEATURES).any(|entry| record.trial[entry] != NONE) {
        return Some(Clause::TrialFromDepth);
    }
    None
}

fn misfit_of_closed(record: &Record) -> Option<Clause> {
    if record.state != State::Closed {
        return None;
    }
    if record.choices.iter().any(|&choice| choice != NONE) {
        return Some(Clause::ClosedChoice);
    }
    if record.masks.iter().any(|&mask| mask != 0) {
        return Some(Clause::ClosedMask);
    }
    None
}

/// "number 20 also for such a bit not below the size or at a feature with no choice". A missing
/// feature has none by now, nor has a closed seat; that the option in force has its bit is not asked.
fn misfit_of_alternatives(record: &Record, catalogue: &Catalogue) -> Option<Clause> {
    for feature in 0..FEATURES {
        let alternatives = record.alternatives[feature];
        if record.choices[feature] == NONE {
            if alternatives != 0 {
                return Some(Clause::AlternativeWithoutChoice);
            }
        } else if u32::from(alternatives) >> catalogue.sizes[feature] != 0 {
            return Some(Clause::Alternative);
        }
    }
    None
}

/// R-1: "number 20 also when it is neither 255 nor below the rule count, or isn't 255 in a seat that
/// is not at work".
fn misfit_of_rule(record: &Record, catalogue: &Catalogue) -> Option<Clause> {
    if record.rule == NONE {
        return None;
    }
    match record.state {
        State::Closed => Some(Clause::RuleClosed),
        State::Ready => Some(Clause::RuleReady),
        State::AtWork { .. } if usize::from(record.rule) >= catalogue.rules.len() => Some(Clause::Rule),
        State::AtWork { .. } => None,
    }
}

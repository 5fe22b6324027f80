//! One clinic's record and what its share of the board is made of.

/// No choice, no option placed, no byte of an example, no rule run into.
pub const NONE: u8 = 255;
/// Bytes of one seat's share, and of one example in it.
pub const SHARE: usize = 4_096;
pub const EXAMPLE: usize = 16;

/// "The state is closed, ready, or at work with the numbers of its place: feature i, option a,
/// depth j and the option v to be tried next at j."
#[derive(Clone, Copy, Debug, PartialEq, Eq)]
pub enum State {
    Closed,
    Ready,
    AtWork { i: u8, a: u8, j: u8, v: u8 },
}

/// "16 choices (255 = none), 16 masks of options left (bit a for option a), and 16 bytes of trial
/// build." "At work, trial entries before j are the options placed and entries from j on are 255."
/// "The record gains a mask for each feature, empty where no choice is in force."
/// "The seat's record keeps the last rule broken in this job, counted from 0; 255 for none".
#[derive(Clone, Debug, PartialEq, Eq)]
pub struct Record {
    pub state: State,
    pub choices: [u8; 16],
    pub masks: [u16; 16],
    pub alternatives: [u16; 16],
    pub trial: [u8; 16],
    pub rule: u8,
}

impl Record {
    /// "A closed seat has no choices, empty masks and a share full of 255."
    pub fn closed() -> Record {
        Record {
            state: State::Closed,
            choices: [NONE; 16],
            masks: [0; 16],
            alternatives: [0; 16],
            trial: [NONE; 16],
            rule: NONE,
        }
    }

    /// Has the feature a choice other than this option?
    pub fn chosen_otherwise(&self, feature: usize, option: u8) -> bool {
        self.choices[feature] != NONE && self.choices[feature] != option
    }

    pub fn at_work(&self) -> bool {
        matches!(self.state, State::AtWork { .. })
    }
}

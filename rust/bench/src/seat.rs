//! A seat's record and the written search in plain Rust: a step changes the record in place. Both plain versions make
//! these steps; they differ in how they come by the rules, in what they check, and in how they find the next seat.

pub const NONE: u8 = 255;
pub const SHARE: usize = 4096;
pub const BOARD: usize = 8 * SHARE;

#[derive(Clone, Copy, PartialEq, Eq, Debug)]
pub struct Place {
    pub feature: u8,
    pub option: u8,
    pub depth: u8,
    pub next: u8,
}

#[derive(Clone, Copy, PartialEq, Eq, Debug)]
pub enum State {
    Closed,
    Ready,
    AtWork(Place),
}

#[derive(Clone, Copy, PartialEq, Eq, Debug)]
pub struct Seat {
    pub state: State,
    pub choices: [u8; 16],
    pub masks: [u16; 16],
    pub trial: [u8; 16],
    pub alternatives: [u16; 16],
    pub broken: u8, // the last rule broken in this job
}

/// What a step asks of a catalogue.
pub trait Rules {
    fn sizes(&self) -> &[u8];

    /// Of the rules whose highest-numbered feature is j, the first that what is placed breaks: its number in the whole list.
    fn first_broken(&self, j: usize, placed: &[u8; 16]) -> Option<u8>;
}

// Inlined, since the versions stand in other modules: calls would cost a step of 200 instructions another 40.
impl Seat {
    pub const CLOSED: Seat = Seat {
        state: State::Closed,
        choices: [NONE; 16],
        masks: [0; 16],
        trial: [NONE; 16],
        alternatives: [0; 16],
        broken: NONE,
    };

    /// A job under some choices, whose options count as alternatives from the start.
    pub fn post(choices: [u8; 16]) -> Seat {
        let in_force = |choice: u8| match choice {
            NONE => 0,
            option => 1 << option,
        };
        let mut seat = Seat {
            choices,
            alternatives: choices.map(in_force),
            ..Seat::CLOSED
        };
        seat.start_pair(0, 0);
        seat
    }

    #[inline]
    fn first_candidate(&self, i: usize, a: u8, j: usize) -> u8 {
        if j == i {
            a
        } else if self.choices[j] != NONE {
            self.choices[j]
        } else {
            0
        }
    }

    #[inline]
    fn next_candidate(&self, sizes: &[u8], i: usize, a: u8, j: usize, v: u8) -> Option<u8> {
        if j == i {
            return Some(a).filter(|&only| v < only);
        }
        let choice = self.choices[j];
        if choice != NONE {
            return Some(choice).filter(|&only| v < only);
        }
        Some(v + 1).filter(|&next| next < sizes[j])
    }

    #[inline]
    fn start_pair(&mut self, feature: u8, option: u8) {
        self.trial = [NONE; 16];
        self.state = State::AtWork(Place {
            feature,
            option,
            depth: 0,
            next: self.first_candidate(usize::from(feature), option, 0),
        });
    }

    #[inline]
    fn end_pair(&mut self, sizes: &[u8], feature: u8, option: u8) {
        if option + 1 < sizes[usize::from(feature)] {
            self.start_pair(feature, option + 1);
        } else if usize::from(feature) + 1 < sizes.len() {
            self.start_pair(feature + 1, 0);
        } else {
            self.trial = [NONE; 16];
            self.broken = NONE;
            self.state = State::Ready;
        }
    }

    /// Rule 5.
    #[inline]
    fn give_up(&mut self, sizes: &[u8], place: Place) {
        let i = usize::from(place.feature);
        let (mut j, mut v) = (usize::from(place.depth), place.next);
        loop {
            if let Some(next) = self.next_candidate(sizes, i, place.option, j, v) {
                self.trial[j] = NONE;
                self.state = State::AtWork(Place {
                    depth: j as u8,
                    next,
                    ..place
                });
                return;
            }
            self.trial[j] = NONE;
            if j == 0 {
                return self.end_pair(sizes, place.feature, place.option);
            }
            j -= 1;
            v = self.trial[j];
        }
    }

    /// A build with option a at feature i: where another option is chosen an alternative, else an option left with its
    /// example.
    #[inline]
    fn found(&mut self, i: usize, a: u8, share: &mut [u8]) {
        let choice = self.choices[i];
        if choice != NONE && choice != a {
            self.alternatives[i] |= 1 << a;
            return;
        }
        let at = i * 256 + usize::from(a) * 16;
        share[at..at + 16].copy_from_slice(&self.trial);
        self.masks[i] |= 1 << a;
    }

    /// One step, for a seat at work.
    #[inline]
    pub fn step(&mut self, place: Place, rules: &impl Rules, share: &mut [u8]) {
        let sizes = rules.sizes();
        let (i, j) = (usize::from(place.feature), usize::from(place.depth));
        self.trial[j] = place.next;
        if let Some(rule) = rules.first_broken(j, &self.trial) {
            self.broken = rule;
            return self.give_up(sizes, place);
        }
        if j + 1 == sizes.len() {
            self.found(i, place.option, share);
            return self.end_pair(sizes, place.feature, place.option);
        }
        self.state = State::AtWork(Place {
            depth: place.depth + 1,
            next: self.first_candidate(i, place.option, j + 1),
            ..place
        });
    }
}

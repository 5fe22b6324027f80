use crate::ffi::SeatRecord;
use std::fmt;

/// One clinic's record, to be looked at: [`Desk::seat`](crate::Desk::seat) gives it.
///
/// ```
/// use nethazel::{Catalogue, Desk, State};
///
/// let mut desk = Desk::open(&Catalogue::new(&[3, 2]))?;
/// assert_eq!(desk.seat(5)?.state(), State::Closed);
/// desk.enter(5)?;
/// assert!(matches!(desk.seat(5)?.state(), State::AtWork(_)));
/// desk.turns(u16::MAX)?;
/// assert_eq!(desk.seat(5)?.state(), State::Ready);
/// # Ok::<(), nethazel::Refusal>(())
/// ```
///
/// Its `Debug` shows what its methods give, by their names.
#[derive(Clone, Copy, PartialEq, Eq)]
pub struct Seat<'desk>(pub(crate) &'desk SeatRecord);

impl fmt::Debug for Seat<'_> {
    fn fmt(&self, f: &mut fmt::Formatter<'_>) -> fmt::Result {
        f.debug_struct("Seat")
            .field("state", &self.state())
            .field("ran_into", &self.ran_into())
            .field("choices", self.choices())
            .field("masks", self.masks())
            .field("alternatives", self.alternatives())
            .field("trial", self.trial())
            .finish()
    }
}

/// What a seat is doing. Later versions may have more states, so a `match` has an arm for the rest.
///
/// ```
/// use nethazel::{Catalogue, Desk, State};
///
/// let desk = Desk::open(&Catalogue::new(&[3, 2]))?;
/// let shown = match desk.seat(0)?.state() {
///     State::Closed => "free",
///     State::Ready => "ready",
///     State::AtWork(_) => "at work",
///     _ => "taken",
/// };
/// assert_eq!(shown, "free");
/// # Ok::<(), nethazel::Refusal>(())
/// ```
#[derive(Clone, Copy, Debug, PartialEq, Eq)]
#[non_exhaustive]
pub enum State {
    /// Nobody has entered it.
    Closed,
    /// Its job is done: options and examples can be read.
    Ready,
    /// It has a job, and waits for turns.
    AtWork(Place),
}

/// Where the search of a seat at work stands: it looks for a build with `option` at `feature`. Later versions may say more
/// of it, so its fields are read by name, and a pattern ends with `..`.
///
/// ```
/// use nethazel::{Catalogue, Desk, State};
///
/// let mut desk = Desk::open(&Catalogue::new(&[3, 2]))?;
/// desk.enter(0)?;
/// desk.turns(1)?;
/// match desk.seat(0)?.state() {
///     State::AtWork(place) => {
///         assert_eq!((place.feature, place.option), (0, 0));
///         assert_eq!((place.depth, place.next), (1, 0)); // an option is placed at feature 0
///     }
///     _ => unreachable!("one turn is one step, and the job takes more"),
/// }
/// # Ok::<(), nethazel::Refusal>(())
/// ```
#[derive(Clone, Copy, Debug, PartialEq, Eq)]
#[non_exhaustive]
pub struct Place {
    /// The pair's feature.
    pub feature: usize,
    /// The pair's option.
    pub option: usize,
    /// Options are placed at the features before this one.
    pub depth: usize,
    /// The option to be tried next at `depth`.
    pub next: usize,
}

impl<'desk> Seat<'desk> {
    /// Closed, ready, or at work with the numbers of its place.
    ///
    /// ```
    /// # let desk = nethazel::Desk::open(&nethazel::Catalogue::new(&[1]))?;
    /// assert_eq!(desk.seat(0)?.state(), nethazel::State::Closed);
    /// # Ok::<(), nethazel::Refusal>(())
    /// ```
    pub fn state(self) -> State {
        let SeatRecord {
            state,
            feature,
            option,
            depth,
            next,
            ..
        } = *self.0;
        match state {
            0 => State::Closed,
            1 => State::Ready,
            _ => State::AtWork(Place {
                feature: feature.into(),
                option: option.into(),
                depth: depth.into(),
                next: next.into(),
            }),
        }
    }

    /// Whether nobody has entered it.
    ///
    /// ```
    /// # let desk = nethazel::Desk::open(&nethazel::Catalogue::new(&[1]))?;
    /// assert!(desk.seat(0)?.is_closed());
    /// # Ok::<(), nethazel::Refusal>(())
    /// ```
    pub fn is_closed(self) -> bool {
        self.state() == State::Closed
    }

    /// Whether its job is done, so that options, alternatives and examples can be read.
    ///
    /// ```
    /// # let mut desk = nethazel::Desk::open(&nethazel::Catalogue::new(&[1]))?;
    /// desk.enter(0)?;
    /// while !desk.seat(0)?.is_ready() {
    ///     desk.turns(1000)?;
    /// }
    /// assert_eq!(desk.options(0, 0)?.count(), 1);
    /// # Ok::<(), nethazel::Refusal>(())
    /// ```
    pub fn is_ready(self) -> bool {
        self.state() == State::Ready
    }

    /// Whether it has a job and waits for turns.
    ///
    /// ```
    /// # let mut desk = nethazel::Desk::open(&nethazel::Catalogue::new(&[1]))?;
    /// desk.enter(0)?;
    /// assert!(desk.seat(0)?.is_at_work());
    /// # Ok::<(), nethazel::Refusal>(())
    /// ```
    pub fn is_at_work(self) -> bool {
        matches!(self.state(), State::AtWork(_))
    }

    /// The rule that its search last ran into, as the record keeps it: the last one that an option tried in this job broke,
    /// counted from 0 through the whole rule list. `None` before the first, and where the seat is ready or closed.
    ///
    /// ```
    /// use nethazel::{Catalogue, Desk};
    ///
    /// let mut desk = Desk::open(&Catalogue::new(&[2]).rule(&[0], &[[1]]))?;
    /// desk.enter(0)?;
    /// assert_eq!(desk.seat(0)?.ran_into(), None);
    /// desk.turns(1)?; // option 0 was tried
    /// assert_eq!(desk.seat(0)?.ran_into(), Some(0));
    /// # Ok::<(), nethazel::Refusal>(())
    /// ```
    pub fn ran_into(self) -> Option<usize> {
        rule(self.0.broken)
    }

    /// The option chosen for the feature, if it has a choice.
    ///
    /// ```
    /// use nethazel::{Catalogue, Desk};
    ///
    /// let mut desk = Desk::open(&Catalogue::new(&[3, 2]))?;
    /// desk.enter(0)?;
    /// desk.turns(u16::MAX)?;
    /// desk.choose(0, 1, 1)?;
    /// assert_eq!(desk.seat(0)?.choice(1), Some(1));
    /// assert_eq!(desk.seat(0)?.choice(0), None);
    /// # Ok::<(), nethazel::Refusal>(())
    /// ```
    pub fn choice(self, feature: usize) -> Option<usize> {
        let option = self.0.choices.get(feature);
        option
            .filter(|option| **option != 255)
            .map(|option| usize::from(*option))
    }

    /// The sixteen choices as they stand in the record; 255 for none.
    ///
    /// ```
    /// # let desk = nethazel::Desk::open(&nethazel::Catalogue::new(&[1]))?;
    /// assert_eq!(desk.seat(0)?.choices(), &[255; 16]);
    /// # Ok::<(), nethazel::Refusal>(())
    /// ```
    pub fn choices(self) -> &'desk [u8; 16] {
        &self.0.choices
    }

    /// The sixteen masks of options left, as they stand in the record: bit `a` for option `a`. While the seat is at work
    /// they grow; of meaning once it is ready.
    ///
    /// ```
    /// # let desk = nethazel::Desk::open(&nethazel::Catalogue::new(&[1]))?;
    /// assert_eq!(desk.seat(0)?.masks(), &[0; 16]);
    /// # Ok::<(), nethazel::Refusal>(())
    /// ```
    pub fn masks(self) -> &'desk [u16; 16] {
        &self.0.masks
    }

    /// The sixteen masks of what could replace a choice: bit `a` for option `a`, and 0 where no choice is in force. At work
    /// the option in force has its bit already; the others come as the search finds them.
    ///
    /// ```
    /// use nethazel::{Catalogue, Desk};
    ///
    /// let mut desk = Desk::open(&Catalogue::new(&[3, 2]))?;
    /// desk.enter(0)?;
    /// desk.turns(u16::MAX)?;
    /// desk.choose(0, 1, 1)?;
    /// assert_eq!(desk.seat(0)?.alternatives()[..2], [0, 0b10]);
    /// desk.turns(u16::MAX)?;
    /// assert_eq!(desk.seat(0)?.alternatives()[..2], [0, 0b11]);
    /// # Ok::<(), nethazel::Refusal>(())
    /// ```
    pub fn alternatives(self) -> &'desk [u16; 16] {
        &self.0.alternatives
    }

    /// The trial build: at work the options placed before the depth; 255 from there on, and in the other states.
    ///
    /// ```
    /// # let desk = nethazel::Desk::open(&nethazel::Catalogue::new(&[1]))?;
    /// assert_eq!(desk.seat(0)?.trial(), &[255; 16]);
    /// # Ok::<(), nethazel::Refusal>(())
    /// ```
    pub fn trial(self) -> &'desk [u8; 16] {
        &self.0.trial
    }
}

/// The rule of a number that the archive gives: 255 is none.
pub(crate) fn rule(number: u8) -> Option<usize> {
    (number != 255).then_some(number.into())
}

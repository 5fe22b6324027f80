use crate::ffi::Left;
use crate::Refusal;
use std::fmt;
use std::iter::FusedIterator;

/// Options of one feature: of [`Desk::options`](crate::Desk::options) those left, which some build has that satisfies every
/// rule and every choice in force; of [`Desk::alternatives`](crate::Desk::alternatives) those that could replace its choice,
/// which some build has that satisfies every rule and every other choice.
///
/// ```
/// use nethazel::{Catalogue, Desk};
///
/// // Option 1 of feature 0 fits nothing.
/// let mut desk = Desk::open(&Catalogue::new(&[3, 2]).rule(&[0], &[[0], [2]]))?;
/// desk.enter(0)?;
/// desk.turns(u16::MAX)?;
/// let left = desk.options(0, 0)?;
/// assert_eq!((left.mask(), left.count()), (0b101, 2));
/// assert_eq!(left.iter().collect::<Vec<_>>(), [0, 2]);
/// assert_eq!(left.to_string(), "0,2");
/// # Ok::<(), nethazel::Refusal>(())
/// ```
///
/// Where there is no option it is shown as `-`.
#[derive(Clone, Copy, Debug, PartialEq, Eq, Hash)]
pub struct OptionsLeft {
    mask: u16,
    count: usize,
}

impl OptionsLeft {
    pub(crate) fn answered(left: Left) -> Result<OptionsLeft, Refusal> {
        Refusal::done(left.number)?;
        Ok(OptionsLeft {
            mask: left.mask,
            count: left.count as usize, // at most 16
        })
    }

    /// Bit `a` is set for an option `a` among them.
    ///
    /// ```
    /// # let mut desk = nethazel::Desk::open(&nethazel::Catalogue::new(&[2]))?;
    /// # desk.enter(0)?;
    /// # desk.turns(u16::MAX)?;
    /// assert_eq!(desk.options(0, 0)?.mask(), 0b11);
    /// # Ok::<(), nethazel::Refusal>(())
    /// ```
    pub fn mask(self) -> u16 {
        self.mask
    }

    /// How many options they are.
    ///
    /// ```
    /// # let mut desk = nethazel::Desk::open(&nethazel::Catalogue::new(&[2]))?;
    /// # desk.enter(0)?;
    /// # desk.turns(u16::MAX)?;
    /// assert_eq!(desk.options(0, 0)?.count(), 2);
    /// # Ok::<(), nethazel::Refusal>(())
    /// ```
    pub fn count(self) -> usize {
        self.count
    }

    /// Whether the option is among them.
    ///
    /// ```
    /// # let mut desk = nethazel::Desk::open(&nethazel::Catalogue::new(&[2]))?;
    /// # desk.enter(0)?;
    /// # desk.turns(u16::MAX)?;
    /// let left = desk.options(0, 0)?;
    /// assert!(left.has(1) && !left.has(2));
    /// # Ok::<(), nethazel::Refusal>(())
    /// ```
    pub fn has(self, option: usize) -> bool {
        option < 16 && self.mask >> option & 1 == 1
    }

    /// The options, rising.
    ///
    /// ```
    /// # let mut desk = nethazel::Desk::open(&nethazel::Catalogue::new(&[2]))?;
    /// # desk.enter(0)?;
    /// # desk.turns(u16::MAX)?;
    /// assert!(desk.options(0, 0)?.iter().eq([0, 1]));
    /// # Ok::<(), nethazel::Refusal>(())
    /// ```
    pub fn iter(self) -> OptionsIter {
        OptionsIter { mask: self.mask }
    }
}

impl IntoIterator for OptionsLeft {
    type Item = usize;
    type IntoIter = OptionsIter;

    fn into_iter(self) -> OptionsIter {
        self.iter()
    }
}

impl fmt::Display for OptionsLeft {
    fn fmt(&self, f: &mut fmt::Formatter<'_>) -> fmt::Result {
        if self.mask == 0 {
            return f.write_str("-");
        }
        let options: Vec<String> = self.iter().map(|option| option.to_string()).collect();
        f.write_str(&options.join(","))
    }
}

/// The options of an [`OptionsLeft`], rising.
///
/// ```
/// # let mut desk = nethazel::Desk::open(&nethazel::Catalogue::new(&[2]))?;
/// # desk.enter(0)?;
/// # desk.turns(u16::MAX)?;
/// let mut options = desk.options(0, 0)?.iter();
/// assert_eq!((options.len(), options.next()), (2, Some(0)));
/// # Ok::<(), nethazel::Refusal>(())
/// ```
#[derive(Clone, Debug)]
pub struct OptionsIter {
    mask: u16,
}

impl Iterator for OptionsIter {
    type Item = usize;

    fn next(&mut self) -> Option<usize> {
        if self.mask == 0 {
            return None;
        }
        let first = self.mask.trailing_zeros();
        self.mask &= self.mask - 1; // the lowest bit cleared
        Some(first as usize)
    }

    fn size_hint(&self) -> (usize, Option<usize>) {
        let count = self.mask.count_ones() as usize;
        (count, Some(count))
    }
}

impl ExactSizeIterator for OptionsIter {}
impl FusedIterator for OptionsIter {}

/// A build, as [`Desk::example`](crate::Desk::example) shows it: one option for each feature of the catalogue, as they stand
/// on the board. On a desk that was put together from bytes that were made up or changed, any byte may stand there, 255 too,
/// and is shown as it is.
///
/// ```
/// use nethazel::{Catalogue, Desk};
///
/// let mut desk = Desk::open(&Catalogue::new(&[3, 2]))?;
/// desk.enter(0)?;
/// desk.turns(u16::MAX)?;
/// let example = desk.example(0, 1, 1)?;
/// assert!(example.options().eq([0, 1]));
/// assert_eq!((example.option(1), example.option(2)), (Some(1), None));
/// assert_eq!(example.to_string(), "0 1");
/// assert_eq!(example.bytes()[..3], [0, 1, 255]);
/// # Ok::<(), nethazel::Refusal>(())
/// ```
#[derive(Clone, Copy, Debug, PartialEq, Eq, Hash)]
pub struct Example<'desk> {
    pub(crate) bytes: &'desk [u8; 16],
    pub(crate) features: usize,
}

impl<'desk> Example<'desk> {
    /// The option of a feature; `None` for one that is not in the catalogue.
    ///
    /// ```
    /// # let mut desk = nethazel::Desk::open(&nethazel::Catalogue::new(&[2]))?;
    /// # desk.enter(0)?;
    /// # desk.turns(u16::MAX)?;
    /// assert_eq!(desk.example(0, 0, 1)?.option(0), Some(1));
    /// # Ok::<(), nethazel::Refusal>(())
    /// ```
    pub fn option(self, feature: usize) -> Option<usize> {
        self.options().nth(feature)
    }

    /// The option of each feature, in the order of the features: as many as the catalogue has.
    ///
    /// ```
    /// # let mut desk = nethazel::Desk::open(&nethazel::Catalogue::new(&[2]))?;
    /// # desk.enter(0)?;
    /// # desk.turns(u16::MAX)?;
    /// assert!(desk.example(0, 0, 1)?.options().eq([1]));
    /// # Ok::<(), nethazel::Refusal>(())
    /// ```
    pub fn options(self) -> impl ExactSizeIterator<Item = usize> + 'desk {
        let bytes = self.bytes.iter().take(self.features);
        bytes.map(|option| usize::from(*option))
    }

    /// The sixteen bytes on the board: after the catalogue's features come 255s.
    ///
    /// ```
    /// # let mut desk = nethazel::Desk::open(&nethazel::Catalogue::new(&[2]))?;
    /// # desk.enter(0)?;
    /// # desk.turns(u16::MAX)?;
    /// assert_eq!(desk.example(0, 0, 1)?.bytes()[..2], [1, 255]);
    /// # Ok::<(), nethazel::Refusal>(())
    /// ```
    pub fn bytes(self) -> &'desk [u8; 16] {
        self.bytes
    }
}

impl fmt::Display for Example<'_> {
    fn fmt(&self, f: &mut fmt::Formatter<'_>) -> fmt::Result {
        let options: Vec<String> = self.options().map(|option| option.to_string()).collect();
        f.write_str(&options.join(" "))
    }
}

/// What [`Desk::turns`](crate::Desk::turns) did. Later versions may say more of it, so its fields are read by name.
///
/// ```
/// use nethazel::{Catalogue, Desk};
///
/// let mut desk = Desk::open(&Catalogue::new(&[1]))?;
/// desk.enter(0)?;
/// let turns = desk.turns(5)?;
/// assert_eq!((turns.made, turns.working), (1, false));
/// # Ok::<(), nethazel::Refusal>(())
/// ```
#[derive(Clone, Copy, Debug, PartialEq, Eq, Hash)]
#[non_exhaustive]
pub struct Turns {
    /// How many turns were made: fewer than were asked for when no seat was at work any more.
    pub made: u16,
    /// Whether a seat is still at work.
    pub working: bool,
}

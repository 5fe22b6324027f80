use std::error::Error;
use std::fmt;

/// Why a call was refused: one of the paper's refusal numbers.
///
/// A refused call changes nothing. Checks run from the top of this list, and the first that fails is the refusal; of a
/// catalogue's faults (10 to 18) it is the one met first, reading the sizes and then the rule list from the front.
///
/// ```
/// use nethazel::{Catalogue, Desk, Refusal};
///
/// let refusal = Desk::open(&Catalogue::new(&[3, 17, 2])).unwrap_err();
/// assert_eq!(refusal, Refusal::Size);
/// assert_eq!(refusal.number(), 11);
/// assert_eq!(refusal.to_string(), "a feature's size is not from 1 to 16 (refusal 11)");
/// ```
///
/// Later versions may have more of them, so a `match` on a refusal has an arm for the rest.
#[derive(Clone, Copy, Debug, PartialEq, Eq, PartialOrd, Ord, Hash)]
#[non_exhaustive]
#[repr(u8)]
pub enum Refusal {
    /// The board's length is not 32,768. A [`Desk`](crate::Desk) owns its board, so no call of it meets this one.
    BoardLength = 1,
    /// The catalogue has no feature, or more than 16.
    FeatureCount = 10,
    /// A size is 0 or above 16.
    Size = 11,
    /// The rule list has more than 8,192 numbers.
    RuleListLength = 12,
    /// Numbers remain after 64 rules.
    RuleCount = 13,
    /// Fewer numbers remain than the next part of a rule needs: its header of two, its features or its rows.
    RuleCutShort = 14,
    /// A rule's arity is 0 or above 6.
    Arity = 15,
    /// A rule names a feature that is not in the catalogue.
    RuleFeature = 16,
    /// A rule names a feature twice.
    FeatureTwice = 17,
    /// A row's option is not below its feature's size.
    RowOption = 18,
    /// The desk doesn't fit the catalogue: its record names an option, a feature or a rule that is not there, or has something
    /// where a seat in its state has nothing. A [`Desk`](crate::Desk) keeps the catalogue it was opened with, so only
    /// [`Desk::from_bytes`](crate::Desk::from_bytes) meets this one.
    DeskUnfit = 20,
    /// The seat is above 7.
    SeatAbove7 = 30,
    /// The seat is closed (not for enter).
    SeatClosed = 31,
    /// The seat is open already (enter only).
    SeatOpen = 32,
    /// The seat is at work (not for enter, leave and ran_into).
    SeatAtWork = 33,
    /// The feature is not in the catalogue.
    FeatureMissing = 34,
    /// The option is not below the feature's size (choose and example).
    OptionMissing = 35,
    /// The feature has a choice (choose).
    FeatureHasChoice = 36,
    /// The option is not left (choose and example).
    OptionNotLeft = 37,
    /// The feature has no choice (relax and alternatives).
    FeatureHasNoChoice = 38,
}

impl Refusal {
    /// Every refusal, in the order of the checks.
    ///
    /// ```
    /// use nethazel::Refusal;
    ///
    /// assert!(Refusal::ALL.windows(2).all(|two| two[0].number() < two[1].number()));
    /// ```
    pub const ALL: &'static [Refusal] = &[
        Refusal::BoardLength,
        Refusal::FeatureCount,
        Refusal::Size,
        Refusal::RuleListLength,
        Refusal::RuleCount,
        Refusal::RuleCutShort,
        Refusal::Arity,
        Refusal::RuleFeature,
        Refusal::FeatureTwice,
        Refusal::RowOption,
        Refusal::DeskUnfit,
        Refusal::SeatAbove7,
        Refusal::SeatClosed,
        Refusal::SeatOpen,
        Refusal::SeatAtWork,
        Refusal::FeatureMissing,
        Refusal::OptionMissing,
        Refusal::FeatureHasChoice,
        Refusal::OptionNotLeft,
        Refusal::FeatureHasNoChoice,
    ];

    /// The paper's number.
    ///
    /// ```
    /// assert_eq!(nethazel::Refusal::SeatClosed.number(), 31);
    /// ```
    pub fn number(self) -> u8 {
        self as u8
    }

    /// The refusal with the paper's number; `None` for 0, which refuses nothing, and for a number without a meaning.
    ///
    /// ```
    /// use nethazel::Refusal;
    ///
    /// assert_eq!(Refusal::from_number(31), Some(Refusal::SeatClosed));
    /// assert_eq!(Refusal::from_number(0), None);
    /// ```
    pub fn from_number(number: u8) -> Option<Refusal> {
        Refusal::ALL
            .iter()
            .copied()
            .find(|refusal| refusal.number() == number)
    }

    /// The number of an answer: 0 is done.
    pub(crate) fn done(number: u8) -> Result<(), Refusal> {
        if number == 0 {
            return Ok(());
        }
        // That the archive gives no number outside the table is proved.
        Err(Refusal::from_number(number).expect("a number of the table"))
    }

    fn words(self) -> &'static str {
        match self {
            Refusal::BoardLength => "the board's length is not 32,768 bytes",
            Refusal::FeatureCount => "the catalogue has no feature, or more than 16",
            Refusal::Size => "a feature's size is not from 1 to 16",
            Refusal::RuleListLength => "the rule list has more than 8,192 numbers",
            Refusal::RuleCount => "the rule list goes on after 64 rules",
            Refusal::RuleCutShort => "the rule list ends before its last rule is complete",
            Refusal::Arity => "a rule's arity is not from 1 to 6",
            Refusal::RuleFeature => "a rule names a feature that is not in the catalogue",
            Refusal::FeatureTwice => "a rule names a feature twice",
            Refusal::RowOption => "a row of a rule has an option that its feature doesn't have",
            Refusal::DeskUnfit => "the desk doesn't fit the catalogue",
            Refusal::SeatAbove7 => "the seats are numbered 0 to 7, and the seat is above 7",
            Refusal::SeatClosed => "the seat is closed",
            Refusal::SeatOpen => "the seat is open already",
            Refusal::SeatAtWork => "the seat is still at work",
            Refusal::FeatureMissing => "the feature is not in the catalogue",
            Refusal::OptionMissing => "the feature doesn't have the option",
            Refusal::FeatureHasChoice => "the feature has a choice already",
            Refusal::OptionNotLeft => {
                "the option is not left: no build that the choices allow has it"
            }
            Refusal::FeatureHasNoChoice => "the feature has no choice",
        }
    }
}

impl fmt::Display for Refusal {
    fn fmt(&self, f: &mut fmt::Formatter<'_>) -> fmt::Result {
        write!(f, "{} (refusal {})", self.words(), self.number())
    }
}

impl Error for Refusal {}

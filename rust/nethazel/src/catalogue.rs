use std::fmt;
use std::sync::Arc;

/// A catalogue in numbers: the size of each feature, and the rule list.
///
/// Any numbers make a `Catalogue`; whether they are one that the desk can work with is checked when a
/// [`Desk`](crate::Desk) is opened with it. It takes 1 to 16 features of 1 to 16 options, and 0 to 64 rules in a list of at
/// most 8,192 numbers.
///
/// A clone is cheap and shares the numbers, and so do all desks that are opened with it, on any thread.
///
/// The trolley: three features with 3, 3 and 2 options, and two rules.
///
/// ```
/// use nethazel::Catalogue;
///
/// let trolley = Catalogue::new(&[3, 3, 2])
///     .rule(&[0, 1], &[[0, 1], [1, 0], [1, 2], [2, 1]])
///     .rule(&[1, 2], &[[0, 0], [1, 1], [2, 0], [2, 1]]);
/// assert_eq!(trolley.sizes(), [3, 3, 2]);
/// assert_eq!(trolley.rule_list()[..6], [2, 4, 0, 1, 0, 1]);
/// ```
#[derive(Clone, Debug, PartialEq, Eq, Hash)]
pub struct Catalogue(Arc<Numbers>);

/// What is lent to the archive.
#[derive(Clone, Debug, PartialEq, Eq, Hash)]
struct Numbers {
    sizes: Vec<u8>,
    rule_list: Vec<u16>,
}

impl Catalogue {
    /// A catalogue without rules, of one feature for each size. Options of a feature are 0 to its size − 1.
    ///
    /// ```
    /// use nethazel::{Catalogue, Desk, Refusal};
    ///
    /// assert!(Desk::open(&Catalogue::new(&[4, 2])).is_ok());
    /// assert_eq!(Desk::open(&Catalogue::new(&[4, 256 + 2])), Err(Refusal::Size));
    /// ```
    pub fn new(sizes: &[usize]) -> Catalogue {
        // One that a byte can't hold is refused as 255 is: it's above 16.
        let byte = |size: &usize| u8::try_from(*size).unwrap_or(u8::MAX);
        let sizes: Vec<u8> = sizes.iter().map(byte).collect();
        Catalogue::from_numbers(&sizes, &[])
    }

    /// A catalogue of any numbers, as they come from a file or a network: the desk checks them.
    ///
    /// ```
    /// use nethazel::{Catalogue, Desk, Refusal};
    ///
    /// // One rule of arity 2 with one row, on features 0 and 1; the row lacks its second option.
    /// let cut_short = Catalogue::from_numbers(&[3, 3, 2], &[2, 1, 0, 1, 0]);
    /// assert_eq!(Desk::open(&cut_short).unwrap_err(), Refusal::RuleCutShort);
    /// ```
    pub fn from_numbers(sizes: &[u8], rule_list: &[u16]) -> Catalogue {
        Catalogue(Arc::new(Numbers {
            sizes: sizes.to_vec(),
            rule_list: rule_list.to_vec(),
        }))
    }

    /// Writes one more rule into the rule list: a build satisfies it when its options at `features`, in this order, are
    /// one of `rows`. That every row has an option for each feature is checked by type. A number above 65,535 is written as
    /// 65,535, for either names no feature and no option, and the desk refuses both alike.
    ///
    /// ```
    /// use nethazel::Catalogue;
    ///
    /// let catalogue = Catalogue::new(&[2, 2]).rule(&[0, 1], &[[0, 1], [1, 0]]);
    /// // Arity, row count, features, rows.
    /// assert_eq!(catalogue.rule_list(), [2, 2, 0, 1, 0, 1, 1, 0]);
    /// ```
    ///
    /// A rule without rows is satisfied by no build:
    ///
    /// ```
    /// use nethazel::Catalogue;
    ///
    /// assert_eq!(Catalogue::new(&[2, 2]).rule(&[1], &[]).rule_list(), [1, 0, 1]);
    /// ```
    ///
    /// A row of another length doesn't compile:
    ///
    /// ```compile_fail
    /// nethazel::Catalogue::new(&[2, 2]).rule(&[0, 1], &[[0, 1, 1]]);
    /// ```
    #[must_use]
    pub fn rule<const ARITY: usize>(
        mut self,
        features: &[usize; ARITY],
        rows: &[[usize; ARITY]],
    ) -> Catalogue {
        let list = &mut Arc::make_mut(&mut self.0).rule_list;
        write_header(list, features, rows.len());
        for row in rows {
            write(list, row);
        }
        self
    }

    /// [`rule`](Catalogue::rule) where the arity is known only when the program runs.
    ///
    /// # Errors
    ///
    /// [`UnevenRow`] if a row has another length than `features`: such a row can't be written into a rule list.
    ///
    /// ```
    /// use nethazel::Catalogue;
    ///
    /// let features = vec![0, 1];
    /// let catalogue = Catalogue::new(&[2, 2]).rule_of_rows(&features, &[vec![0, 1], vec![1, 0]])?;
    /// assert_eq!(catalogue.rule_list(), [2, 2, 0, 1, 0, 1, 1, 0]);
    ///
    /// let uneven = catalogue.rule_of_rows(&features, &[vec![0, 1], vec![1]]).unwrap_err();
    /// assert_eq!((uneven.row, uneven.length, uneven.arity), (1, 1, 2));
    /// assert_eq!(uneven.to_string(), "row 1 has length 1, but the rule has arity 2");
    /// # Ok::<(), nethazel::UnevenRow>(())
    /// ```
    pub fn rule_of_rows<Row: AsRef<[usize]>>(
        mut self,
        features: &[usize],
        rows: &[Row],
    ) -> Result<Catalogue, UnevenRow> {
        let list = &mut Arc::make_mut(&mut self.0).rule_list;
        write_header(list, features, rows.len());
        for (row, options) in rows.iter().map(Row::as_ref).enumerate() {
            if options.len() != features.len() {
                return Err(UnevenRow {
                    row,
                    length: options.len(),
                    arity: features.len(),
                });
            }
            write(list, options);
        }
        Ok(self)
    }

    /// How many features it has.
    ///
    /// ```
    /// assert_eq!(nethazel::Catalogue::new(&[3, 3, 2]).features(), 3);
    /// ```
    pub fn features(&self) -> usize {
        self.0.sizes.len()
    }

    /// How many options the feature has; `None` for one that is not in the catalogue.
    ///
    /// ```
    /// let catalogue = nethazel::Catalogue::new(&[3, 3, 2]);
    /// assert_eq!((catalogue.size(2), catalogue.size(3)), (Some(2), None));
    /// ```
    pub fn size(&self, feature: usize) -> Option<usize> {
        self.0.sizes.get(feature).map(|size| usize::from(*size))
    }

    /// The sizes of all features, as they are lent to the archive.
    ///
    /// ```
    /// assert_eq!(nethazel::Catalogue::new(&[3, 3, 2]).sizes(), [3, 3, 2]);
    /// ```
    pub fn sizes(&self) -> &[u8] {
        &self.0.sizes
    }

    /// The rule list, as it is lent to the archive: for each rule its arity, its row count, its features, then its rows.
    ///
    /// ```
    /// assert!(nethazel::Catalogue::new(&[3, 3, 2]).rule_list().is_empty());
    /// ```
    pub fn rule_list(&self) -> &[u16] {
        &self.0.rule_list
    }
}

/// Arity, row count, features. A count above 65,535 makes the list too long, or the arity is 0: refused as it is written.
fn write_header(list: &mut Vec<u16>, features: &[usize], rows: usize) {
    write(list, &[features.len(), rows]);
    write(list, features);
}

/// A number above 65,535 is written as that, never cut to its lower bits.
fn write(list: &mut Vec<u16>, numbers: &[usize]) {
    let number = |number: &usize| u16::try_from(*number).unwrap_or(u16::MAX);
    list.extend(numbers.iter().map(number));
}

/// A row that has another length than its rule's arity.
///
/// ```
/// use nethazel::Catalogue;
///
/// let uneven = Catalogue::new(&[2]).rule_of_rows(&[0], &[[0, 1]]).unwrap_err();
/// assert_eq!((uneven.row, uneven.length, uneven.arity), (0, 2, 1));
/// ```
#[derive(Clone, Copy, Debug, PartialEq, Eq)]
#[non_exhaustive]
pub struct UnevenRow {
    /// Which row, counted from 0.
    pub row: usize,
    /// How many options it has.
    pub length: usize,
    /// How many features the rule has.
    pub arity: usize,
}

impl fmt::Display for UnevenRow {
    fn fmt(&self, f: &mut fmt::Formatter<'_>) -> fmt::Result {
        write!(
            f,
            "row {} has length {}, but the rule has arity {}",
            self.row, self.length, self.arity
        )
    }
}

impl std::error::Error for UnevenRow {}

use std::fmt;

/// The board: exactly 32,768 bytes, 4,096 of them for each of the eight seats, where the examples stand.
///
/// It belongs to a [`Desk`](crate::Desk) and can only be read; the desk's calls write it.
///
/// ```
/// use nethazel::{Board, Catalogue, Desk};
///
/// let desk = Desk::open(&Catalogue::new(&[3, 3, 2]))?;
/// assert_eq!(desk.board().bytes(), &[255; Board::LENGTH]);
/// # Ok::<(), nethazel::Refusal>(())
/// ```
#[derive(Clone, PartialEq, Eq)]
pub struct Board(Box<[u8; Board::LENGTH]>);

impl Board {
    /// The board's length in bytes.
    ///
    /// ```
    /// use nethazel::Board;
    ///
    /// assert_eq!(Board::LENGTH, 8 * Board::SHARE);
    /// ```
    pub const LENGTH: usize = 32_768;

    /// The length of one seat's share: 16 bytes for each of 16 options of 16 features.
    ///
    /// ```
    /// assert_eq!(nethazel::Board::SHARE, 16 * 16 * 16);
    /// ```
    pub const SHARE: usize = 4_096;

    pub(crate) fn new() -> Board {
        Board::holding(vec![255; Board::LENGTH]) // an array would stand on the stack first, where nothing is optimized
    }

    /// A board that holds the bytes, which are as many as a board has.
    pub(crate) fn copied(bytes: &[u8]) -> Board {
        Board::holding(bytes.to_vec())
    }

    fn holding(bytes: Vec<u8>) -> Board {
        let bytes = bytes.into_boxed_slice();
        Board(bytes.try_into().expect("a board's length"))
    }

    /// All bytes of the board.
    ///
    /// ```
    /// # let desk = nethazel::Desk::open(&nethazel::Catalogue::new(&[1]))?;
    /// assert_eq!(desk.board().bytes().len(), 32_768);
    /// # Ok::<(), nethazel::Refusal>(())
    /// ```
    pub fn bytes(&self) -> &[u8; Board::LENGTH] {
        &self.0
    }

    /// The seat's share of the board; `None` for a seat above 7. The example for option `a` of feature `i` is its 16
    /// bytes from `i * 256 + a * 16`: all 255 where there is none.
    ///
    /// ```
    /// use nethazel::{Catalogue, Desk};
    ///
    /// let mut desk = Desk::open(&Catalogue::new(&[1, 2]))?;
    /// desk.enter(7)?;
    /// desk.turns(u16::MAX)?;
    /// let share = desk.board().share(7).unwrap();
    /// assert_eq!(share[256 + 16..][..3], [0, 1, 255]); // feature 1, option 1
    /// assert_eq!(desk.board().share(8), None);
    /// # Ok::<(), nethazel::Refusal>(())
    /// ```
    pub fn share(&self, seat: usize) -> Option<&[u8]> {
        self.0.chunks_exact(Board::SHARE).nth(seat)
    }

    pub(crate) fn bytes_mut(&mut self) -> &mut [u8; Board::LENGTH] {
        &mut self.0
    }
}

impl fmt::Debug for Board {
    fn fmt(&self, f: &mut fmt::Formatter<'_>) -> fmt::Result {
        f.debug_struct("Board").finish_non_exhaustive()
    }
}

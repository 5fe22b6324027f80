//! A desk as bytes, to be moved: [`Desk::to_bytes`](crate::Desk::to_bytes) says the form.

use crate::ffi::{DeskRecord, SeatRecord, LAYOUT};
use crate::{Board, Catalogue, Refusal};
use std::array;
use std::error::Error;
use std::fmt;

const MARK: &[u8; 8] = b"nethazel";
const LAYOUT_LENGTH: usize = 4;
const FINGERPRINT_LENGTH: usize = 8;
const SEAT_LENGTH: usize = 6 + 16 + 32 + 16 + 32;
pub(crate) const LENGTH: usize =
    MARK.len() + LAYOUT_LENGTH + FINGERPRINT_LENGTH + 8 * SEAT_LENGTH + 1 + Board::LENGTH;

pub(crate) fn write(record: &DeskRecord, board: &Board, catalogue: &Catalogue) -> Vec<u8> {
    let mut bytes = Vec::with_capacity(LENGTH);
    bytes.extend(MARK);
    bytes.extend(LAYOUT.to_le_bytes());
    bytes.extend(fingerprint(catalogue).to_le_bytes());
    for seat in &record.seats {
        write_seat(seat, &mut bytes);
    }
    bytes.push(record.next);
    bytes.extend(board.bytes());
    bytes
}

fn write_seat(seat: &SeatRecord, bytes: &mut Vec<u8>) {
    bytes.extend([seat.state, seat.feature, seat.option, seat.depth, seat.next]);
    bytes.push(seat.broken);
    bytes.extend(seat.choices);
    bytes.extend(seat.masks.iter().flat_map(|mask| mask.to_le_bytes()));
    bytes.extend(seat.trial);
    bytes.extend(seat.alternatives.iter().flat_map(|mask| mask.to_le_bytes()));
}

/// The record and the board, of which nothing is checked yet but the form and the catalogue's fingerprint. The layout comes
/// before the length: another has another length, too.
pub(crate) fn read(
    bytes: &[u8],
    catalogue: &Catalogue,
) -> Result<(DeskRecord, Board), FromBytesError> {
    let length = bytes.len();
    let marked = bytes.strip_prefix(MARK).ok_or(FromBytesError::NotADesk)?;
    if marked.len() < LAYOUT_LENGTH {
        return Err(FromBytesError::Length(length));
    }
    let mut unread = Unread(marked);
    let layout = u32::from_le_bytes(unread.take());
    if layout != LAYOUT {
        return Err(FromBytesError::Layout(layout));
    }
    if length != LENGTH {
        return Err(FromBytesError::Length(length));
    }
    if u64::from_le_bytes(unread.take()) != fingerprint(catalogue) {
        return Err(FromBytesError::OtherCatalogue);
    }
    let seats = array::from_fn(|_| unread.seat());
    let next = unread.byte();
    Ok((DeskRecord { seats, next }, Board::copied(unread.0)))
}

/// Of the sizes and of the rule list, each with its length before it.
fn fingerprint(catalogue: &Catalogue) -> u64 {
    let (sizes, rules) = (catalogue.sizes(), catalogue.rule_list());
    let length = |length: usize| (length as u64).to_le_bytes();
    let numbers = rules.iter().flat_map(|number| number.to_le_bytes());
    let sizes = length(sizes.len()).into_iter().chain(sizes.iter().copied());
    fnv_1a(sizes.chain(length(rules.len())).chain(numbers))
}

/// FNV-1a of 64 bits.
fn fnv_1a(bytes: impl Iterator<Item = u8>) -> u64 {
    bytes.fold(0xcbf2_9ce4_8422_2325, |hash, byte| {
        (hash ^ u64::from(byte)).wrapping_mul(0x0100_0000_01b3)
    })
}

/// The bytes after those that were read. That there are enough is known before.
struct Unread<'a>(&'a [u8]);

impl Unread<'_> {
    fn take<const COUNT: usize>(&mut self) -> [u8; COUNT] {
        let (first, rest) = self.0.split_at(COUNT);
        self.0 = rest;
        first.try_into().expect("split there")
    }

    fn byte(&mut self) -> u8 {
        let [byte] = self.take();
        byte
    }

    fn masks(&mut self) -> [u16; 16] {
        array::from_fn(|_| u16::from_le_bytes(self.take()))
    }

    fn seat(&mut self) -> SeatRecord {
        let [state, feature, option, depth, next] = self.take();
        SeatRecord {
            state,
            feature,
            option,
            depth,
            next,
            broken: self.byte(),
            choices: self.take(),
            masks: self.masks(),
            trial: self.take(),
            alternatives: self.masks(),
        }
    }
}

/// Why bytes are not a desk, of [`Desk::from_bytes`](crate::Desk::from_bytes).
///
/// ```
/// use nethazel::{Catalogue, Desk, FromBytesError, Refusal};
/// use std::error::Error;
///
/// let catalogue = Catalogue::new(&[3, 2]);
/// let bytes = Desk::open(&catalogue)?.to_bytes();
/// let refused = |bytes: &[u8]| Desk::from_bytes(&catalogue, bytes).unwrap_err();
///
/// assert_eq!(refused(b"a letter"), FromBytesError::NotADesk);
/// let mut later = bytes.clone();
/// later[8] = 200; // the layout's lowest byte
/// assert_eq!(refused(&later), FromBytesError::Layout(200));
/// assert_eq!(refused(&bytes[..99]), FromBytesError::Length(99));
///
/// let other = Catalogue::new(&[2, 3]);
/// assert_eq!(Desk::from_bytes(&other, &bytes), Err(FromBytesError::OtherCatalogue));
///
/// let mut unfit = bytes;
/// unfit[20] = 3; // seat 0 in a state that is none
/// let error = refused(&unfit);
/// assert_eq!(error, FromBytesError::Refused(Refusal::DeskUnfit));
/// assert_eq!(error.to_string(), "the archive refuses the desk with 20");
/// assert_eq!(
///     error.source().unwrap().to_string(),
///     "the desk doesn't fit the catalogue (refusal 20)"
/// );
/// # Ok::<(), nethazel::Refusal>(())
/// ```
#[derive(Clone, Copy, Debug, PartialEq, Eq)]
#[non_exhaustive]
pub enum FromBytesError {
    /// They don't begin with the mark of a desk.
    NotADesk,
    /// They are a desk of this other layout, so of another version of Nethazel.
    Layout(u32),
    /// There are so many bytes, and not [`Desk::BYTES`](crate::Desk::BYTES).
    Length(usize),
    /// They are a desk with another catalogue than the one that was given.
    OtherCatalogue,
    /// The archive refuses the catalogue (10 to 18), or the desk for this catalogue (20): the bytes were changed or made up.
    Refused(Refusal),
}

impl fmt::Display for FromBytesError {
    fn fmt(&self, f: &mut fmt::Formatter<'_>) -> fmt::Result {
        match self {
            FromBytesError::NotADesk => {
                f.write_str("not a desk: the bytes don't begin with `nethazel`")
            }
            FromBytesError::Layout(layout) => write!(
                f,
                "a desk of layout {layout}, where this version of nethazel has layout {LAYOUT}"
            ),
            FromBytesError::Length(length) => {
                write!(f, "{length} bytes, where a desk has {LENGTH}")
            }
            FromBytesError::OtherCatalogue => {
                f.write_str("a desk with another catalogue than the one that was given")
            }
            FromBytesError::Refused(refusal) => {
                write!(f, "the archive refuses the desk with {}", refusal.number())
            }
        }
    }
}

impl Error for FromBytesError {
    fn source(&self) -> Option<&(dyn Error + 'static)> {
        match self {
            FromBytesError::Refused(refusal) => Some(refusal),
            _ => None,
        }
    }
}

impl From<Refusal> for FromBytesError {
    fn from(refusal: Refusal) -> FromBytesError {
        FromBytesError::Refused(refusal)
    }
}

#[cfg(test)]
mod tests {
    use super::*;

    /// The values that the hash's authors publish.
    #[test]
    fn the_fingerprint_is_fnv_1a() {
        let hash = |text: &str| fnv_1a(text.bytes());
        assert_eq!(hash(""), 0xcbf2_9ce4_8422_2325);
        assert_eq!(hash("a"), 0xaf63_dc4c_8601_ec8c);
        assert_eq!(hash("foobar"), 0x8594_4171_f739_67e8);
    }

    #[test]
    fn each_number_and_each_length_is_in_the_fingerprint() {
        let of = |sizes: &[u8], rules: &[u16]| fingerprint(&Catalogue::from_numbers(sizes, rules));
        let some = [
            of(&[], &[]),
            of(&[0], &[]),
            of(&[], &[0]),
            of(&[0, 0], &[]),
            of(&[2, 3], &[]),
            of(&[3, 2], &[]),
            of(&[3], &[2]),
            of(&[3], &[512]),
            of(&[3], &[2, 0]),
        ];
        for (place, one) in some.iter().enumerate() {
            assert!(!some[..place].contains(one), "{place}");
        }
    }
}

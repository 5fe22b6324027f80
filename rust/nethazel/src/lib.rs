//! Nethazel: a configurator desk for eight clinics, over an archive in which every call is proved.
//!
//! Eight clinics share one [`Desk`]. Each sits at a seat, chooses options of a product out of one [`Catalogue`], and sees
//! exactly the options that still fit some complete product (a build), each with the first such build as example; and of
//! each choice it made, what could replace it. While it waits, it sees which rule the search last ran into. What can't be
//! done is a [`Refusal`], which has the paper's number.
//!
//! The trolley has three features with 3, 3 and 2 options, and two rules. A clinic at seat 3 wants option 0 of feature 2:
//!
//! ```
//! use nethazel::{Catalogue, Desk, Refusal};
//!
//! fn main() -> Result<(), Refusal> {
//!     let trolley = Catalogue::new(&[3, 3, 2])
//!         .rule(&[0, 1], &[[0, 1], [1, 0], [1, 2], [2, 1]])
//!         .rule(&[1, 2], &[[0, 0], [1, 1], [2, 0], [2, 1]]);
//!     let mut desk = Desk::open(&trolley)?;
//!     desk.enter(3)?;
//!     desk.turns(4)?;
//!     assert_eq!(desk.ran_into(3)?, Some(1)); // its search has just run into the second rule
//!     while desk.turns(u16::MAX)?.working {}
//!     assert_eq!(desk.options(3, 0)?.count(), 3); // all options of feature 0 are left
//!
//!     desk.choose(3, 2, 0)?;
//!     while desk.turns(u16::MAX)?.working {}
//!     assert_eq!(desk.options(3, 1)?.to_string(), "0,2"); // options 0 and 2 of feature 1
//!     assert_eq!(desk.example(3, 1, 2)?.to_string(), "1 2 0"); // a build with option 2 of feature 1
//!     assert_eq!(desk.alternatives(3, 2)?.to_string(), "0,1"); // option 1 of feature 2 could replace the choice
//!
//!     let refusal = desk.choose(3, 1, 1).unwrap_err();
//!     assert_eq!(refusal, Refusal::OptionNotLeft);
//!     assert_eq!(
//!         refusal.to_string(),
//!         "the option is not left: no build that the choices allow has it (refusal 37)"
//!     );
//!     Ok(())
//! }
//! ```
//!
//! What is proved and what is assumed stands in the repository's README. This crate itself is not proved, but tested: it
//! hands numbers over and back. It adds by type what the proofs ask of a run: a desk, its board and its catalogue stay
//! together from opening on. A desk is moved as [bytes](Desk::to_bytes).
//!
//! Seats, features, options, rules and how many they are, are `usize` throughout. Where the archive's own numbers are shown (a
//! catalogue's lists, the arrays of a seat's record, the board), they have the archive's types.
//!
//! What will grow is marked so: refusals, states, errors, and the fields of [`Place`] and [`Turns`]. A `match` on them needs
//! an arm for the rest, and a pattern of fields ends with `..`.
//!
//! The archive is x86-64 code for Linux. On another processor or system this crate can be checked and documented, and what
//! would link it fails with words; so does a build with an archive whose records have another [layout](LAYOUT).
//!
//! The search of a job is exponential in the worst case, and takes many turns on a large catalogue. How the features are
//! numbered matters much: number those of many rules first.

#![warn(missing_docs)]
#![warn(unsafe_op_in_unsafe_fn)]

mod answers;
mod board;
mod bytes;
mod catalogue;
mod desk;
#[allow(missing_docs)]
mod ffi;
mod refusal;
mod seat;

pub use answers::{Example, OptionsIter, OptionsLeft, Turns};
pub use board::Board;
pub use bytes::FromBytesError;
pub use catalogue::{Catalogue, UnevenRow};
pub use desk::Desk;
pub use ffi::LAYOUT;
pub use refusal::Refusal;
pub use seat::{Place, Seat, State};

/// This crate's version, which the C header and `./nethazel --version` have too.
///
/// ```
/// println!("nethazel {}, layout {}", nethazel::VERSION, nethazel::LAYOUT);
/// ```
pub const VERSION: &str = env!("CARGO_PKG_VERSION");

/// The examples of the package's README are tested as those of the documentation are.
#[cfg(doctest)]
#[doc = include_str!("../README.md")]
struct Readme;

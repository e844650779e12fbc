//! A safe wrapper of the proved sheet library, `libentry.a`.
//!
//! A *sheet* is a run of *orders*, each a length and that many bytes. A run answers them one after another in a fresh session. An
//! answer is a length, an outcome byte and, where the order was not refused, the bytes of its value. What the orders are and what
//! they answer is said in document 01.
//!
//! [`SheetBuilder`] frames orders, [`Checker`] runs a sheet, [`Answers`] takes the output apart:
//!
//! ```
//! use sheet_checker::{Checker, Outcome, Reason, SheetBuilder};
//!
//! let mut sheet = SheetBuilder::new();
//! sheet.push(&[0, 7, 0]); // a variable at site 7, slot 0
//! sheet.push(&[5, 1, 0]); // that variable resolved
//! sheet.push(&[5, 1, 9]); // a variable that was not issued
//!
//! let run = Checker::new().run_to_vec(sheet.bytes());
//! assert_eq!(run.report.reason, Reason::UsedUp);
//! for answer in run.answers() {
//!     match answer.outcome {
//!         Outcome::Done => println!("{:02x?}", answer.value),
//!         Outcome::Refused(refusal) => println!("refused: {refusal}"),
//!     }
//! }
//! ```
//!
//! # What is proved, and what is assumed here
//!
//! The library's entry is proved to end on every input, to touch only what it is lent, and to give the answers of its definition.
//! This crate is not proved. It assumes that the declaration of `sheet_run` is that of the library, that the compilers are right,
//! and that the calling thread has [`STACK_BYTES`] of stack left.
//!
//! # Threads
//!
//! The library has no state of its own: a run reads and writes what it is lent, and nothing else. So a [`Checker`] is `Send` and
//! `Sync` as its four vectors are, and several checkers may run at once.

#![deny(missing_docs)]

mod answers;
mod building;
mod ffi;
mod running;

pub use answers::{Answer, Answers, Outcome, Refusal};
pub use building::{read_number, write_number, SheetBuilder};
pub use running::{run_in, Checker, Reason, Report, Run};

/// The words of 32 bits that each of the four work areas has at least.
pub const AREA_WORDS: usize = 16_384;

/// The bytes that a sheet, and an output, has at most.
pub const MAX_BYTES: usize = 16_777_216;

/// The bytes of stack that a run should find: nearly twice the most that was measured.
///
/// Threads of the standard library have 2 MiB unless they are given less:
///
/// ```
/// use sheet_checker::{Checker, STACK_BYTES};
///
/// let small = std::thread::Builder::new().stack_size(STACK_BYTES);
/// let run = small.spawn(|| Checker::new().run_to_vec(&[1, 8])).unwrap().join().unwrap();
/// assert_eq!(run.output, [2, 0, 0]);
/// ```
pub const STACK_BYTES: usize = 524_288;

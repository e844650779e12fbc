//! Runs: the one call of the library, and the areas that it is lent.

use crate::{ffi, Answers, AREA_WORDS, MAX_BYTES};
use std::fmt;

/// Why a run ended.
#[derive(Clone, Copy, Debug, PartialEq, Eq, Hash)]
#[repr(u32)]
pub enum Reason {
    /// 0: the sheet is used up; every order has its answer.
    UsedUp = 0,
    /// 10: the next length is faulty, or goes beyond the sheet. The answers before it stand.
    BadLength = 10,
    /// 11: the next answer does not fit whole. Its order had no effect, and the answers before it stand.
    OutputFull = 11,
    /// 12: the sheet or the output is longer than [`MAX_BYTES`], or an area shorter than [`AREA_WORDS`]. Nothing was done.
    BadSizes = 12,
}

impl Reason {
    /// The number that stands for it: 0, 10, 11 or 12.
    pub fn code(self) -> u32 {
        self as u32
    }

    fn from_code(code: u32) -> Self {
        match code {
            0 => Reason::UsedUp,
            10 => Reason::BadLength,
            11 => Reason::OutputFull,
            12 => Reason::BadSizes,
            _ => {
                unreachable!("reason {code}: libentry.a is not the library that this crate is for")
            }
        }
    }
}

impl fmt::Display for Reason {
    fn fmt(&self, f: &mut fmt::Formatter<'_>) -> fmt::Result {
        f.write_str(match self {
            Reason::UsedUp => "the sheet is used up",
            Reason::BadLength => "the next length is faulty, or goes beyond the sheet",
            Reason::OutputFull => "the next answer does not fit whole",
            Reason::BadSizes => "the sheet or the output is too long, or an area too short",
        })
    }
}

/// What a run returns.
#[derive(Clone, Copy, Debug, PartialEq, Eq, Hash)]
pub struct Report {
    /// Why it ended.
    pub reason: Reason,
    /// How many orders were answered, refused ones among them.
    pub orders: u64,
    /// How many bytes of the output were written.
    pub bytes: usize,
}

/// Runs a sheet in areas of the caller's.
///
/// What the areas hold does not matter. Afterwards all their words are 0; under [`Reason::BadSizes`] they are untouched. The
/// answers stand at the start of the output, and its bytes from [`Report::bytes`] on are untouched.
///
/// ```
/// use sheet_checker::{run_in, Reason, AREA_WORDS};
///
/// let mut areas = vec![7; 4 * AREA_WORDS];
/// let mut parts = areas.chunks_exact_mut(AREA_WORDS);
/// let lent = [(); 4].map(|()| parts.next().unwrap());
/// let mut out = [0xff; 8];
/// let report = run_in(&[1, 8], &mut out, lent);
/// assert_eq!((report.reason, report.orders, report.bytes), (Reason::UsedUp, 1, 3));
/// assert_eq!(out, [2, 0, 0, 0xff, 0xff, 0xff, 0xff, 0xff]);
/// assert!(areas.iter().all(|&word| word == 0));
/// ```
pub fn run_in(sheet: &[u8], out: &mut [u8], areas: [&mut [u32]; 4]) -> Report {
    let (mut orders, mut bytes) = (0, 0);
    let code = ffi::run(sheet, out, areas, &mut orders, &mut bytes);
    Report {
        reason: Reason::from_code(code),
        orders,
        bytes: bytes as usize,
    }
}

/// A run whose output was allocated for it.
#[derive(Clone, Debug, PartialEq, Eq)]
pub struct Run {
    /// What the run returned.
    pub report: Report,
    /// The answers, and nothing behind them.
    pub output: Vec<u8>,
}

impl Run {
    /// The answers, one after another.
    pub fn answers(&self) -> Answers<'_> {
        Answers::new(&self.output)
    }
}

/// The four work areas, 256 KiB, kept for one run after another.
///
/// Every run begins a fresh session: nothing goes over from one to the next. The areas are zero between runs.
#[derive(Clone, Debug)]
pub struct Checker {
    areas: [Vec<u32>; 4],
}

impl Checker {
    /// Allocates the areas.
    pub fn new() -> Self {
        Self {
            areas: [(); 4].map(|()| vec![0; AREA_WORDS]),
        }
    }

    /// Runs a sheet and writes the answers to the start of an output. Bytes from [`Report::bytes`] on are untouched.
    ///
    /// ```
    /// use sheet_checker::{Answers, Checker, Reason};
    ///
    /// let mut checker = Checker::new();
    /// let mut out = [0; 8];
    /// let report = checker.run(&[3, 0, 7, 0, 1, 8], &mut out);
    /// assert_eq!(report.reason, Reason::UsedUp);
    /// assert_eq!(report.orders, 2);
    /// assert_eq!(out[..report.bytes], [3, 0, 1, 0, 2, 0, 0]);
    /// assert_eq!(Answers::new(&out[..report.bytes]).count(), 2);
    ///
    /// let report = checker.run(&[3, 0, 7, 0, 1, 8], &mut out[..6]);
    /// assert_eq!(report.reason, Reason::OutputFull);
    /// assert_eq!((report.orders, report.bytes), (1, 4));
    /// ```
    pub fn run(&mut self, sheet: &[u8], out: &mut [u8]) -> Report {
        run_in(sheet, out, self.areas.each_mut().map(Vec::as_mut_slice))
    }

    /// Runs a sheet with an output of the size that it needs, up to [`MAX_BYTES`].
    ///
    /// Where an answer does not fit, the whole sheet is run again with a larger output, with at most three runs in all; what is
    /// handed back is the last of them. So [`Reason::OutputFull`] here means that the answers do not fit into [`MAX_BYTES`].
    ///
    /// ```
    /// use sheet_checker::{Checker, Reason};
    ///
    /// let run = Checker::new().run_to_vec(&[3, 0, 7, 0, 1, 8]);
    /// assert_eq!(run.report.reason, Reason::UsedUp);
    /// assert_eq!(run.output, [3, 0, 1, 0, 2, 0, 0]);
    /// ```
    pub fn run_to_vec(&mut self, sheet: &[u8]) -> Run {
        let mut room = FIRST_ROOM;
        loop {
            let mut output = vec![0; room];
            let report = self.run(sheet, &mut output);
            if report.reason == Reason::OutputFull && room < MAX_BYTES {
                room *= GROWTH;
                continue;
            }
            output.truncate(report.bytes);
            output.shrink_to_fit();
            return Run { report, output };
        }
    }
}

// The outputs that are tried have 65,536, 1,048,576 and 16,777,216 bytes, the last of which is MAX_BYTES.
const FIRST_ROOM: usize = 65_536;
const GROWTH: usize = 16;

impl Default for Checker {
    fn default() -> Self {
        Self::new()
    }
}

#[cfg(test)]
mod tests {
    use super::*;

    #[test]
    fn reasons_have_their_numbers() {
        for code in [0, 10, 11, 12] {
            assert_eq!(Reason::from_code(code).code(), code);
        }
    }

    #[test]
    fn the_last_room_is_the_limit() {
        assert_eq!(FIRST_ROOM * GROWTH * GROWTH, MAX_BYTES);
    }

    #[test]
    fn areas_are_zero_between_runs() {
        let mut checker = Checker::new();
        for sheet in [&[3, 0, 7, 0][..], &[3, 0, 7], &[0]] {
            checker.run(sheet, &mut [0; 4]);
            assert!(checker.areas.iter().flatten().all(|&word| word == 0));
        }
    }
}

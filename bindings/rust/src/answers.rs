//! Answers: the output of a run, taken apart.

use crate::read_number;
use std::fmt;
use std::iter::FusedIterator;

/// Why an order was refused. It then left the session as it was.
///
/// ```
/// use sheet_checker::Refusal;
///
/// assert_eq!(Refusal::Level.code(), 4);
/// assert_eq!(Refusal::from_code(4), Some(Refusal::Level));
/// assert_eq!(Refusal::Level.to_string(), "a term at level 201");
/// ```
#[derive(Clone, Copy, Debug, PartialEq, Eq, Hash)]
#[repr(u8)]
pub enum Refusal {
    /// 1: the order ends early, or has bytes after its last field.
    Length = 1,
    /// 2: a kind, tag, code, access or range kind that is not listed.
    Unlisted = 2,
    /// 3: a number that is not in the shortest form, or is too large.
    Number = 3,
    /// 4: a term at level 201.
    Level = 4,
    /// 5: members that do not strictly rise.
    Members = 5,
    /// 6: orders 3 to 5 name a variable that was not issued.
    NotIssued = 6,
    /// 7: kept nodes and this order's nodes exceed 2,048.
    Nodes = 7,
    /// 8: a new variable while 512 exist.
    Variables = 8,
    /// 9: orders 19 and 20 visit terms with more than 8,192 children.
    Children = 9,
    /// 13: order 21 has a sign over 1, a low bound above the high one, or bounds that no integer type holds.
    Bounds = 13,
}

impl Refusal {
    /// All ten, by rising code.
    pub const ALL: [Refusal; 10] = [
        Refusal::Length,
        Refusal::Unlisted,
        Refusal::Number,
        Refusal::Level,
        Refusal::Members,
        Refusal::NotIssued,
        Refusal::Nodes,
        Refusal::Variables,
        Refusal::Children,
        Refusal::Bounds,
    ];

    /// The outcome byte that stands for it, 1 to 9 or 13.
    pub fn code(self) -> u8 {
        self as u8
    }

    /// The refusal that an outcome byte stands for; none for 0 and for bytes that stand for none.
    pub fn from_code(code: u8) -> Option<Self> {
        Self::ALL.into_iter().find(|refusal| refusal.code() == code)
    }
}

impl fmt::Display for Refusal {
    fn fmt(&self, f: &mut fmt::Formatter<'_>) -> fmt::Result {
        f.write_str(match self {
            Refusal::Length => "the order ends early, or has bytes after its last field",
            Refusal::Unlisted => "a kind, tag, code, access or range kind that is not listed",
            Refusal::Number => "a number that is not in the shortest form, or is too large",
            Refusal::Level => "a term at level 201",
            Refusal::Members => "members that do not strictly rise",
            Refusal::NotIssued => "a variable that was not issued",
            Refusal::Nodes => "kept nodes and this order's nodes exceed 2,048",
            Refusal::Variables => "a new variable while 512 exist",
            Refusal::Children => "more than 8,192 children visited",
            Refusal::Bounds => {
                "a sign over 1, a low bound above the high one, or no integer type that holds both"
            }
        })
    }
}

impl std::error::Error for Refusal {}

/// How an order came out.
#[derive(Clone, Copy, Debug, PartialEq, Eq, Hash)]
pub enum Outcome {
    /// Outcome 0: it was done, and its value follows.
    Done,
    /// It was refused; there is no value.
    Refused(Refusal),
}

impl Outcome {
    /// The outcome that a byte stands for; none for bytes that stand for none.
    pub fn from_code(code: u8) -> Option<Self> {
        match code {
            0 => Some(Outcome::Done),
            _ => Refusal::from_code(code).map(Outcome::Refused),
        }
    }
}

/// The answer of one order.
#[derive(Clone, Copy, Debug, PartialEq, Eq, Hash)]
pub struct Answer<'a> {
    /// Whether it was done.
    pub outcome: Outcome,
    /// The value; empty where the order was refused, or has none.
    pub value: &'a [u8],
}

impl<'a> Answer<'a> {
    /// The value, or the refusal as an error.
    ///
    /// ```
    /// use sheet_checker::{Answers, Refusal};
    ///
    /// let mut answers = Answers::new(&[2, 0, 1, 1, 6]);
    /// assert_eq!(answers.next().unwrap().done(), Ok(&[1][..]));
    /// assert_eq!(answers.next().unwrap().done(), Err(Refusal::NotIssued));
    /// ```
    pub fn done(&self) -> Result<&'a [u8], Refusal> {
        match self.outcome {
            Outcome::Done => Ok(self.value),
            Outcome::Refused(refusal) => Err(refusal),
        }
    }
}

/// The answers of a run, one after another: the first is that of the sheet's first order.
///
/// What a run wrote is answers to its last byte. Other bytes may not be: the iterator then ends before the first that is no
/// answer, and [`Answers::rest`] has what is left.
///
/// ```
/// use sheet_checker::{Answers, Outcome, Refusal};
///
/// let mut answers = Answers::new(&[3, 0, 1, 0, 1, 6]);
/// let first = answers.next().unwrap();
/// assert_eq!((first.outcome, first.value), (Outcome::Done, &[1, 0][..]));
/// let second = answers.next().unwrap();
/// assert_eq!(second.outcome, Outcome::Refused(Refusal::NotIssued));
/// assert_eq!(answers.next(), None);
/// assert!(answers.rest().is_empty());
/// ```
#[derive(Clone, Debug)]
pub struct Answers<'a> {
    rest: &'a [u8],
}

impl<'a> Answers<'a> {
    /// The answers in the bytes that a run wrote.
    pub fn new(written: &'a [u8]) -> Self {
        Self { rest: written }
    }

    /// The bytes that were not handed out yet.
    pub fn rest(&self) -> &'a [u8] {
        self.rest
    }
}

impl<'a> Iterator for Answers<'a> {
    type Item = Answer<'a>;

    fn next(&mut self) -> Option<Answer<'a>> {
        let (length, behind) = read_number(self.rest)?;
        let length = usize::try_from(length).ok()?;
        let (&code, value) = behind.get(..length)?.split_first()?;
        let outcome = Outcome::from_code(code)?;
        if outcome != Outcome::Done && !value.is_empty() {
            return None;
        }
        self.rest = &behind[length..];
        Some(Answer { outcome, value })
    }
}

impl FusedIterator for Answers<'_> {}

#[cfg(test)]
mod tests {
    use super::*;

    #[test]
    fn codes_are_1_to_9_and_13() {
        let codes: Vec<u8> = Refusal::ALL.iter().map(|refusal| refusal.code()).collect();
        assert_eq!(codes, [1, 2, 3, 4, 5, 6, 7, 8, 9, 13]);
        assert_eq!(Outcome::from_code(0), Some(Outcome::Done));
        for refusal in Refusal::ALL {
            let outcome = Outcome::from_code(refusal.code());
            assert_eq!(outcome, Some(Outcome::Refused(refusal)));
        }
        assert_eq!(Refusal::from_code(0), None);
        for code in [10, 11, 12, 14, 255] {
            assert_eq!(Outcome::from_code(code), None);
        }
    }

    #[test]
    fn every_refusal_has_words_of_its_own() {
        for (i, one) in Refusal::ALL.iter().enumerate() {
            for other in &Refusal::ALL[..i] {
                assert_ne!(one.to_string(), other.to_string());
            }
        }
    }

    #[test]
    fn a_long_value() {
        let mut bytes = vec![0xc9, 0x01, 0];
        bytes.extend([7; 200]);
        let mut answers = Answers::new(&bytes);
        assert_eq!(answers.next().unwrap().value, [7; 200]);
        assert_eq!(answers.next(), None);
    }

    #[test]
    fn other_bytes_end_the_answers() {
        let others: [&[u8]; 6] = [
            &[0],
            &[2, 0],
            &[1, 10],
            &[2, 1, 0],
            &[0x80, 0x00],
            &[0xff, 0xff, 0xff, 0xff, 0x0f, 0],
        ];
        for other in others {
            let bytes = [&[2, 0, 1], other].concat();
            let mut answers = Answers::new(&bytes);
            assert!(answers.next().is_some());
            assert_eq!(answers.next(), None);
            assert_eq!(answers.next(), None);
            assert_eq!(answers.rest(), other);
        }
    }
}

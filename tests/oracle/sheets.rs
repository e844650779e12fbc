//! Whole sheets: orders 0 to 8 by Kagari's Solver, the others by orders.rs. Kagari has no orders 21 and 22: the first is read
//! and refused by document 02, the second as order 4 is, and where one of them would be answered the sheet is left.
//!
//! Standard input is a run of sheets: room for answers, length, each four bytes with the low byte first, and the sheet.
//! For each one come out: the reason, a byte; orders answered, bytes of answers, four bytes each; the answers.

use crate::format::{Read as Parsed, Reader, Refused, put_number};
use crate::kagari::{TypeId, within_nodes};
use crate::orders;
use crate::solver::Solver;
use crate::standins::{CancellationToken, ExprId, TypeRefId};
use std::cell::Cell;
use std::collections::HashSet;
use std::io::{BufWriter, Read, Write};

const VARIABLES: usize = 512;
const MOST_BYTES: usize = 16_777_216;
/// Nodes that the Rust may meet in one order. Beyond them it is not asked.
const MET: usize = 400_000;
/// The reason for a sheet that was left as it would meet too many.
pub const LEFT: u8 = 255;
/// The reason for a sheet that was left at an order 22.
pub const NOT_IN_RUST: u8 = 253;
/// The reason for a sheet that was left at an order 21.
pub const RANGE_NOT_IN_RUST: u8 = 252;
const RANGED: u8 = 21;
const STRICT: u8 = 22;

#[derive(PartialEq, Eq, Hash)]
enum Place {
    Expression(u32, u32),
    Hole(u32),
}

#[derive(Default)]
struct Session {
    solver: Solver,
    places: HashSet<Place>,
    kept: usize,
}

/// An order's answer without its length, or None where the Rust would have to meet too many nodes, to request a range or to pose a
/// strict pair.
type Answer = Option<Vec<u8>>;

fn outcome(value: Parsed<Answer>) -> Answer {
    match value {
        Ok(value) => value.map(|value| [vec![0], value].concat()),
        Err(Refused(refusal)) => Some(vec![refusal]),
    }
}

/// A bound of an order 21: a byte for the sign, and a size of 64 bits.
struct Bound {
    sign: u8,
    size: u64,
}

impl Bound {
    fn read(fields: &mut Reader) -> Parsed<Bound> {
        let (sign, high, low) = (fields.byte()?, fields.number()?, fields.number()?);
        Ok(Bound { sign, size: u64::from(high) << 32 | u64::from(low) })
    }

    fn value(&self) -> i128 {
        if self.sign == 1 { -i128::from(self.size) } else { i128::from(self.size) }
    }
}

/// Refusal 13. A type that holds a negative number and another one is signed; all that 64 bits hold is in I64 or U64.
fn refuse_bounds(low: &Bound, high: &Bound) -> Parsed<()> {
    let (least, most) = (low.value(), high.value());
    let held = if least < 0 { i64::try_from(least).is_ok() && i64::try_from(most).is_ok() } else { u64::try_from(most).is_ok() };
    if low.sign > 1 || high.sign > 1 || least > most || !held { Err(Refused(13)) } else { Ok(()) }
}

impl Session {
    fn answer(&mut self, order: &[u8]) -> Answer {
        match order.first() {
            Some(kind) if *kind <= 8 || *kind == RANGED || *kind == STRICT => outcome(self.value(*kind, &order[1..])),
            _ => Some(orders::answer(order, self.kept)),
        }
    }

    /// Refusal 8, for a place that is new.
    fn place(&mut self, place: Place) -> Parsed<()> {
        if !self.places.contains(&place) && self.solver.issued() >= VARIABLES {
            return Err(Refused(8));
        }
        self.places.insert(place);
        Ok(())
    }

    fn value(&mut self, kind: u8, fields: &[u8]) -> Parsed<Answer> {
        let mut fields = Reader::new(fields).keeping(self.kept).with_issued(self.solver.issued());
        let solver = &mut self.solver;
        match kind {
            0 => {
                let (site, slot) = (fields.number()?, fields.number()?);
                fields.end()?;
                self.place(Place::Expression(site, slot))?;
                Ok(Some(orders::bytes_of(&self.solver.variable(ExprId(site), slot as usize))))
            }
            1 => {
                let (site, fallback) = (fields.number()?, fields.code()?);
                fields.end()?;
                self.place(Place::Expression(site, 1))?;
                let solver = &mut self.solver;
                Ok(term(within_nodes(MET, || solver.numeric_variable(ExprId(site), fallback))))
            }
            2 => {
                let site = fields.number()?;
                fields.end()?;
                self.place(Place::Hole(site))?;
                let solver = &mut self.solver;
                Ok(term(within_nodes(MET, || solver.annotation_hole(TypeRefId(site)))))
            }
            3 => {
                let term = fields.term(1)?;
                fields.end()?;
                Ok(within_nodes(MET, || solver.defer_never(&term)).map(|()| vec![]))
            }
            4 | STRICT => {
                let checks = fields.number()?;
                let (left, right) = (fields.term(1)?, fields.term(1)?);
                fields.end()?;
                if kind == STRICT {
                    return Ok(None);
                }
                let (before, token) = (solver.revision, CancellationToken(Cell::new(checks)));
                let answer = within_nodes(MET, || solver.constrain(&left, &right, &token));
                // The nodes of a pair that bound nothing are not kept.
                if solver.revision != before {
                    self.kept = fields.nodes();
                }
                Ok(answer.map(|answer| match answer {
                    Ok(compatible) => vec![compatible.into()],
                    Err(_) => vec![2],
                }))
            }
            5 => {
                let whole = fields.term(1)?;
                fields.end()?;
                Ok(term(within_nodes(MET, || solver.resolve(&whole))))
            }
            RANGED => {
                let (site, _) = (fields.number()?, fields.code()?);
                let (low, high) = (Bound::read(&mut fields)?, Bound::read(&mut fields)?);
                fields.end()?;
                refuse_bounds(&low, &high)?;
                self.place(Place::Expression(site, 1))?;
                Ok(None)
            }
            6 => {
                fields.end()?;
                Ok(within_nodes(MET, || solver.apply_numeric_defaults()).map(|bound| vec![bound.into()]))
            }
            7 => {
                fields.end()?;
                Ok(within_nodes(MET, || solver.apply_never_defaults()).map(|bound| vec![bound.into()]))
            }
            _ => {
                fields.end()?;
                let mut out = Vec::new();
                put_number(&mut out, solver.revision);
                Ok(Some(out))
            }
        }
    }
}

fn term(found: Option<TypeId>) -> Answer {
    found.map(|term| orders::bytes_of(&term))
}

/// The reason, the orders answered, the answers.
pub fn run(data: &[u8], room: usize) -> (u8, u32, Vec<u8>) {
    let (mut out, mut answered) = (Vec::new(), 0);
    if data.len() > MOST_BYTES || room > MOST_BYTES {
        return (12, 0, out);
    }
    let (mut sheet, mut session) = (Reader::new(data), Session::default());
    while !sheet.is_used_up() {
        let Some(order) = sheet.number().ok().and_then(|length| sheet.part(length)) else {
            return (10, answered, out);
        };
        let Some(answer) = session.answer(order) else {
            let reason = match order.first() {
                Some(&RANGED) => RANGE_NOT_IN_RUST,
                Some(&STRICT) => NOT_IN_RUST,
                _ => LEFT,
            };
            return (reason, answered, out);
        };
        let mut framed = Vec::new();
        put_number(&mut framed, answer.len());
        framed.extend(answer);
        if framed.len() > room - out.len() {
            return (11, answered, out);
        }
        out.extend(framed);
        answered += 1;
    }
    (0, answered, out)
}

/// Four bytes, or None at the end of the input.
pub fn word(from: &mut impl Read) -> Option<u32> {
    let mut bytes = [0; 4];
    from.read_exact(&mut bytes).ok()?;
    Some(u32::from_le_bytes(bytes))
}

pub fn serve() {
    let mut from = std::io::stdin().lock();
    let mut to = BufWriter::new(std::io::stdout().lock());
    while let (Some(room), Some(length)) = (word(&mut from), word(&mut from)) {
        let mut sheet = vec![0; length as usize];
        from.read_exact(&mut sheet).expect("the sheet is whole");
        let (reason, orders, out) = run(&sheet, room as usize);
        let head = [vec![reason], orders.to_le_bytes().to_vec(), (out.len() as u32).to_le_bytes().to_vec()].concat();
        to.write_all(&head).and_then(|()| to.write_all(&out)).expect("standard output can be written");
    }
    to.flush().expect("standard output can be written");
}

//! The Rust's side: Kagari's Solver and functions, each sheet with a session of its own, the answers in one buffer that is
//! used again. Refusals 8 and 9 are not looked for; no sheet that is timed comes to them.

use crate::format::{Read, Reader, Refused, put_number, put_term};
use crate::kagari::TypeId;
use crate::orders;
use crate::solver::Solver;
use crate::standins::{CancellationToken, ExprId, TypeRefId};
use crate::{Sheet, Side};
use std::cell::Cell;

#[derive(Default)]
pub struct Rust {
    out: Vec<u8>,
    answer: Vec<u8>,
}

#[derive(Default)]
struct Session {
    solver: Solver,
    kept: usize,
}

impl Side for Rust {
    fn run(&mut self, sheet: &Sheet) -> (u32, u64, &[u8]) {
        self.out.clear();
        let (mut session, mut orders) = (Session::default(), 0);
        let mut rest = Reader::new(&sheet.data);
        while !rest.is_used_up() {
            let Some(order) = rest.number().ok().and_then(|length| rest.part(length)) else {
                return (10, orders, &self.out);
            };
            self.answer.clear();
            session.answer(order, &mut self.answer);
            let before = self.out.len();
            put_number(&mut self.out, self.answer.len());
            if self.out.len() + self.answer.len() > sheet.room {
                self.out.truncate(before);
                return (11, orders, &self.out);
            }
            self.out.extend_from_slice(&self.answer);
            orders += 1;
        }
        (0, orders, &self.out)
    }
}

impl Session {
    /// Puts the outcome and the value.
    fn answer(&mut self, order: &[u8], out: &mut Vec<u8>) {
        match order.first() {
            Some(kind) if *kind <= 8 => {
                out.push(0);
                if let Err(Refused(refusal)) = self.value(*kind, &order[1..], out) {
                    out[0] = refusal;
                }
            }
            _ => out.extend(orders::answer(order, self.kept)),
        }
    }

    fn value(&mut self, kind: u8, fields: &[u8], out: &mut Vec<u8>) -> Read<()> {
        let mut fields = Reader::new(fields).keeping(self.kept).with_issued(self.solver.issued());
        match kind {
            0..=2 => put_term(out, &self.variable(kind, &mut fields)?),
            3 => {
                let term = fields.term(1)?;
                fields.end()?;
                self.solver.defer_never(&term);
            }
            4 => out.push(self.constrain(&mut fields)?),
            5 => {
                let term = fields.term(1)?;
                fields.end()?;
                put_term(out, &self.solver.resolve(&term));
            }
            _ => {
                fields.end()?;
                match kind {
                    6 => out.push(self.solver.apply_numeric_defaults().into()),
                    7 => out.push(self.solver.apply_never_defaults().into()),
                    _ => put_number(out, self.solver.revision),
                }
            }
        }
        Ok(())
    }

    /// Orders 0 to 2.
    fn variable(&mut self, kind: u8, fields: &mut Reader) -> Read<TypeId> {
        let site = fields.number()?;
        match kind {
            0 => {
                let slot = fields.number()?;
                fields.end()?;
                Ok(self.solver.variable(ExprId(site), slot as usize))
            }
            1 => {
                let fallback = fields.code()?;
                fields.end()?;
                Ok(self.solver.numeric_variable(ExprId(site), fallback))
            }
            _ => {
                fields.end()?;
                Ok(self.solver.annotation_hole(TypeRefId(site)))
            }
        }
    }

    fn constrain(&mut self, fields: &mut Reader) -> Read<u8> {
        let checks = fields.number()?;
        let (left, right) = (fields.term(1)?, fields.term(1)?);
        fields.end()?;
        let (before, token) = (self.solver.revision, CancellationToken(Cell::new(checks)));
        let answer = self.solver.constrain(&left, &right, &token);
        // The nodes of a pair that bound nothing are not kept.
        if self.solver.revision != before {
            self.kept = fields.nodes();
        }
        Ok(match answer {
            Ok(compatible) => compatible.into(),
            Err(_) => 2,
        })
    }
}

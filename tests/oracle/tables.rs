//! Counts of orders by kind, outcome and answer, of runs by reason and family.

use crate::format::{Read, Reader};
use crate::kagari::TypeId;
use crate::orders;
use crate::sheets::{LEFT, NOT_IN_RUST, RANGE_NOT_IN_RUST};
use std::collections::BTreeMap;

const QUESTIONS: [&str; 7] = ["never", "integer", "concrete", "unresolved", "unknown", "self type", "projection"];

#[derive(Default)]
pub struct Tables {
    /// Each is the words of a line and how often it was met.
    counts: BTreeMap<String, u64>,
}

/// The orders of a sheet, and what stands behind them.
pub fn orders_of(sheet: &[u8]) -> (Vec<&[u8]>, &[u8]) {
    let (mut reader, mut orders) = (Reader::new(sheet), Vec::new());
    while !reader.is_used_up() {
        let rest = reader.rest();
        let Some(order) = reader.number().ok().and_then(|length| reader.part(length)) else {
            return (orders, rest);
        };
        orders.push(order);
    }
    (orders, &[])
}

impl Tables {
    pub fn add(&mut self, family: u32, sheet: &[u8], reason: u8, answers: &[u8]) {
        self.count(format!("family {family}"));
        match reason {
            LEFT => self.count(format!("left {family}")),
            NOT_IN_RUST => self.count(format!("strict {family}")),
            RANGE_NOT_IN_RUST => self.count(format!("ranged {family}")),
            _ => self.count(format!("reason {reason}")),
        }
        for (order, answer) in orders_of(sheet).0.iter().zip(orders_of(answers).0) {
            self.add_order(order, answer);
        }
    }

    fn count(&mut self, words: String) {
        *self.counts.entry(words).or_default() += 1;
    }

    fn add_order(&mut self, order: &[u8], answer: &[u8]) {
        let row = match order.first() {
            None => "empty".to_string(),
            Some(kind) if *kind > 22 => "other".to_string(),
            Some(kind) => kind.to_string(),
        };
        self.count(format!("outcome {row} {}", answer[0]));
        if answer[0] == 0 {
            for name in names(order, &answer[1..]) {
                self.count(format!("answer {row} {name}"));
            }
        }
    }

    pub fn show(&self) {
        self.counts.iter().for_each(|(words, count)| println!("{words} {count}"));
    }
}

/// What the table says of an unrefused answer.
fn names(order: &[u8], value: &[u8]) -> Vec<&'static str> {
    match order[0] {
        1 | 2 => vec![if value[0] == 1 { "itself" } else { "bound" }],
        4 => vec![["incompatible", "compatible", "cancelled"][usize::from(value[0])]],
        6 | 7 | 9 | 10 | 16 => vec![["no", "yes"][usize::from(value[0])]],
        8 => vec![["0", "1", "more"][usize::from(value[0].min(2))]],
        15 => QUESTIONS.into_iter().zip(value).filter(|(_, bit)| **bit == 1).map(|(name, _)| name).collect(),
        17 => vec![["neither", "for it", "both"][usize::from(value[0] + value[1])]],
        18 if value[0] == 0 => vec!["none"],
        18 => changed(order, &value[1..]),
        5 | 11..=14 | 19 | 20 => changed(order, value),
        _ => vec![],
    }
}

fn changed(order: &[u8], value: &[u8]) -> Vec<&'static str> {
    let Ok(source) = source(order) else {
        return vec![];
    };
    let mut found = vec![if source.starts_with(value) { "same" } else { "changed" }];
    if order[0] >= 19 && errors(value) > errors(source) {
        found.push("new Error");
    }
    found
}

/// The order from the term on that its answer is made of.
fn source(order: &[u8]) -> Read<&[u8]> {
    let mut fields = Reader::new(&order[1..]);
    match order[0] {
        12 => drop(fields.substitution()?),
        13 => drop((fields.substitution()?, fields.parameters()?)),
        14 => drop((fields.definition()?, fields.term(1)?)),
        18 => drop(fields.parameters()?),
        20 => drop(fields.list(orders::rule)?),
        _ => {}
    }
    Ok(fields.rest())
}

/// How many Errors the first term has. An answer deeper than what is read has none here.
fn errors(bytes: &[u8]) -> usize {
    fn count(term: &TypeId) -> usize {
        let mut found = usize::from(*term == TypeId::Error);
        term.map_children(|child| {
            found += count(child);
            TypeId::Unknown
        });
        found
    }
    Reader::new(bytes).term(1).map_or(0, |term| count(&term))
}

//! The deepest sheets end in a thread with the stack that the crate asks for.

use sheet_checker::{Checker, Outcome, Reason, SheetBuilder, STACK_BYTES};
use std::thread::Builder;

/// A term nested through the arguments of a projection's interface, the way of reading that takes most stack.
fn nested(levels: usize) -> Vec<u8> {
    let mut term = [18, 2, 0, 1].repeat(levels - 1);
    term.push(2);
    term.extend([0, 0, 0].repeat(levels - 1));
    term
}

#[test]
fn two_hundred_levels() {
    let (term, walked) = (nested(200), nested(66));
    let mut sheet = SheetBuilder::new();
    // The questions of a term, and the term recovered from itself.
    sheet.push(&[&[15], &term[..]].concat());
    sheet.push(&[&[11], &term[..], &term].concat());
    // Normalising with one rule: the term is its value, or its receiver.
    let projection = [18, 2, 0, 0, 0, 7, 0];
    sheet.push(&[&[20, 1, 0, 0, 0, 2, 7, 0], &term[..], &projection].concat());
    sheet.push(
        &[
            &[20, 1, 0, 0, 0],
            &walked[..],
            &[7, 0, 2, 18],
            &walked,
            &[0, 0, 0, 7, 0],
        ]
        .concat(),
    );
    let run = move || Checker::new().run_to_vec(sheet.bytes());
    let thread = Builder::new().stack_size(STACK_BYTES).spawn(run).unwrap();
    let run = thread.join().unwrap();
    assert_eq!(run.report.reason, Reason::UsedUp);
    assert_eq!(run.report.orders, 4);
    assert!(run.answers().all(|answer| answer.outcome == Outcome::Done));
}

//! Each refusal, from a sheet that gets it, and that the session goes on as it was.

use sheet_checker::{write_number, Checker, Outcome, Refusal, SheetBuilder};

/// A term of so many levels: arrays around Unknown.
fn arrays(levels: usize) -> Vec<u8> {
    let mut term = vec![9; levels - 1];
    term.push(2);
    term
}

/// A tuple of so many nodes, itself among them.
fn wide_tuple(nodes: u32) -> Vec<u8> {
    let mut term = vec![5];
    write_number(&mut term, nodes - 1);
    term.resize(term.len() + nodes as usize - 1, 2);
    term
}

fn order(kind: &[u8], rest: &[u8]) -> Vec<u8> {
    [kind, rest].concat()
}

fn outcome(order: &[u8]) -> Outcome {
    let mut sheet = SheetBuilder::new();
    sheet.push(order);
    let run = Checker::new().run_to_vec(sheet.bytes());
    let mut answers = run.answers();
    let first = answers.next().unwrap().outcome;
    assert_eq!(answers.next(), None);
    first
}

#[test]
fn refusals_in_reading() {
    assert_eq!(outcome(&[]), Outcome::Refused(Refusal::Length));
    assert_eq!(outcome(&[8, 0]), Outcome::Refused(Refusal::Length));
    assert_eq!(outcome(&[21]), Outcome::Refused(Refusal::Length));
    assert_eq!(outcome(&[23]), Outcome::Refused(Refusal::Unlisted));
    assert_eq!(outcome(&[15, 20]), Outcome::Refused(Refusal::Unlisted));
    assert_eq!(outcome(&[2, 0x80, 0x00]), Outcome::Refused(Refusal::Number));
    assert_eq!(
        outcome(&[15, 13, 0, 0, 2, 1, 2, 1, 2]),
        Outcome::Refused(Refusal::Members)
    );
    assert_eq!(outcome(&[5, 1, 0]), Outcome::Refused(Refusal::NotIssued));
}

#[test]
fn bounds() {
    assert_eq!(outcome(&[21, 0, 2, 1, 0, 1, 0, 0, 100]), Outcome::Done);
    // A sign of 2, 1 to 0, and -1 to 2^63.
    for bounds in [
        &[2, 0, 0, 0, 0, 1][..],
        &[0, 0, 1, 0, 0, 0],
        &[1, 0, 1, 0, 0x80, 0x80, 0x80, 0x80, 0x08, 0],
    ] {
        assert_eq!(
            outcome(&order(&[21, 0, 2], bounds)),
            Outcome::Refused(Refusal::Bounds)
        );
    }
}

#[test]
fn levels() {
    assert_eq!(outcome(&order(&[15], &arrays(200))), Outcome::Done);
    assert_eq!(
        outcome(&order(&[15], &arrays(201))),
        Outcome::Refused(Refusal::Level)
    );
}

#[test]
fn nodes() {
    assert_eq!(outcome(&order(&[15], &wide_tuple(2_048))), Outcome::Done);
    assert_eq!(
        outcome(&order(&[15], &wide_tuple(2_049))),
        Outcome::Refused(Refusal::Nodes)
    );
}

#[test]
fn variables() {
    let mut sheet = SheetBuilder::new();
    for site in 0..513 {
        let mut order = vec![0];
        write_number(&mut order, site);
        order.push(0);
        sheet.push(&order);
    }
    // A variable that exists is no new one.
    sheet.push(&[0, 5, 0]);
    let run = Checker::new().run_to_vec(sheet.bytes());
    let outcomes: Vec<Outcome> = run.answers().map(|answer| answer.outcome).collect();
    assert_eq!(outcomes.len(), 514);
    assert!(outcomes[..512].iter().all(|&x| x == Outcome::Done));
    assert_eq!(outcomes[512], Outcome::Refused(Refusal::Variables));
    assert_eq!(outcomes[513], Outcome::Done);
}

#[test]
fn children() {
    // A rule puts a tuple of 1,000 children in the place of a projection, which stands in a tuple so many times.
    let projection = [18, 2, 0, 0, 0, 7, 0];
    let normalise = |times: u8| {
        let rule = [&[1, 0, 0, 0, 2, 7, 0][..], &wide_tuple(1_001)].concat();
        let term = [&[5, times][..], &projection.repeat(times.into())].concat();
        order(&[20], &[rule, term].concat())
    };
    assert_eq!(outcome(&normalise(8)), Outcome::Done);
    assert_eq!(outcome(&normalise(9)), Outcome::Refused(Refusal::Children));
}

#[test]
fn a_refused_order_leaves_the_session() {
    let mut sheet = SheetBuilder::new();
    sheet.push(&[0, 7, 0]); // ?0
    sheet.push(&[4, 9, 1, 0, 4, 2, 0]); // ?0 meets I32, with a byte too much
    sheet.push(&[8]);
    sheet.push(&[5, 1, 0]);
    let run = Checker::new().run_to_vec(sheet.bytes());
    let answers: Vec<_> = run.answers().map(|answer| answer.done()).collect();
    assert_eq!(answers[1], Err(Refusal::Length));
    assert_eq!(answers[2], Ok(&[0][..]));
    assert_eq!(answers[3], Ok(&[1, 0][..]));
}

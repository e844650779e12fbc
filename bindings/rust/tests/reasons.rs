//! Why runs end, and what each leaves.

use sheet_checker::{run_in, Checker, Reason, Report, SheetBuilder, AREA_WORDS, MAX_BYTES};

fn report(reason: Reason, orders: u64, bytes: usize) -> Report {
    Report {
        reason,
        orders,
        bytes,
    }
}

#[test]
fn an_empty_sheet_is_used_up() {
    let run = Checker::new().run_to_vec(&[]);
    assert_eq!(run.report, report(Reason::UsedUp, 0, 0));
    assert_eq!(run.answers().count(), 0);
}

#[test]
fn faulty_lengths() {
    // Beyond the sheet; not shortest; too large.
    let faulty: [&[u8]; 3] = [&[2, 8], &[0x80, 0x00], &[0x80, 0x80, 0x80, 0x80, 0x10]];
    for length in faulty {
        let run = Checker::new().run_to_vec(&[&[1, 8], length].concat());
        assert_eq!(run.report, report(Reason::BadLength, 1, 3));
        assert_eq!(run.output, [2, 0, 0]);
    }
}

#[test]
fn every_room_of_the_output() {
    // Answers of 4, 2 and 3 bytes.
    let mut sheet = SheetBuilder::new();
    sheet.push(&[0, 7, 0]).push(&[]).push(&[8]);
    let all = [3, 0, 1, 0, 1, 1, 2, 0, 0];
    for room in 0..12 {
        let (orders, bytes) = match room {
            0..=3 => (0, 0),
            4..=5 => (1, 4),
            6..=8 => (2, 6),
            _ => (3, 9),
        };
        let reason = if orders == 3 {
            Reason::UsedUp
        } else {
            Reason::OutputFull
        };
        let mut out = [0x5a; 12];
        let found = Checker::new().run(sheet.bytes(), &mut out[..room]);
        assert_eq!(found, report(reason, orders, bytes));
        assert_eq!(out[..bytes], all[..bytes]);
        assert!(out[bytes..].iter().all(|&byte| byte == 0x5a));
    }
}

#[test]
fn sizes_that_are_not_taken() {
    let mut checker = Checker::new();
    let refused = report(Reason::BadSizes, 0, 0);
    let mut large = vec![0; MAX_BYTES + 1];
    assert_eq!(checker.run(&large, &mut [0; 9]), refused);
    assert_eq!(checker.run_to_vec(&large).report, refused);
    assert_eq!(checker.run(&[1, 8], &mut large), refused);
    assert!(large.iter().all(|&byte| byte == 0));
    let taken = checker.run(&[1, 8], &mut large[..MAX_BYTES]);
    assert_eq!(taken, report(Reason::UsedUp, 1, 3));
}

#[test]
fn a_short_area_is_not_taken_and_none_is_touched() {
    for short in 0..4 {
        let mut areas = [(); 4].map(|()| vec![7; AREA_WORDS + 1]);
        areas[short].truncate(AREA_WORDS - 1);
        let mut out = [0x5a; 9];
        let lent = areas.each_mut().map(Vec::as_mut_slice);
        let found = run_in(&[1, 8], &mut out, lent);
        assert_eq!(found, report(Reason::BadSizes, 0, 0));
        assert_eq!(out, [0x5a; 9]);
        assert!(areas.iter().flatten().all(|&word| word == 7));
    }
}

/// A sheet in which ?0 is a tuple of ?1 twice, ?1 one of ?2 twice and so on, and at its end ?0 is resolved; and the size of that
/// term: 2 to the power of `n` variables and one less tuples, of two bytes each.
fn doubled(n: u8) -> (Vec<u8>, usize) {
    let mut sheet = SheetBuilder::new();
    for i in 0..=n {
        sheet.push(&[0, i, 0]);
    }
    for i in 0..n {
        sheet.push(&[4, 1, 1, i, 5, 2, 1, i + 1, 1, i + 1]);
    }
    sheet.push(&[5, 1, 0]);
    (sheet.into_bytes(), (4 << n) - 2)
}

#[test]
fn the_output_grows_until_the_answers_fit() {
    let mut checker = Checker::new();
    for n in [4, 13, 14, 17, 18, 21] {
        let (sheet, size) = doubled(n);
        let run = checker.run_to_vec(&sheet);
        assert_eq!(run.report.reason, Reason::UsedUp);
        assert_eq!(run.report.orders, 2 * u64::from(n) + 2);
        assert_eq!(run.report.bytes, run.output.len());
        let last = run.answers().last().unwrap();
        assert_eq!(last.done().unwrap().len(), size);
        // The same as with room from the start.
        let mut out = vec![0; run.output.len()];
        assert_eq!(checker.run(&sheet, &mut out), run.report);
        assert_eq!(out, run.output);
    }
}

#[test]
fn answers_beyond_the_limit_are_said_not_to_fit() {
    let n = 22;
    let run = Checker::new().run_to_vec(&doubled(n).0);
    assert_eq!(run.report.reason, Reason::OutputFull);
    assert_eq!(run.report.orders, 2 * u64::from(n) + 1);
    assert_eq!(run.answers().count() as u64, run.report.orders);
    assert_eq!(run.output.len(), run.report.bytes);
}

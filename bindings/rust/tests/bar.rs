//! The bar's session of document 01, and what a checker keeps from one run to the next: nothing.

use sheet_checker::{run_in, Checker, Reason, Report, SheetBuilder, AREA_WORDS};

const BAR: [u8; 35] = [
    0x03, 0x00, 0x07, 0x00, 0x03, 0x00, 0x08, 0x00, 0x0c, 0x04, 0x09, 0x09, 0x01, 0x00, 0x09, 0x05,
    0x02, 0x01, 0x01, 0x04, 0x02, 0x07, 0x04, 0x09, 0x01, 0x01, 0x09, 0x01, 0x00, 0x03, 0x05, 0x01,
    0x00, 0x01, 0x08,
];
const ANSWERS: [u8; 25] = [
    0x03, 0x00, 0x01, 0x00, 0x03, 0x00, 0x01, 0x01, 0x02, 0x00, 0x01, 0x02, 0x00, 0x00, 0x07, 0x00,
    0x05, 0x02, 0x01, 0x01, 0x04, 0x02, 0x02, 0x00, 0x01,
];
const USED_UP: Report = Report {
    reason: Reason::UsedUp,
    orders: 6,
    bytes: 25,
};

#[test]
fn the_bytes_of_the_document() {
    let mut out = [0x5a; 64];
    assert_eq!(Checker::new().run(&BAR, &mut out), USED_UP);
    assert_eq!(out[..25], ANSWERS);
    assert_eq!(out[25..], [0x5a; 39]);
}

#[test]
fn an_output_that_just_fits() {
    let mut out = [0; 25];
    assert_eq!(Checker::new().run(&BAR, &mut out), USED_UP);
    assert_eq!(out, ANSWERS);
}

#[test]
fn the_builder_frames_the_same_sheet() {
    let mut sheet = SheetBuilder::new();
    sheet.push(&[0, 7, 0]).push(&[0, 8, 0]);
    sheet.push(&[4, 9, 9, 1, 0, 9, 5, 2, 1, 1, 4, 2]);
    sheet.push(&[4, 9, 1, 1, 9, 1, 0]);
    sheet.push(&[5, 1, 0]).push(&[8]);
    assert_eq!(sheet.bytes(), BAR);
}

#[test]
fn the_answers_one_by_one() {
    let run = Checker::new().run_to_vec(&BAR);
    assert_eq!(run.report, USED_UP);
    assert_eq!(run.output, ANSWERS);
    let mut answers = run.answers();
    let values: Vec<&[u8]> = answers.by_ref().map(|x| x.done().unwrap()).collect();
    let expected: [&[u8]; 6] = [&[1, 0], &[1, 1], &[1], &[0], &[5, 2, 1, 1, 4, 2], &[1]];
    assert_eq!(values, expected);
    assert!(answers.rest().is_empty());
}

#[test]
fn runs_of_one_checker_are_independent() {
    let mut checker = Checker::new();
    assert_eq!(checker.run_to_vec(&BAR).output, ANSWERS);
    // Nothing is issued or bound at the start of a later run.
    let run = checker.run_to_vec(&[3, 5, 1, 0, 1, 8]);
    assert_eq!(run.output, [1, 6, 2, 0, 0]);
    // A run that did not come to its end leaves nothing either.
    assert_eq!(checker.run(&BAR, &mut [0; 9]).reason, Reason::OutputFull);
    assert_eq!(checker.run_to_vec(&BAR).output, ANSWERS);
}

#[test]
fn what_lent_areas_hold_does_not_matter() {
    for words in [AREA_WORDS, AREA_WORDS + 100] {
        let mut areas = [(); 4].map(|()| vec![0xdead_beef; words]);
        let mut out = [0x5a; 64];
        let lent = areas.each_mut().map(Vec::as_mut_slice);
        assert_eq!(run_in(&BAR, &mut out, lent), USED_UP);
        assert_eq!(out[..25], ANSWERS);
        assert!(areas.iter().flatten().all(|&word| word == 0));
    }
}

#[test]
fn checkers_run_at_once() {
    fn sent_and_shared<T: Send + Sync>() {}
    sent_and_shared::<Checker>();
    let threads = [(); 4].map(|()| {
        std::thread::spawn(|| {
            let mut checker = Checker::new();
            (0..100).all(|_| checker.run_to_vec(&BAR).output == ANSWERS)
        })
    });
    assert!(threads.into_iter().all(|thread| thread.join().unwrap()));
}

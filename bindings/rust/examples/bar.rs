//! Runs the bar's session and prints the answers, one to a line: the outcome, then the bytes of the value.

use sheet_checker::{Checker, Outcome, Reason, SheetBuilder};
use std::process::ExitCode;

fn main() -> ExitCode {
    let mut sheet = SheetBuilder::new();
    sheet
        .push(&[0, 7, 0]) // a variable at site 7: ?0
        .push(&[0, 8, 0]) // a variable at site 8: ?1
        .push(&[4, 9, 9, 1, 0, 9, 5, 2, 1, 1, 4, 2]) // Array(?0) meets Array(Tuple(?1, I32))
        .push(&[4, 9, 1, 1, 9, 1, 0]) // ?1 meets Array(?0), which contains it
        .push(&[5, 1, 0]) // ?0 resolved
        .push(&[8]); // the revision

    let run = Checker::new().run_to_vec(sheet.bytes());
    let report = run.report;
    println!(
        "reason {}, {} orders, {} bytes",
        report.reason.code(),
        report.orders,
        report.bytes
    );
    for answer in run.answers() {
        match answer.outcome {
            Outcome::Done => {
                let value: String = answer.value.iter().map(|b| format!(" {b:02x}")).collect();
                println!("0:{value}");
            }
            Outcome::Refused(refusal) => println!("{}: {refusal}", refusal.code()),
        }
    }
    ExitCode::from(u8::from(report.reason != Reason::UsedUp))
}

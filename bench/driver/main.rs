//! Times both sides on the same sheets, in one process. bench/sheets.py builds it and says what is timed.
//!
//!     driver ROUNDS SPAN RUST
//!
//! Standard input is a run of sheets: room for answers, length, each four bytes with the low byte first, and the sheet.
//! Both sides answer all of them once, and the reasons, counts and bytes are compared. Then each side in turn answers all
//! of them again and again for at least SPAN milliseconds, ROUNDS times, or fewer where that takes many seconds. RUST is 0
//! where the Rust is not to be asked.
//! A line comes out: orders, refused orders, the least and the middle processor time of a pass in nanoseconds for us,
//! and for the Rust.

mod clock;
#[path = "../../bindings/rust/src/ffi.rs"]
mod ffi;
#[path = "../../tests/oracle/format.rs"]
#[allow(dead_code)]
mod format;
#[path = "../../tests/oracle/kagari.rs"]
#[allow(dead_code)]
mod kagari;
#[path = "../../tests/oracle/orders.rs"]
mod orders;
mod ours;
mod rust;
#[path = "../../tests/oracle/solver.rs"]
mod solver;
#[path = "../../tests/oracle/standins.rs"]
mod standins;

use format::Reader;
use std::hint::black_box;
use std::io::Read;
use std::time::Instant;

/// Enough for terms of some thousand levels, which the Rust copies, compares and frees level by level.
const STACK: usize = 1 << 30;
const MOST_PASSES: f64 = 1e6;
/// After so many rounds it may end, once so many seconds have passed.
const FEW_ROUNDS: usize = 5;
const LONG: f64 = 3.0;

pub struct Sheet {
    room: usize,
    data: Vec<u8>,
}

/// A side: it answers a sheet into a buffer that it keeps, and gives reason, orders and answers.
pub trait Side {
    fn run(&mut self, sheet: &Sheet) -> (u32, u64, &[u8]);
}

fn word(from: &mut impl Read) -> Option<usize> {
    let mut bytes = [0; 4];
    from.read_exact(&mut bytes).ok()?;
    Some(u32::from_le_bytes(bytes) as usize)
}

fn sheets() -> Vec<Sheet> {
    let mut from = std::io::stdin().lock();
    let mut found = Vec::new();
    while let (Some(room), Some(length)) = (word(&mut from), word(&mut from)) {
        let mut data = vec![0; length];
        from.read_exact(&mut data).expect("the sheet is whole");
        found.push(Sheet { room, data });
    }
    found
}

fn pass(side: &mut dyn Side, sheets: &[Sheet]) {
    for sheet in sheets {
        black_box(side.run(black_box(sheet)));
    }
}

/// Seconds of processor time for each of so many passes.
fn timed(side: &mut dyn Side, sheets: &[Sheet], passes: u32) -> f64 {
    let began = clock::seconds();
    for _ in 0..passes {
        pass(side, sheets);
    }
    (clock::seconds() - began) / f64::from(passes)
}

/// How many passes take so many seconds.
fn passes_in(side: &mut dyn Side, sheets: &[Sheet], span: f64) -> u32 {
    let once = timed(side, sheets, 1).min(timed(side, sheets, 1));
    (span / once).ceil().clamp(1.0, MOST_PASSES) as u32
}

/// The least and the middle time, in nanoseconds.
fn least_and_middle(mut times: Vec<f64>) -> String {
    times.sort_by(f64::total_cmp);
    match times.len() {
        0 => "- -".into(),
        count => format!("{:.0} {:.0}", 1e9 * times[0], 1e9 * times[count / 2]),
    }
}

/// How many answers are refusals.
fn refusals(answers: &[u8]) -> usize {
    let (mut rest, mut found) = (Reader::new(answers), 0);
    while let Some(answer) = rest.number().ok().and_then(|length| rest.part(length)) {
        found += usize::from(answer[0] != 0);
    }
    found
}

/// Orders and refused orders of all sheets; both sides must agree.
fn compared(sides: &mut [Box<dyn Side>], sheets: &[Sheet]) -> (u64, usize) {
    let (mut orders, mut refused) = (0, 0);
    for (number, sheet) in sheets.iter().enumerate() {
        let [first, others @ ..] = &mut *sides else { unreachable!("there is a side") };
        let found = first.run(sheet);
        for other in others {
            assert!(other.run(sheet) == found, "the sides differ at sheet {number}");
        }
        orders += found.1;
        refused += refusals(found.2);
    }
    (orders, refused)
}

fn work(rounds: usize, span: f64, with_rust: bool) {
    let sheets = sheets();
    let room = sheets.iter().map(|sheet| sheet.room).max().unwrap_or(0);
    let mut sides: Vec<Box<dyn Side>> = vec![Box::new(ours::Ours::new(room))];
    if with_rust {
        sides.push(Box::new(rust::Rust::default()));
    }
    let (orders, refused) = compared(&mut sides, &sheets);
    let passes: Vec<u32> = sides.iter_mut().map(|side| passes_in(&mut **side, &sheets, span)).collect();
    let mut times = [Vec::new(), Vec::new()];
    let began = Instant::now();
    for round in 0..rounds {
        if round >= FEW_ROUNDS && began.elapsed().as_secs_f64() > LONG {
            break;
        }
        for (number, side) in sides.iter_mut().enumerate() {
            times[number].push(timed(&mut **side, &sheets, passes[number]));
        }
    }
    let [ours, theirs] = times.map(least_and_middle);
    println!("{orders} {refused} {ours} {theirs}");
}

fn main() {
    let mut numbers = std::env::args().skip(1).map(|word| word.parse::<u32>().expect("the arguments are numbers"));
    let mut next = || numbers.next().expect("there are three arguments");
    let (rounds, span, with_rust) = (next() as usize, f64::from(next()) / 1000.0, next() != 0);
    let thread = std::thread::Builder::new().stack_size(STACK).spawn(move || work(rounds, span, with_rust));
    if thread.expect("a thread can be started").join().is_err() {
        std::process::exit(1);
    }
}

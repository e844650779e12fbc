//! Compares the static library with Kagari's own functions, in one process. tests/judge.py builds it and feeds it.
//!
//! Standard input is a run of frames: eight numbers of four bytes, low byte first, and a sheet. The numbers are the
//! family, which the tables count; the room of the output; the words of the four areas; what output and areas are
//! filled with; the length of the sheet. Each sheet is run by both sides. At the first difference orders are taken out
//! as long as the two differ, the rest is printed in hexadecimal, and the exit status is 1. Else the counts are
//! printed, a line for each, and before them the library's runs of the sheets that the oracle left, which tests/judge.py
//! compares with the reference in Python. With the argument runs the library alone is run, and every run is printed.

mod ffi; // bindings/rust/src/ffi.rs, which tests/judge.py puts beside this file
mod format;
#[allow(dead_code)]
mod kagari;
mod lent;
mod orders;
#[allow(dead_code)]
mod sheets;
mod solver;
mod stack;
mod standins;
mod tables;

use format::put_number;
use lent::{Found, Library, Room};
use std::io::Read;
use std::panic::{AssertUnwindSafe, catch_unwind};
use tables::{Tables, orders_of};

/// The reason for a sheet in which the Rust panics.
const PANICKED: u8 = 254;
/// Bytes that are shown of an order or of answers.
const SHOWN: usize = 400;

/// What the library is to give.
struct Wanted {
    reason: u8,
    orders: u32,
    answers: Vec<u8>,
}

impl Wanted {
    fn of(sheet: &[u8], room: Room) -> Self {
        if room.has_small_area() {
            return Self { reason: 12, orders: 0, answers: Vec::new() };
        }
        let run = catch_unwind(AssertUnwindSafe(|| sheets::run(sheet, room.bytes)));
        let (reason, orders, answers) = run.unwrap_or((PANICKED, 0, Vec::new()));
        Self { reason, orders, answers }
    }

    /// Whether the oracle left the sheet.
    fn is_left(&self) -> bool {
        matches!(self.reason, sheets::LEFT | sheets::NOT_IN_RUST | sheets::RANGE_NOT_IN_RUST)
    }

    /// Whether a run is the wanted one, as far as the oracle went on.
    fn agrees(&self, found: &Found) -> bool {
        let (orders, bytes) = (u64::from(self.orders), &self.answers);
        let same = if self.is_left() {
            found.orders >= orders && found.answers.starts_with(bytes)
        } else {
            (found.reason, found.orders) == (u32::from(self.reason), orders) && found.answers == *bytes
        };
        same && found.touched.is_empty()
    }
}

fn differs(library: &mut Library, sheet: &[u8], room: Room) -> bool {
    !Wanted::of(sheet, room).agrees(&library.run(sheet, room))
}

fn joined(orders: &[&[u8]], rest: &[u8]) -> Vec<u8> {
    let mut sheet = Vec::new();
    for order in orders {
        put_number(&mut sheet, order.len());
        sheet.extend_from_slice(order);
    }
    sheet.extend_from_slice(rest);
    sheet
}

/// The sheet with orders taken out as long as the two sides differ.
fn smallest(library: &mut Library, sheet: &[u8], room: Room) -> Vec<u8> {
    let (mut orders, mut rest) = orders_of(sheet);
    if differs(library, &joined(&orders, &[]), room) {
        rest = &[];
    }
    let mut size = orders.len();
    while size > 0 {
        let mut at = 0;
        while at < orders.len() {
            let fewer = [&orders[..at], &orders[orders.len().min(at + size)..]].concat();
            if differs(library, &joined(&fewer, rest), room) {
                orders = fewer;
            } else {
                at += size;
            }
        }
        size /= 2;
    }
    joined(&orders, rest)
}

fn shown(bytes: &[u8]) -> String {
    let mut words: Vec<String> = bytes.iter().take(SHOWN).map(|byte| format!("{byte:02x}")).collect();
    if bytes.len() > SHOWN {
        words.push(format!(".. ({} bytes)", bytes.len()));
    }
    words.join(" ")
}

fn describe(library: &mut Library, sheet: &[u8], room: Room) {
    let sheet = smallest(library, sheet, room);
    let (wanted, found) = (Wanted::of(&sheet, room), library.run(&sheet, room));
    println!("room {}, areas {:?}, filled with {:08x}, orders:", room.bytes, room.words, room.fill);
    let (orders, rest) = orders_of(&sheet);
    orders.iter().for_each(|order| println!("  {}", shown(order)));
    if !rest.is_empty() {
        println!("  then {}", shown(rest));
    }
    println!("oracle  {}, {} orders: {}", wanted.reason, wanted.orders, shown(&wanted.answers));
    println!("library {}, {} orders: {}", found.reason, found.orders, shown(&found.answers));
    found.touched.iter().for_each(|what| println!("touched {what}"));
}

/// The numbers of a frame, or None at the end of the input.
fn numbers(from: &mut impl Read) -> Option<[usize; 8]> {
    let mut found = [0; 8];
    for number in &mut found {
        *number = sheets::word(from)? as usize;
    }
    Some(found)
}

/// A frame of the input.
struct Frame {
    family: usize,
    room: Room,
    sheet: Vec<u8>,
}

impl Frame {
    fn read(from: &mut impl Read) -> Option<Self> {
        let [family, bytes, a, b, c, d, fill, length] = numbers(from)?;
        let mut sheet = vec![0; length];
        from.read_exact(&mut sheet).expect("the sheet is whole");
        Some(Self { family, room: Room { bytes, words: [a, b, c, d], fill: fill as u32 }, sheet })
    }

    /// The line of a run: family, room, reason, orders, and in hexadecimal the sheet and the answers, each behind an x.
    fn told(&self, run: &Found) -> String {
        let hexadecimal = |bytes: &[u8]| bytes.iter().map(|byte| format!("{byte:02x}")).collect::<String>();
        let (sheet, answers) = (hexadecimal(&self.sheet), hexadecimal(&run.answers));
        format!("run {} {} {} {} x{sheet} x{answers}", self.family, self.room.bytes, run.reason, run.orders)
    }
}

/// Gives whether the two sides agree on all frames.
fn serve() -> bool {
    let mut from = std::io::stdin().lock();
    let (mut library, mut tables, mut left, mut index) = (Library::new(), Tables::default(), Vec::new(), 0);
    while let Some(frame) = Frame::read(&mut from) {
        let (sheet, room) = (&frame.sheet, frame.room);
        let (wanted, found) = (Wanted::of(sheet, room), library.run(sheet, room));
        if !wanted.agrees(&found) {
            println!("differs {index} {}", frame.family);
            describe(&mut library, sheet, room);
            return false;
        }
        if wanted.is_left() {
            left.push(frame.told(&found));
        }
        tables.add(frame.family as u32, sheet, wanted.reason, &wanted.answers);
        index += 1;
    }
    // At the end, as who feeds the frames does not read before.
    left.iter().for_each(|line| println!("{line}"));
    tables.show();
    true
}

/// Prints the library's run of each frame.
fn tell_runs() -> bool {
    let mut from = std::io::stdin().lock();
    let mut library = Library::new();
    while let Some(frame) = Frame::read(&mut from) {
        println!("{}", frame.told(&library.run(&frame.sheet, frame.room)));
    }
    true
}

fn main() {
    // A panic of the Rust is a difference, which is told where it is found.
    std::panic::set_hook(Box::new(|_| {}));
    let runs = std::env::args().nth(1).is_some_and(|word| word == "runs");
    let agreed = stack::on_a_large_stack(if runs { tell_runs } else { serve });
    std::process::exit(i32::from(!agreed));
}

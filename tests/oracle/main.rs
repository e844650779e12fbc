//! Answers orders 9 to 20, or whole sheets, by Kagari's own functions. build.py says how it is made.
//!
//! Orders with their lengths come from standard input, at most 32,768 bytes. Answers with their lengths go to
//! standard output, at most 32,768 bytes, or as many as the argument says. The run stops at a length that is
//! faulty or beyond the input, and before an answer that does not fit whole. With the argument sheets, sheets.rs says
//! what comes and goes.

mod format;
#[allow(dead_code)]
mod kagari;
mod orders;
mod sheets;
mod solver;
mod stack;
mod standins;

use format::{Reader, put_number};
use stack::on_a_large_stack;
use std::io::{Read, Write};

const INPUT: u64 = 32768;
const OUTPUT: usize = 32768;

fn next_order<'a>(sheet: &mut Reader<'a>) -> Option<&'a [u8]> {
    if sheet.is_used_up() {
        return None;
    }
    let length = sheet.number().ok()?;
    sheet.part(length)
}

fn run(data: &[u8], room: usize) -> Vec<u8> {
    let mut sheet = Reader::new(data);
    let mut out = Vec::new();
    while let Some(order) = next_order(&mut sheet) {
        let answer = orders::answer(order, 0);
        let mut framed = Vec::new();
        put_number(&mut framed, answer.len());
        framed.extend(answer);
        if framed.len() > room - out.len() {
            break;
        }
        out.extend(framed);
    }
    out
}

fn main() {
    let room = match std::env::args().nth(1) {
        Some(word) if word == "sheets" => return on_a_large_stack(sheets::serve),
        Some(bytes) => bytes.parse().expect("the argument is a number of bytes"),
        None => OUTPUT,
    };
    let mut data = Vec::new();
    std::io::stdin().take(INPUT).read_to_end(&mut data).expect("standard input can be read");
    let out = on_a_large_stack(move || run(&data, room));
    std::io::stdout().write_all(&out).expect("standard output can be written");
}

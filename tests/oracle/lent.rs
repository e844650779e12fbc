//! What is lent to the static library, between guards, and the call of its entry.

use crate::ffi;

/// Items before and behind each slice that the library is not to touch.
const GUARD: usize = 64;
const GUARD_WORD: u32 = 0xc3a5_5a3c;
const LEAST_WORDS: usize = 16384;
/// What the two counts, and those around them, hold before a run.
const UNSET: u64 = 0x7777_7777_7777_7777;

/// A slice between two guards.
struct Lent<T> {
    all: Vec<T>,
    length: usize,
    guard: T,
}

impl<T: Copy + PartialEq> Lent<T> {
    fn new(guard: T) -> Self {
        Self { all: Vec::new(), length: 0, guard }
    }

    /// So many items, all the same.
    fn fill(&mut self, length: usize, item: T) {
        self.length = length;
        self.all.clear();
        self.all.resize(GUARD, self.guard);
        self.all.resize(GUARD + length, item);
        self.all.resize(GUARD + length + GUARD, self.guard);
    }

    fn items(&self) -> &[T] {
        &self.all[GUARD..GUARD + self.length]
    }

    fn items_mut(&mut self) -> &mut [T] {
        &mut self.all[GUARD..GUARD + self.length]
    }

    fn guarded(&self) -> bool {
        let same = |items: &[T]| items.iter().all(|item| *item == self.guard);
        same(&self.all[..GUARD]) && same(&self.all[GUARD + self.length..])
    }

    /// Whether all items from a place on are the same. Chunks have no early end, so that they are fast.
    fn is(&self, from: usize, item: T) -> bool {
        let same = |chunk: &[T]| chunk.iter().fold(true, |same, other| same & (*other == item));
        self.items()[from..].chunks(1024).all(same)
    }
}

/// How a sheet is run: room of the output, words of the areas, what all of them are filled with.
#[derive(Clone, Copy)]
pub struct Room {
    pub bytes: usize,
    pub words: [usize; 4],
    pub fill: u32,
}

impl Room {
    pub fn has_small_area(&self) -> bool {
        self.words.iter().any(|words| *words < LEAST_WORDS)
    }
}

/// What a run left, and what it touched that it should not.
pub struct Found {
    pub reason: u32,
    pub orders: u64,
    pub answers: Vec<u8>,
    pub touched: Vec<&'static str>,
}

/// The library, with what is lent to it.
pub struct Library {
    sheet: Lent<u8>,
    out: Lent<u8>,
    areas: [Lent<u32>; 4],
    /// The orders are the second, the bytes the fifth.
    counts: [u64; 6],
}

impl Library {
    pub fn new() -> Self {
        let [guard, ..] = GUARD_WORD.to_le_bytes();
        let area = || Lent::new(GUARD_WORD);
        Self {
            sheet: Lent::new(guard),
            out: Lent::new(guard),
            areas: [area(), area(), area(), area()],
            counts: [UNSET; 6],
        }
    }

    pub fn run(&mut self, sheet: &[u8], room: Room) -> Found {
        let [byte, ..] = room.fill.to_le_bytes();
        self.sheet.fill(sheet.len(), 0);
        self.sheet.items_mut().copy_from_slice(sheet);
        self.out.fill(room.bytes, byte);
        for (area, words) in self.areas.iter_mut().zip(room.words) {
            area.fill(words, room.fill);
        }
        let reason = self.call();
        let [_, orders, _, _, bytes, _] = self.counts;
        let within = bytes as usize <= room.bytes;
        let answers = if within { self.out.items()[..bytes as usize].to_vec() } else { Vec::new() };
        let mut touched = self.touched(sheet, room, reason, answers.len());
        if !within {
            touched.push("the count of bytes, which is more than the output has");
        }
        Found { reason, orders, answers, touched }
    }

    /// The reason; the counts stand in their places.
    fn call(&mut self) -> u32 {
        self.counts = [UNSET; 6];
        let [_, orders, _, _, bytes, _] = &mut self.counts;
        let (sheet, out) = (self.sheet.items(), self.out.items_mut());
        let areas = self.areas.each_mut().map(Lent::items_mut);
        ffi::run(sheet, out, areas, orders, bytes)
    }

    /// Output past the answers is as it was; areas are 0, or under 12 as they were; nothing else changed.
    fn touched(&self, sheet: &[u8], room: Room, reason: u32, bytes: usize) -> Vec<&'static str> {
        let [byte, ..] = room.fill.to_le_bytes();
        let word = if reason == 12 { room.fill } else { 0 };
        let around = [0, 2, 3, 5].iter().all(|at| self.counts[*at] == UNSET);
        let guarded = around && self.sheet.guarded() && self.out.guarded() && self.areas.iter().all(Lent::guarded);
        let checks = [
            (guarded, "a guard"),
            (self.sheet.items() == sheet, "the sheet"),
            (self.out.is(bytes, byte), "the output past the answers"),
            (self.areas.iter().all(|area| area.is(0, word)), "an area, which is not left as promised"),
        ];
        checks.iter().filter(|(good, _)| !good).map(|(_, what)| *what).collect()
    }
}

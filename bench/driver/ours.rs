//! Our side: the exported entry. Output and areas are lent once and used again for each sheet.

use crate::{ffi, Sheet, Side};

const WORDS: usize = 16_384;

pub struct Ours {
    out: Vec<u8>,
    areas: [Vec<u32>; 4],
}

impl Ours {
    pub fn new(room: usize) -> Self {
        Self { out: vec![0; room], areas: std::array::from_fn(|_| vec![0; WORDS]) }
    }
}

impl Side for Ours {
    fn run(&mut self, sheet: &Sheet) -> (u32, u64, &[u8]) {
        let (mut orders, mut bytes) = (0, 0);
        let out = &mut self.out[..sheet.room];
        let areas = self.areas.each_mut().map(Vec::as_mut_slice);
        let reason = ffi::run(&sheet.data, out, areas, &mut orders, &mut bytes);
        (reason, orders, &self.out[..bytes as usize])
    }
}

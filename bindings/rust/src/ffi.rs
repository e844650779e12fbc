//! The declaration of the library's entry, and its call with slices. It stands here once for all Rust: the comparison (`tests/oracle`) and
//! the benchmark (`bench/driver`) take this file in. `bindings/declared.py` compares it with `crates/entry/src/lib.rt`.

unsafe extern "C" {
    fn sheet_run(
        sheet: *const u8,
        sheet_len: usize,
        out: *mut u8,
        out_len: usize,
        a: *mut u32,
        a_len: usize,
        b: *mut u32,
        b_len: usize,
        c: *mut u32,
        c_len: usize,
        d: *mut u32,
        d_len: usize,
        orders: *mut u64,
        bytes: *mut u64,
    ) -> u32;
}

/// Runs a sheet in the areas, and gives the reason.
pub fn run(
    sheet: &[u8],
    out: &mut [u8],
    areas: [&mut [u32]; 4],
    orders: &mut u64,
    bytes: &mut u64,
) -> u32 {
    let [a, b, c, d] = areas;
    // SAFETY: each pointer and length is that of a slice that is borrowed until the call returns; the last two pointers are those
    // of borrowed numbers. So all are valid, aligned and not null, and those that are written overlap nothing. The library takes
    // slices of every length and content.
    unsafe {
        sheet_run(
            sheet.as_ptr(),
            sheet.len(),
            out.as_mut_ptr(),
            out.len(),
            a.as_mut_ptr(),
            a.len(),
            b.as_mut_ptr(),
            b.len(),
            c.as_mut_ptr(),
            c.len(),
            d.as_mut_ptr(),
            d.len(),
            orders,
            bytes,
        )
    }
}

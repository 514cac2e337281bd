//! The calls of the proved crate probe.

mod calls {
    extern "C" {
        pub fn probe_check_table(table: *const u8, length: usize, position: *mut usize) -> u32;
        pub fn probe_digits(base: u64, n: u64, out: *mut u8, length: usize) -> usize;
    }
}

/// The code and position of the check of a table.
#[inline]
pub fn check_table(table: &[u8]) -> (u32, usize) {
    // A position that no table has shows a call that does not set it.
    let mut position = usize::MAX;
    // SAFETY: the pointer and the length are those of one slice, and the position is this function's own.
    let code = unsafe { calls::probe_check_table(table.as_ptr(), table.len(), &mut position) };
    (code, position)
}

/// How many digits were written at the start of out.
#[inline]
pub fn digits(base: u64, n: u64, out: &mut [u8]) -> usize {
    // SAFETY: the pointer and the length are those of one slice, which is lent to this call alone.
    unsafe { calls::probe_digits(base, n, out.as_mut_ptr(), out.len()) }
}

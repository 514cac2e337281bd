//! The calls of the proved crate tilde.

mod state;

pub use state::{Resumed, State};

/// The code of "more".
pub const MORE: u32 = 256;

mod calls {
    use crate::state::{Resumed, State};

    extern "C" {
        pub fn tilde_format(
            format: *const u8,
            format_length: usize,
            table: *const u8,
            table_length: usize,
            buffer: *mut u8,
            buffer_length: usize,
            position: *mut usize,
            steps: *mut usize,
            written: *mut usize,
        ) -> u32;
        pub fn tilde_vet(
            format: *const u8,
            format_length: usize,
            kinds: *const u8,
            kinds_length: usize,
            longest: usize,
            position: *mut usize,
            count: *mut usize,
        ) -> u32;
        pub fn tilde_resume(
            format: *const u8,
            format_length: usize,
            table: *const u8,
            table_length: usize,
            window: *mut u8,
            window_length: usize,
            state: State,
        ) -> Resumed;
    }
}

/// A number that no answer holds shows a call that does not set it.
const UNSET: usize = usize::MAX;

/// The code, the position, the steps done and the bytes written at the start of the buffer.
#[inline]
pub fn format(format: &[u8], table: &[u8], buffer: &mut [u8]) -> (u32, usize, usize, usize) {
    let (mut position, mut steps, mut written) = (UNSET, UNSET, UNSET);
    // SAFETY: each pointer and length are those of one slice, of which the buffer is lent to this call alone, and the
    // three numbers are this function's own.
    let code = unsafe {
        calls::tilde_format(
            format.as_ptr(),
            format.len(),
            table.as_ptr(),
            table.len(),
            buffer.as_mut_ptr(),
            buffer.len(),
            &mut position,
            &mut steps,
            &mut written,
        )
    };
    (code, position, steps, written)
}

/// The code, the position and the byte count of a vet.
#[inline]
pub fn vet(format: &[u8], kinds: &[u8], longest: usize) -> (u32, usize, usize) {
    let (mut position, mut count) = (UNSET, UNSET);
    // SAFETY: each pointer and length are those of one slice, and the two numbers are this function's own.
    let code = unsafe {
        calls::tilde_vet(
            format.as_ptr(),
            format.len(),
            kinds.as_ptr(),
            kinds.len(),
            longest,
            &mut position,
            &mut count,
        )
    };
    (code, position, count)
}

/// One window of a line: the code, or `MORE`, the position, the steps, the bytes written at the start of the window, and
/// the state to go on with.
#[inline]
pub fn resume(format: &[u8], table: &[u8], window: &mut [u8], state: State) -> Resumed {
    // SAFETY: each pointer and length are those of one slice, of which the window is lent to this call alone.
    unsafe {
        calls::tilde_resume(
            format.as_ptr(),
            format.len(),
            table.as_ptr(),
            table.len(),
            window.as_mut_ptr(),
            window.len(),
            state,
        )
    }
}

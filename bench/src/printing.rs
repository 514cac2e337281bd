//! The C library's snprintf.

use std::ffi::{c_char, c_int};

extern "C" {
    /// It writes a zero byte behind the text, and answers the length of the text.
    pub fn snprintf(out: *mut c_char, length: usize, format: *const c_char, ...) -> c_int;
}

/// The length of what snprintf writes: a slice, a format, and arguments that are those of its directives.
macro_rules! printed {
    ($out:expr, $format:expr $(, $argument:expr)*) => {{
        let (out, format) = ($out, std::hint::black_box($format));
        // SAFETY: pointer and length are those of one slice; the format and its strings end in a zero byte, and its
        // directives are those of the arguments.
        let length = unsafe {
            $crate::printing::snprintf(out.as_mut_ptr().cast(), out.len(), format.as_ptr() $(, $argument)*)
        };
        length as usize
    }};
}

pub(crate) use printed;

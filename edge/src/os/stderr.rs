//! What is said on standard error. Where that can't be written, as on a full disk, nothing ends by it.

use std::fmt::Arguments;
use std::io::Write;

/// Says a line.
pub fn line(text: Arguments<'_>) {
    // In one write, so that lines of several threads don't mingle.
    let _ = std::io::stderr().write_all(format!("server: {text}\n").as_bytes());
}

/// Says a line, as `format!` makes it.
macro_rules! report {
    ($($text:tt)*) => {
        crate::os::stderr::line(format_args!($($text)*))
    };
}

pub(crate) use report;

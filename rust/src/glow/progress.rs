//! A progress line on standard error: one line that is written over on a terminal, and elsewhere a line at the end.

use gauzespar::Progress;
use std::io::{IsTerminal, Write};

/// Standard error may be closed; then there is nobody to tell.
pub fn tell(progress: Progress) {
    let Progress { row, built, done, total } = progress;
    let mut out = std::io::stderr();
    let last = built && done == total;
    let _ = match (out.is_terminal(), last) {
        (true, true) => writeln!(out, "\r\x1b[Kbuilt {total} rows"),
        (true, false) if !built => write!(out, "\r\x1b[Kbuilding row {row} ({} of {total})", done + 1),
        (false, true) => writeln!(out, "built {total} rows"),
        _ => Ok(()),
    };
}

use std::io::Write;

/// Says that a test was skipped. The test runner would keep what `eprintln!` writes to itself.
pub fn skip(why: &str) {
    std::io::stderr().write_all(format!("skipped: {why}\n").as_bytes()).expect("standard error can be written");
}

//! Answers lines of PROTOCOL.md by the functions of rs_pbrt under the checks of the specification (section 4.3).
//!
//! usage: oracle answer                                        reads lines, and writes an answer for each
//!        oracle vectors STDIN_FILE STDOUT_FILE                writes the stored lines and their answers
//!        oracle compare PROGRAM SEED CALLS [WORKERS]          runs a program on random histories, and compares its answers
mod aim;
mod calls;
mod cases;
mod compare;
mod counting;
mod cover;
mod history;
mod lists;
mod malformed;
#[path = "../shared/numbers.rs"]
mod numbers;
mod own;
mod own_calls;
mod points;
mod protocol;
mod queries;
mod rounds;
#[path = "../shared/stand_ins.rs"]
mod stand_ins;
mod state;
mod store;
#[path = "../shared/table.rs"]
mod table;
mod tables;
mod tally;
#[path = "../shared/writing.rs"]
mod writing;

use compare::compare;
use counting::Run;
use protocol::{parse, LONGEST};
use state::{bad, State};
use std::io::{BufRead, BufWriter, Write};
use writing::{fail, file, number, print_tally};

/// The next line, with no more of it than shows that it is too long; false where there is none.
fn next_line(input: &mut impl BufRead, line: &mut Vec<u8>) -> std::io::Result<bool> {
    line.clear();
    let mut any = false;
    loop {
        let bytes = input.fill_buf()?;
        if bytes.is_empty() {
            return Ok(any);
        }
        any = true;
        let end = bytes.iter().position(|byte| *byte == b'\n');
        let part = &bytes[..end.unwrap_or(bytes.len())];
        line.extend(&part[..part.len().min(LONGEST + 1 - line.len())]);
        let read = part.len() + end.is_some() as usize;
        input.consume(read);
        if end.is_some() {
            return Ok(true);
        }
    }
}

/// Answers standard input.
fn answer() -> std::io::Result<()> {
    let (mut input, mut output) = (std::io::stdin().lock(), BufWriter::new(std::io::stdout().lock()));
    let (mut state, mut line) = (State::new(), Vec::new());
    while next_line(&mut input, &mut line)? {
        let answer = parse(&line).map_or_else(bad, |call| state.checked(&call));
        writeln!(output, "{}", answer.line.0)?;
    }
    output.flush()
}

/// Writes the stored lines, the last with no LF, and their answers. It says how many lines of each class got what.
fn vectors(stdin: &str, stdout: &str) -> std::io::Result<()> {
    let (mut input, mut output, mut run) = (file(stdin), file(stdout), Run::new());
    let mut written = Ok(());
    cases::stored(&mut |class, line| {
        let end = if run.counts.lines == 0 { &b""[..] } else { b"\n" };
        let answer = run.line(class, line).0;
        let now = input.write_all(&[end, line].concat()).and(writeln!(output, "{}", answer));
        if written.is_ok() {
            written = now;
        }
    });
    written.and(input.flush()).and(output.flush())?;
    print_tally(&run.counts.classes);
    eprintln!("{}\n{} builds and queries were answered by the tally", run.counts.summary(), run.counts.tallied);
    Ok(())
}

fn main() {
    calls::check_parts();
    calls::check_clamp();
    let arguments: Vec<String> = std::env::args().skip(1).collect();
    let words: Vec<&str> = arguments.iter().map(String::as_str).collect();
    let done = match words[..] {
        ["answer"] => answer(),
        ["vectors", stdin, stdout] => vectors(stdin, stdout),
        ["compare", program, seed, calls] => compare(program, number(seed), number(calls), 2),
        ["compare", program, seed, calls, workers] => compare(program, number(seed), number(calls), number(workers)),
        _ => fail("usage: oracle answer | vectors STDIN_FILE STDOUT_FILE | compare PROGRAM SEED CALLS [WORKERS]"),
    };
    done.unwrap_or_else(|error| fail(&error.to_string()));
}

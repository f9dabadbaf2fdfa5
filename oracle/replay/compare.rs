//! Runs a program on random histories, and compares its answers with the oracle's.
use crate::cases;
use crate::counting::{Counts, Run};
use crate::history::History;
use crate::numbers::Rng;
use crate::writing::fail;
use std::io::{BufRead, BufReader, Read, Write};
use std::process::{Child, ChildStdin, ChildStdout, Command, Stdio};
use std::sync::mpsc::{sync_channel, Receiver, SyncSender};
use std::sync::Arc;
use std::time::Instant;

/// Lines that begin with what a run begins with, and the answers to them.
#[derive(Default)]
struct Block {
    text: Vec<u8>,
    answers: Vec<u8>,
}

/// The bytes after which a block ends.
const BLOCK: usize = 100_000;
/// How many blocks may wait for the program.
const WAITING: usize = 4;
/// Where a history goes that shows a difference.
const FOLDER: &str = "target/oracle/replay";

#[derive(Default)]
struct Differences {
    count: usize,
    /// What to say of the first.
    first: Option<String>,
}

fn started(program: &str) -> Child {
    let child = Command::new(program).stdin(Stdio::piped()).stdout(Stdio::piped()).spawn();
    child.unwrap_or_else(|error| fail(&format!("{}: {}", program, error)))
}

/// A block of random histories.
fn block(run: &mut Run, rng: &mut Rng, calls: usize) -> Block {
    let mut block = Block::default();
    let mut put = |class: &'static str, text: &[u8]| {
        block.answers.extend(run.line(class, text).0.as_bytes());
        block.answers.push(b'\n');
        block.text.extend(text);
        block.text.push(b'\n');
        (run.counts.calls, block.text.len())
    };
    let mut at = (0, 0);
    History { class: "reset", put: &mut |class, text| at = put(class, text) }.reset();
    while at.0 < calls && at.1 < BLOCK {
        cases::random(rng, &mut |class, text| at = put(class, text));
    }
    block
}

/// Makes blocks until there are enough calls, and gives each to the comparison before it gives it to the program. The last line of
/// all has no LF, unless it is empty: then it would be none.
fn feed(mut input: ChildStdin, seed: u64, calls: usize, blocks: SyncSender<Arc<Block>>) -> Counts {
    let (mut run, rng) = (Run::new(), &mut Rng(seed));
    while run.counts.calls < calls {
        let mut block = block(&mut run, rng, calls);
        if run.counts.calls >= calls && !block.text.ends_with(b"\n\n") {
            block.text.pop();
        }
        let block = Arc::new(block);
        // a program that has ended takes no more
        if blocks.send(block.clone()).is_err() || input.write_all(&block.text).is_err() {
            break;
        }
    }
    run.counts
}

fn lines(bytes: &[u8]) -> impl Iterator<Item = &[u8]> {
    bytes.split_inclusive(|byte| *byte == b'\n')
}

/// What is wrong in a line, with the block up to it kept in a file.
fn first(block: &Block, line: usize, expected: &[u8], got: &[u8], worker: usize) -> String {
    let path = format!("{}/difference-{}", FOLDER, worker);
    let history = lines(&block.text).take(line + 1).collect::<Vec<_>>().concat();
    let kept = std::fs::create_dir_all(FOLDER).and(std::fs::write(&path, history));
    let shown = |bytes: &[u8]| String::from_utf8_lossy(&bytes[..bytes.len().min(2000)]).trim_end().to_string();
    let call = lines(&block.text).nth(line).unwrap_or_default();
    let place = kept.map_or_else(|error| error.to_string(), |()| format!("the lines up to it are in {}", path));
    format!("call:     {}\nexpected: {}\ngot:      {}\n{}", shown(call), shown(expected), shown(got), place)
}

/// Compares the program's answers with those of the blocks. A missing answer is a difference, and so is one too many.
fn watch(output: ChildStdout, blocks: Receiver<Arc<Block>>, worker: usize) -> Differences {
    let (mut output, mut found, mut got) = (BufReader::with_capacity(1 << 16, output), Differences::default(), Vec::new());
    for block in blocks {
        for (line, expected) in lines(&block.answers).enumerate() {
            got.clear();
            let read = output.read_until(b'\n', &mut got);
            if read.is_err() || got != expected {
                found.count += 1;
                found.first.get_or_insert_with(|| first(&block, line, expected, &got, worker));
            }
        }
    }
    got.clear();
    let rest = output.read_to_end(&mut got);
    if rest.is_err() || !got.is_empty() {
        found.count += 1;
        found.first.get_or_insert_with(|| "answers that were not asked for".to_string());
    }
    found
}

fn work(program: &str, seed: u64, calls: usize, worker: usize) -> (Counts, Differences) {
    let mut child = started(program);
    let (Some(input), Some(output)) = (child.stdin.take(), child.stdout.take()) else { fail("no pipes") };
    let (sender, receiver) = sync_channel(WAITING);
    let (counts, mut found) = std::thread::scope(|scope| {
        let watcher = scope.spawn(move || watch(output, receiver, worker));
        let counts = feed(input, seed, calls, sender);
        (counts, watcher.join().unwrap_or_else(|_| fail("the comparison stopped")))
    });
    if !child.wait().is_ok_and(|status| status.success()) {
        found.count += 1;
        found.first.get_or_insert_with(|| "the program failed".to_string());
    }
    (counts, found)
}

/// Compares as many offered calls, by as many threads, each with a program of its own. It ends the oracle with 1 if there is a
/// difference.
pub fn compare(program: &str, seed: u64, calls: u64, workers: u64) -> std::io::Result<()> {
    let start = Instant::now();
    let (mut counts, mut found) = (Counts::default(), Differences::default());
    let (rng, share) = (&mut Rng(seed), calls.div_ceil(workers.max(1)) as usize);
    let seeds: Vec<u64> = (0..workers).map(|_| rng.next()).collect();
    let results: Vec<(Counts, Differences)> = std::thread::scope(|scope| {
        let threads: Vec<_> =
            seeds.iter().enumerate().map(|(worker, seed)| scope.spawn(move || work(program, *seed, share, worker))).collect();
        threads.into_iter().map(|thread| thread.join().unwrap_or_else(|_| fail("the oracle stopped"))).collect()
    });
    for (more, differences) in results {
        counts.add(more);
        found.count += differences.count;
        found.first = found.first.or(differences.first);
    }
    println!("{}", counts.summary());
    println!("{} builds and queries were answered by the tally", counts.tallied);
    if let Some(first) = &found.first {
        println!("the first difference:\n{}", first);
    }
    print!("seed {}, {} lines, {} calls, of which {} ran functions of rs_pbrt, ", seed, counts.lines, counts.calls, counts.ran);
    println!("in {:.0} s, {} differences", start.elapsed().as_secs_f64(), found.count);
    std::process::exit((found.count > 0) as i32)
}

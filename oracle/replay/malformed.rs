//! Lines that are no calls, each made of a line that is one; and lines that are calls, of unusual form.
use crate::history::{History, Put};
use crate::numbers::Rng;
use crate::protocol::{capacity, line, parse, Call, LENT_CAPACITIES, LISTS, LONGEST, MARKS, MOST_WORDS, OWN, OWN_CAPACITIES};

/// What can be done to any line.
pub const EDITS: [&str; 19] = [
    "doubled space",
    "leading space",
    "trailing space",
    "digit more",
    "digit less",
    "upper case",
    "no digit",
    "word more",
    "word less",
    "unknown command",
    "prefix of a command",
    "extension of a command",
    "NUL",
    "CR",
    "tab",
    "byte above 127",
    "number 4294967296",
    "11 digits",
    "leading zeros",
];

/// Lines by themselves.
pub const LINES: [&str; 19] = [
    "empty line",
    "1,999 bytes",
    "2,000 bytes",
    "2,001 bytes",
    "much longer",
    "list 10",
    "channel 3",
    "length above a capacity",
    "put one beyond the end",
    "put far beyond the end",
    "put of 65 words",
    "put of no word",
    "mark above 255",
    "l out of its range",
    "put at the end",
    "put of 64 words",
    "list and channel with zeros",
    "number 4294967295",
    "lengths at the capacities",
];

type Words = Vec<Vec<u8>>;

fn words(line: &[u8]) -> Words {
    line.split(|byte| *byte == b' ').map(|word| word.to_vec()).collect()
}

fn any_byte(word: &[u8], rng: &mut Rng) -> usize {
    rng.below(word.len())
}

/// The place of a word after the command, if there is one.
fn any_word(words: &Words, rng: &mut Rng) -> Option<usize> {
    (words.len() > 1).then(|| rng.between(1, words.len() - 1))
}

/// The place of an INT, a word of fewer digits than BITS have.
fn any_int(words: &Words, rng: &mut Rng) -> Option<usize> {
    let places: Vec<usize> = (1..words.len()).filter(|at| words[*at].len() < 8).collect();
    (!places.is_empty()).then(|| places[rng.below(places.len())])
}

/// A line after an edit, if it is a call and has a place for that.
pub fn edited(edit: usize, line: &[u8], rng: &mut Rng) -> Option<Vec<u8>> {
    parse(line)?;
    let mut words = words(line);
    let command = words[0].clone();
    let at = any_byte(line, rng);
    match EDITS[edit] {
        "doubled space" => words.insert(any_word(&words, rng)?, Vec::new()),
        "leading space" => words.insert(0, Vec::new()),
        "trailing space" => words.push(Vec::new()),
        "digit more" => {
            let word = any_word(&words, rng)?;
            words[word].push(b"0123456789abcdef"[rng.below(16)])
        }
        "digit less" => {
            let word = any_word(&words, rng)?;
            words[word].pop();
        }
        "upper case" => {
            let letters: Vec<usize> = (0..line.len()).filter(|at| line[*at].is_ascii_lowercase()).collect();
            return Some(with(line, letters[rng.below(letters.len())], |byte| byte.to_ascii_uppercase()));
        }
        "no digit" => {
            let word = any_word(&words, rng)?;
            let at = any_byte(&words[word], rng);
            words[word][at] = b"/:`g@-+._x"[rng.below(10)];
        }
        "word more" => words.push([&b"0"[..], b"1", b"00000000", b"3f800000", b"x"][rng.below(5)].to_vec()),
        "word less" => {
            words.remove(any_word(&words, rng)?);
        }
        "unknown command" => words[0] = [&b"stop"[..], b"reset", b"samples", b"w", b"0", b"value", b"bad"][rng.below(7)].to_vec(),
        "prefix of a command" => words[0] = command[..any_byte(&command, rng)].to_vec(),
        "extension of a command" => words[0].push([b's', b'0', b'_', command[0]][rng.below(4)]),
        "NUL" => return Some(with(line, at, |_| 0)),
        "CR" if rng.chance(70) => return Some([line, b"\r"].concat()),
        "CR" => return Some(with(line, at, |_| b'\r')),
        "tab" => {
            let spaces: Vec<usize> = (0..line.len()).filter(|at| line[*at] == b' ').collect();
            return (!spaces.is_empty()).then(|| with(line, spaces[rng.below(spaces.len())], |_| b'\t'));
        }
        "byte above 127" => return Some(with(line, at, |byte| byte | 128)),
        "number 4294967296" => {
            let word = any_int(&words, rng)?;
            words[word] = b"4294967296".to_vec()
        }
        "11 digits" => {
            let word = any_int(&words, rng)?;
            words[word] = format!("{:0>11}", String::from_utf8_lossy(&words[word])).into_bytes();
        }
        _ => {
            let word = any_int(&words, rng)?;
            let zeros = rng.between(1, 10 - words[word].len());
            words[word].splice(0..0, vec![b'0'; zeros]);
        }
    }
    Some(words.join(&b' '))
}

fn with(line: &[u8], at: usize, byte: impl Fn(u8) -> u8) -> Vec<u8> {
    let mut line = line.to_vec();
    line[at] = byte(line[at]);
    line
}

/// As many bytes that begin as calls do.
fn of_bytes(bytes: usize, rng: &mut Rng) -> Vec<u8> {
    let filler = [&b" 00000000"[..], b" ", b"0"][rng.below(3)];
    b"put 8 0".iter().chain(filler.iter().cycle()).take(bytes).copied().collect()
}

/// A `put` of as many words, which are bytes.
fn put_of(list: usize, at: usize, count: usize, rng: &mut Rng) -> Vec<u8> {
    let words = (0..count).map(|_| rng.below(256) as u32).collect();
    line(&Call::Put { list, at, words }).0.into_bytes()
}

fn lengths_above(list: usize) -> Call {
    let (mut lent, mut own) = (LENT_CAPACITIES, OWN_CAPACITIES);
    if list < OWN {
        lent[list] += 1;
        Call::Lens(lent)
    } else {
        own[list - OWN] += 1;
        Call::OwnLens(own)
    }
}

fn any_list(rng: &mut Rng) -> usize {
    rng.below(LISTS)
}

/// A line by itself.
fn line_of(kind: usize, rng: &mut Rng) -> Vec<u8> {
    let list = any_list(rng);
    let text = |text: &str| text.as_bytes().to_vec();
    let coefficients = "0 0 00000000 00000000 00000000 00000000 00000000 3f800000 3f800000 3f800000";
    match LINES[kind] {
        "empty line" => Vec::new(),
        "1,999 bytes" => of_bytes(LONGEST - 1, rng),
        "2,000 bytes" => of_bytes(LONGEST, rng),
        "2,001 bytes" => of_bytes(LONGEST + 1, rng),
        "much longer" => {
            let bytes = [2 * LONGEST, 4096, 8193, 16384][rng.below(4)] + rng.below(9);
            of_bytes(bytes, rng)
        }
        "list 10" => {
            text(["put 10 0 00000000", "fill 10 00000000", "list 10", "list 4294967295", "put 16 0 00000000"][rng.below(5)])
        }
        "channel 3" if rng.chance(50) => text(&format!("pdf {} 3 3f000000", coefficients)),
        "channel 3" => text(&format!("draw {} 3 3f000000 1", coefficients)),
        "length above a capacity" => line(&lengths_above(list)).0.into_bytes(),
        "put one beyond the end" => {
            let count = rng.between(1, MOST_WORDS);
            put_of(list, capacity(list) + 1 - count, count, rng)
        }
        "put far beyond the end" => put_of(list, [capacity(list), capacity(list) + 1, u32::MAX as usize][rng.below(3)], 1, rng),
        "put of 65 words" => put_of(list, 0, MOST_WORDS + 1, rng),
        "put of no word" => put_of(list, 0, 0, rng),
        "mark above 255" if rng.chance(50) => line(&Call::Fill { list: MARKS, word: 256 }).0.into_bytes(),
        "mark above 255" => line(&Call::Put { list: MARKS, at: 3, words: vec![1, [256, 0x80000001][rng.below(2)]] }).0.into_bytes(),
        "l out of its range" => {
            let x = rng.pick(&[0.0, -0.0, 1.0, 1.5, -0.5, 1e-45, f32::from_bits(0x7fffff), f32::INFINITY, f32::NAN]);
            line(&Call::L(x)).0.into_bytes()
        }
        "put at the end" => {
            let count = rng.between(1, MOST_WORDS);
            put_of(list, capacity(list) - count, count, rng)
        }
        "put of 64 words" => put_of(list, 0, MOST_WORDS, rng),
        "list and channel with zeros" if rng.chance(50) => text(&format!("pdf {} 02 3f000000", coefficients)),
        "list and channel with zeros" => {
            text(["list 00", "list 0000000009", "fill 05 00000001", "put 06 00 3f800000"][rng.below(4)])
        }
        "number 4294967295" => {
            let record = ["4294967295 2", "2 4294967295", "4294967295 4294967295"][rng.below(3)];
            let call = ["start", "build"][rng.below(2)];
            text(&format!("{} {} 00000000 3f800000{}", call, record, [" 4294967295", ""][(call == "start") as usize]))
        }
        "lengths at the capacities" if list < OWN => line(&Call::Lens(LENT_CAPACITIES)).0.into_bytes(),
        _ => line(&Call::OwnLens(OWN_CAPACITIES)).0.into_bytes(),
    }
}

/// Each edit of a line of each command, and each line by itself as often.
pub fn stored(put: Put) {
    let rng = &mut Rng(20261102);
    let lines = [
        "lens 3 4 12 3 12 3",
        "ownlens 3 4 12 12",
        "put 7 3 3f800000 7fc00001",
        "fill 3 0badcafe",
        "dump",
        "owndump",
        "list 3",
        "dumpall",
        "start 3 4 3e800000 3fa00000",
        "build 3 4 3e800000 3fa00000 2",
        "sr 3 4 3e800000 3fa00000 00000000 3dcccccd 3f000000 3f800000 3f800000 3f000000 3b23d70a",
        "pdf 3 4 3e800000 3fa00000 00000000 00000000 00000000 3f800000 3f800000 3f800000 1 3b23d70a",
        "draw 3 4 3e800000 3fa00000 00000000 00000000 00000000 3f800000 3f800000 3f800000 2 3f000000 50",
        "sw 3fa00000 3f000000",
        "weights 3f000000",
        "integrate",
        "sample2d 3f000000 3f400000 100",
        "q 40000000",
        "e bf800000",
        "l 3f000000",
    ];
    for (k, line) in lines.into_iter().enumerate() {
        History { class: "lines to edit", put }.line(line.as_bytes());
        for (edit, class) in EDITS.into_iter().enumerate() {
            if let Some(line) = edited(edit, line.as_bytes(), rng) {
                History { class, put }.line(&line);
            }
        }
        if k % 3 == 0 {
            shown(put);
        }
    }
    for (kind, class) in LINES.into_iter().enumerate() {
        let times = if (1..5).contains(&kind) { 2 } else { 5 };
        (0..times).for_each(|_| History { class, put }.line(&line_of(kind, rng)));
        shown(put);
    }
    for list in 0..LISTS {
        History { class: "length above a capacity", put }.call(lengths_above(list));
    }
    shown(put);
}

/// What all lists hold.
fn shown(put: Put) {
    let history = &mut History { class: "lines to edit", put };
    history.dump();
    history.own_dump();
}

/// Lines by themselves, seldom long ones.
pub fn random(rng: &mut Rng, put: Put) {
    for _ in 0..rng.between(2, 8) {
        let kind = rng.below(LINES.len());
        if !(1..5).contains(&kind) || rng.chance(10) {
            History { class: LINES[kind], put }.line(&line_of(kind, rng));
        }
    }
    if rng.chance(20) {
        shown(put);
    }
}

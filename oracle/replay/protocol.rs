//! The lines of PROTOCOL.md: a call as text, and text as a call.
use crate::calls::{Coefficients, Record};
use crate::writing::Line;

/// The number of lists, and what they can hold.
pub const LISTS: usize = 10;
pub const LENT_CAPACITIES: [usize; 6] = [130, 66, 8580, 130, 8580, 130];
pub const OWN_CAPACITIES: [usize; 4] = [130, 130, 8580, 8580];
/// The list of bytes.
pub const MARKS: usize = 5;
/// The first of a caller's own lists.
pub const OWN: usize = 6;
/// The most words that one call of `put` takes.
pub const MOST_WORDS: usize = 64;
/// The most bytes of a line, its LF left out.
pub const LONGEST: usize = 2000;

pub fn capacity(list: usize) -> usize {
    if list < OWN {
        LENT_CAPACITIES[list]
    } else {
        OWN_CAPACITIES[list - OWN]
    }
}

pub enum Call {
    Lens([usize; 6]),
    OwnLens([usize; 4]),
    Put {
        list: usize,
        at: usize,
        words: Vec<u32>,
    },
    Fill {
        list: usize,
        word: u32,
    },
    Dump,
    OwnDump,
    List(usize),
    DumpAll,
    Start(Record),
    Build(Record, u32),
    /// With the world radius.
    Sr(Record, Coefficients, f32),
    /// With the channel and the world radius.
    Pdf(Record, Coefficients, usize, f32),
    /// With the channel, u and the allowance.
    Draw(Record, Coefficients, usize, f32, u32),
    /// eta and the cosine.
    Sw(f32, f32),
    Weights(f32),
    Integrate,
    /// alpha, u and the allowance.
    Sample2d(f32, f32, u32),
    Q(f32),
    E(f32),
    L(f32),
}

// ---- text to calls

/// What is left of a line after the words read, none after the last.
struct Words<'a>(Option<&'a [u8]>);

fn int(word: &[u8]) -> Option<usize> {
    let digits = (1..=10).contains(&word.len()) && word.iter().all(|byte| byte.is_ascii_digit());
    let value = word.iter().fold(0, |value, byte| value * 10 + byte.wrapping_sub(b'0') as u64 % 10);
    (digits && value <= u32::MAX as u64).then_some(value as usize)
}

fn bits(word: &[u8]) -> Option<u32> {
    let digit = |byte: &u8| match byte {
        b'0'..=b'9' => Some((byte - b'0') as u32),
        b'a'..=b'f' => Some((byte - b'a') as u32 + 10),
        _ => None,
    };
    if word.len() != 8 {
        return None;
    }
    word.iter().try_fold(0, |value, byte| Some(value << 4 | digit(byte)?))
}

impl<'a> Words<'a> {
    fn next(&mut self) -> Option<&'a [u8]> {
        let rest = self.0?;
        let end = rest.iter().position(|byte| *byte == b' ');
        self.0 = end.map(|end| &rest[end + 1..]);
        Some(&rest[..end.unwrap_or(rest.len())])
    }

    fn int(&mut self) -> Option<u32> {
        int(self.next()?).map(|value| value as u32)
    }

    /// A number up to the one given.
    fn up_to(&mut self, most: usize) -> Option<usize> {
        int(self.next()?).filter(|value| *value <= most)
    }

    fn bits(&mut self) -> Option<u32> {
        bits(self.next()?)
    }

    fn float(&mut self) -> Option<f32> {
        self.bits().map(f32::from_bits)
    }

    fn channel(&mut self) -> Option<usize> {
        self.up_to(2)
    }

    fn list(&mut self) -> Option<usize> {
        self.up_to(LISTS - 1)
    }

    /// Lengths up to as many capacities.
    fn lengths<const N: usize>(&mut self, capacities: [usize; N]) -> Option<[usize; N]> {
        let mut lengths = [0; N];
        for (length, capacity) in lengths.iter_mut().zip(capacities) {
            *length = self.up_to(capacity)?;
        }
        Some(lengths)
    }

    /// A word of a list. Marks are bytes.
    fn entry(&mut self, list: usize) -> Option<u32> {
        self.bits().filter(|word| list != MARKS || *word < 256)
    }

    fn put(&mut self) -> Option<Call> {
        let list = self.list()?;
        let at = self.up_to(capacity(list))?;
        let mut words = vec![self.entry(list)?];
        while self.0.is_some() {
            words.push(self.entry(list)?);
        }
        (words.len() <= MOST_WORDS && at + words.len() <= capacity(list)).then_some(Call::Put { list, at, words })
    }

    fn fill(&mut self) -> Option<Call> {
        let list = self.list()?;
        Some(Call::Fill { list, word: self.entry(list)? })
    }

    fn record(&mut self) -> Option<Record> {
        Some(Record { n: self.int()?, m: self.int()?, g: self.float()?, eta: self.float()? })
    }

    fn three(&mut self) -> Option<[f32; 3]> {
        Some([self.float()?, self.float()?, self.float()?])
    }

    fn coefficients(&mut self) -> Option<Coefficients> {
        Some(Coefficients { sigma_a: self.three()?, sigma_s: self.three()? })
    }
}

/// The call that a line is, if it is one.
pub fn parse(line: &[u8]) -> Option<Call> {
    if line.len() > LONGEST {
        return None;
    }
    let words = &mut Words(Some(line));
    let call = match words.next()? {
        b"lens" => Call::Lens(words.lengths(LENT_CAPACITIES)?),
        b"ownlens" => Call::OwnLens(words.lengths(OWN_CAPACITIES)?),
        b"put" => words.put()?,
        b"fill" => words.fill()?,
        b"dump" => Call::Dump,
        b"owndump" => Call::OwnDump,
        b"list" => Call::List(words.list()?),
        b"dumpall" => Call::DumpAll,
        b"start" => Call::Start(words.record()?),
        b"build" => Call::Build(words.record()?, words.int()?),
        b"sr" => Call::Sr(words.record()?, words.coefficients()?, words.float()?),
        b"pdf" => Call::Pdf(words.record()?, words.coefficients()?, words.channel()?, words.float()?),
        b"draw" => Call::Draw(words.record()?, words.coefficients()?, words.channel()?, words.float()?, words.int()?),
        b"sw" => Call::Sw(words.float()?, words.float()?),
        b"weights" => Call::Weights(words.float()?),
        b"integrate" => Call::Integrate,
        b"sample2d" => Call::Sample2d(words.float()?, words.float()?, words.int()?),
        b"q" => Call::Q(words.float()?),
        b"e" => Call::E(words.float()?),
        b"l" => Call::L(words.float().filter(|x| (f32::MIN_POSITIVE..1.0).contains(x))?),
        _ => return None,
    };
    words.0.is_none().then_some(call)
}

// ---- calls to text

pub fn name(call: &Call) -> &'static str {
    match call {
        Call::Lens(_) => "lens",
        Call::OwnLens(_) => "ownlens",
        Call::Put { .. } => "put",
        Call::Fill { .. } => "fill",
        Call::Dump => "dump",
        Call::OwnDump => "owndump",
        Call::List(_) => "list",
        Call::DumpAll => "dumpall",
        Call::Start(_) => "start",
        Call::Build(..) => "build",
        Call::Sr(..) => "sr",
        Call::Pdf(..) => "pdf",
        Call::Draw(..) => "draw",
        Call::Sw(..) => "sw",
        Call::Weights(_) => "weights",
        Call::Integrate => "integrate",
        Call::Sample2d(..) => "sample2d",
        Call::Q(_) => "q",
        Call::E(_) => "e",
        Call::L(_) => "l",
    }
}

/// The names of the lines that are about the lists alone, and of the offered calls, Q, E and L among them, with the numbers that
/// refuse them (specification, section 4.3).
pub const OTHERS: [&str; 8] = ["lens", "ownlens", "put", "fill", "dump", "owndump", "list", "dumpall"];
pub const OFFERED: [(&str, &[u32]); 12] = [
    ("start", &[1, 2, 3, 4, 5]),
    ("build", &[1, 2, 3, 4, 5, 6, 7]),
    ("sr", &[1, 2, 3, 4, 5, 6, 8, 11, 12]),
    ("pdf", &[1, 2, 3, 4, 5, 6, 8, 11]),
    ("draw", &[1, 2, 3, 4, 5, 6, 8, 9, 10, 11, 13]),
    ("sw", &[4, 9]),
    ("weights", &[1, 6]),
    ("integrate", &[1, 5, 6]),
    ("sample2d", &[1, 2, 5, 6, 9, 10, 13]),
    ("q", &[]),
    ("e", &[]),
    ("l", &[]),
];

fn with_record(line: Line, r: &Record) -> Line {
    line.then(r.n).then(r.m).floats(&[r.g, r.eta])
}

fn with_coefficients(line: Line, r: &Record, c: &Coefficients) -> Line {
    with_record(line, r).floats(&c.sigma_a).floats(&c.sigma_s)
}

/// The line of a call, also of one that has no such form.
pub fn line(call: &Call) -> Line {
    let head = Line::of(name(call));
    match call {
        Call::Lens(lengths) => head.all(lengths),
        Call::OwnLens(lengths) => head.all(lengths),
        Call::Put { list, at, words } => head.then(list).then(at).words(words),
        Call::Fill { list, word } => head.then(list).word(*word),
        Call::Dump | Call::OwnDump | Call::DumpAll | Call::Integrate => head,
        Call::List(list) => head.then(list),
        Call::Start(r) => with_record(head, r),
        Call::Build(r, row) => with_record(head, r).then(row),
        Call::Sr(r, c, x) => with_coefficients(head, r, c).floats(&[*x]),
        Call::Pdf(r, c, ch, x) => with_coefficients(head, r, c).then(ch).floats(&[*x]),
        Call::Draw(r, c, ch, u, allowance) => with_coefficients(head, r, c).then(ch).floats(&[*u]).then(allowance),
        Call::Sw(x, y) => head.floats(&[*x, *y]),
        Call::Sample2d(alpha, u, allowance) => head.floats(&[*alpha, *u]).then(allowance),
        Call::Weights(x) | Call::Q(x) | Call::E(x) | Call::L(x) => head.floats(&[*x]),
    }
}

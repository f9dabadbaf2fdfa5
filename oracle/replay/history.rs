//! Histories: calls as lines, one after the other.
use crate::calls::{lengths, Coefficients, Record};
use crate::protocol::{line, Call, LISTS, MARKS, MOST_WORDS};

/// Where lines go, each with the name of its class.
pub type Put<'a> = &'a mut dyn FnMut(&'static str, &[u8]);

/// Where the calls of one class go, one after the other.
pub struct History<'a> {
    pub class: &'static str,
    pub put: Put<'a>,
}

impl History<'_> {
    pub fn call(&mut self, call: Call) {
        self.line(line(&call).0.as_bytes());
    }

    /// A line of any bytes.
    pub fn line(&mut self, line: &[u8]) {
        (self.put)(self.class, line)
    }

    /// What a run begins with: no lengths, and zeros.
    pub fn reset(&mut self) {
        self.lens([0; 6]);
        self.call(Call::OwnLens([0; 4]));
        (0..LISTS).for_each(|list| self.fill(list, 0));
    }

    pub fn lens(&mut self, lengths: [usize; 6]) {
        self.call(Call::Lens(lengths));
    }

    /// The lengths that the record asks for.
    pub fn lens_of(&mut self, r: &Record) {
        self.lens(lengths(r).map(|length| length as usize));
    }

    pub fn words(&mut self, list: usize, at: usize, words: &[u32]) {
        for (k, words) in words.chunks(MOST_WORDS).enumerate() {
            self.call(Call::Put { list, at: at + k * MOST_WORDS, words: words.to_vec() });
        }
    }

    pub fn floats(&mut self, list: usize, at: usize, floats: &[f32]) {
        let words: Vec<u32> = floats.iter().map(|x| x.to_bits()).collect();
        self.words(list, at, &words);
    }

    pub fn marks(&mut self, at: usize, marks: &[u8]) {
        let words: Vec<u32> = marks.iter().map(|mark| *mark as u32).collect();
        self.words(MARKS, at, &words);
    }

    /// Both node lists.
    pub fn nodes(&mut self, rho_samples: &[f32], radius_samples: &[f32]) {
        self.floats(0, 0, rho_samples);
        self.floats(1, 0, radius_samples);
    }

    pub fn fill(&mut self, list: usize, word: u32) {
        self.call(Call::Fill { list, word });
    }

    pub fn start(&mut self, r: Record) {
        self.call(Call::Start(r));
    }

    pub fn build(&mut self, r: Record, row: u32) {
        self.call(Call::Build(r, row));
    }

    pub fn sr(&mut self, r: Record, c: Coefficients, x: f32) {
        self.call(Call::Sr(r, c, x));
    }

    pub fn pdf(&mut self, r: Record, c: Coefficients, ch: usize, x: f32) {
        self.call(Call::Pdf(r, c, ch, x));
    }

    pub fn draw(&mut self, r: Record, c: Coefficients, ch: usize, u: f32, allowance: u32) {
        self.call(Call::Draw(r, c, ch, u, allowance));
    }

    pub fn dump(&mut self) {
        self.call(Call::Dump);
    }

    pub fn list(&mut self, list: usize) {
        self.call(Call::List(list));
    }

    pub fn dump_all(&mut self) {
        self.call(Call::DumpAll);
    }

    pub fn own_dump(&mut self) {
        self.call(Call::OwnDump);
    }

    /// A start, and what it left.
    pub fn start_shown(&mut self, r: Record) {
        self.start(r);
        self.dump();
    }

    /// A build, and what it left.
    pub fn build_shown(&mut self, r: Record, row: u32) {
        self.build(r, row);
        self.dump();
    }
}

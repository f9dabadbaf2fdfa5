//! Numbers to make cases from: random ones, the same on every machine, and special ones.
#![allow(dead_code)]

pub struct Rng(pub u64);

impl Rng {
    pub fn next(&mut self) -> u64 {
        self.0 = self.0.wrapping_add(0x9e3779b97f4a7c15);
        let mut z = self.0;
        z = (z ^ (z >> 30)).wrapping_mul(0xbf58476d1ce4e5b9);
        z = (z ^ (z >> 27)).wrapping_mul(0x94d049bb133111eb);
        z ^ (z >> 31)
    }

    pub fn below(&mut self, n: usize) -> usize {
        (self.next() >> 11) as usize % n
    }

    pub fn between(&mut self, least: usize, most: usize) -> usize {
        least + self.below(most - least + 1)
    }

    pub fn chance(&mut self, percent: usize) -> bool {
        self.below(100) < percent
    }

    pub fn bits(&mut self) -> u32 {
        (self.next() >> 32) as u32
    }

    /// From 0 up to 1, 1 left out.
    pub fn unit(&mut self) -> f32 {
        (self.next() >> 40) as f32 / 16777216.0
    }

    /// From one number up to another.
    pub fn within(&mut self, low: f32, high: f32) -> f32 {
        low + (high - low) * self.unit()
    }

    /// Any pattern: NaNs and infinities as often as they come, and more often zeros and special numbers.
    pub fn any(&mut self) -> f32 {
        if self.chance(30) {
            self.pick(&SPECIAL)
        } else {
            f32::from_bits(self.bits())
        }
    }

    pub fn pick(&mut self, list: &[f32]) -> f32 {
        list[self.below(list.len())]
    }

    /// A power of ten between two exponents, times a number from 1 to 2.
    pub fn scale(&mut self, least: i32, most: i32) -> f32 {
        let exponent = least + self.below((most - least + 1) as usize) as i32;
        let mut scale = 1.0f64 + self.unit() as f64;
        for _ in 0..exponent.abs() {
            scale = if exponent < 0 { scale / 10.0 } else { scale * 10.0 };
        }
        scale as f32
    }
}

pub const SPECIAL: [f32; 14] = [
    0.0,
    -0.0,
    1.0,
    -1.0,
    f32::NAN,
    f32::INFINITY,
    f32::NEG_INFINITY,
    f32::MAX,
    f32::MIN,
    f32::MIN_POSITIVE,
    -f32::MIN_POSITIVE,
    1e-45,
    -1e-45,
    1e-6,
];

/// A quiet NaN, one with its sign set, a signalling one, and all bits.
pub fn nans() -> [f32; 4] {
    [0x7fc00000, 0xffc00000, 0x7f800001, 0xffffffff].map(f32::from_bits)
}

pub fn up(x: f32) -> f32 {
    if x == 0.0 {
        f32::from_bits(1)
    } else if x > 0.0 {
        f32::from_bits(x.to_bits() + 1)
    } else {
        f32::from_bits(x.to_bits() - 1)
    }
}

pub fn down(x: f32) -> f32 {
    -up(-x)
}

/// A number with as many neighbours on either side.
pub fn about(x: f32, count: usize) -> Vec<f32> {
    let mut list = vec![x];
    for _ in 0..count {
        list.insert(0, down(list[0]));
        list.push(up(list[list.len() - 1]));
    }
    list
}

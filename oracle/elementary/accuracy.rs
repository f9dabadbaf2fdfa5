//! How far the stand-ins (specification, section 7) are from the functions of Rust's standard library that they stand in for: on
//! every argument for which a stand-in is defined, any NaN equal to any NaN. A distance is in units in the last place; two zeros are
//! 0 apart, and infinity is one beyond the largest number. On Linux std takes the exponential and the logarithm from the C library,
//! which may choose their bodies by the processor.
#[path = "../shared/places.rs"]
mod places;
#[path = "../shared/stand_ins.rs"]
mod stand_ins;

use places::place;
use std::ops::RangeInclusive;

const THREADS: u64 = 2;

/// The version of the C library.
#[cfg(all(target_os = "linux", target_env = "gnu"))]
fn library() -> String {
    extern "C" {
        fn gnu_get_libc_version() -> *const std::ffi::c_char;
    }
    let version = unsafe { std::ffi::CStr::from_ptr(gnu_get_libc_version()) };
    format!("exp and ln of std are expf and logf of glibc {}", version.to_string_lossy())
}

#[cfg(not(all(target_os = "linux", target_env = "gnu")))]
fn library() -> String {
    "exp and ln of std are not those of glibc".to_string()
}

/// How many arguments give something else, the greatest distance, and the first argument that has it.
#[derive(Clone, Copy, Default)]
struct Found {
    differ: u64,
    most: u64,
    at: u32,
}

impl Found {
    fn with(self, later: Found) -> Found {
        let worse = if later.most > self.most || self.differ == 0 { later } else { self };
        Found { differ: self.differ + later.differ, ..worse }
    }
}

/// Q by its text: the nearest to the exact root, told by the squares of the points halfway to its neighbours, exact in f64.
fn nearest_root(x: f32) -> f32 {
    if x.is_nan() || x < 0.0 {
        return f32::NAN;
    }
    if x == 0.0 || x.is_infinite() {
        return x;
    }
    let square_between = |p: f32, q: f32| {
        let halfway = (p as f64 + q as f64) / 2.0;
        halfway * halfway
    };
    let mut root = (x as f64).sqrt() as f32;
    while square_between(root, root.next_up()) < x as f64 {
        root = root.next_up();
    }
    while square_between(root.next_down(), root) > x as f64 {
        root = root.next_down();
    }
    root
}

fn compare(ours: impl Fn(f32) -> f32, std: impl Fn(f32) -> f32, patterns: RangeInclusive<u64>) -> Found {
    let mut found = Found::default();
    for pattern in patterns {
        let x = f32::from_bits(pattern as u32);
        let (one, other) = (ours(x), std(x));
        if one.to_bits() != other.to_bits() && !(one.is_nan() && other.is_nan()) {
            found = found.with(Found { differ: 1, most: place(one).abs_diff(place(other)), at: pattern as u32 });
        }
    }
    found
}

/// A row of the printed table. Patterns of one sign are in the order of their values.
fn print<F, G>(name: &str, ours: F, std: G, from: u64, to: u64)
where
    F: Fn(f32) -> f32 + Copy + Send,
    G: Fn(f32) -> f32 + Copy + Send,
{
    let count = to - from + 1;
    let part = |k: u64| from + count * k / THREADS..=from + count * (k + 1) / THREADS - 1;
    let found = std::thread::scope(|scope| {
        let parts: Vec<_> = (0..THREADS).map(|k| scope.spawn(move || compare(ours, std, part(k)))).collect();
        parts.into_iter().fold(Found::default(), |found, part| found.with(part.join().unwrap()))
    });
    print!("{:32} {:>10} arguments, {} differ, by at most {}", name, count, found.differ, found.most);
    println!("{}", if found.differ > 0 { format!(" (first at bits {:08x})", found.at) } else { String::new() });
}

fn main() {
    println!("{}", library());
    print("E, 0 up to 89", stand_ins::exp, f32::exp, 0x00000000, 0x42b1ffff);
    print("E, 89 and above, NaNs", stand_ins::exp, f32::exp, 0x42b20000, 0x7fffffff);
    print("E, -0 down to -104", stand_ins::exp, f32::exp, 0x80000000, 0xc2d00000);
    print("E, below -104, NaNs", stand_ins::exp, f32::exp, 0xc2d00001, 0xffffffff);
    print("L, 2^-126 up to 1", stand_ins::ln, f32::ln, 0x00800000, 0x3f7fffff);
    print("Q, all", nearest_root, f32::sqrt, 0x00000000, 0xffffffff);
    print("maximum with 0, all", stand_ins::max0, |v| 0f32.max(v), 0x00000000, 0xffffffff);
}

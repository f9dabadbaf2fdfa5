//! The stand-ins for methods of a float, operation by operation as the specification has them (section 7), as the trait to which the
//! cut text's calls go. Whoever implements it can put another method in a stand-in's place.
#![allow(dead_code)]

pub trait StandIns: Into<f32> + Sized {
    fn stand_in_root(self) -> f32 {
        root(self.into())
    }

    fn stand_in_exp(self) -> f32 {
        exp(self.into())
    }

    fn stand_in_ln(self) -> f32 {
        ln(self.into())
    }

    /// The maximum of 0 and v.
    fn stand_in_max(self, v: f32) -> f32 {
        let zero: f32 = self.into();
        assert!(zero.to_bits() == 0);
        max0(v)
    }

    fn stand_in_abs(self) -> f32 {
        let x: f32 = self.into();
        x.abs()
    }
}

/// Q: the hardware's root is the nearest one.
pub fn root(x: f32) -> f32 {
    if x.is_nan() || x < 0.0 {
        f32::NAN
    } else {
        x.sqrt()
    }
}

/// E.
pub fn exp(x: f32) -> f32 {
    if x.is_nan() {
        return f32::NAN;
    }
    if x < -104.0 {
        return 0.0;
    }
    if x >= 89.0 {
        return f32::INFINITY;
    }
    let y = x as f64 / 256.0;
    let mut p = 1.0;
    for k in (1..=10).rev() {
        p = 1.0 + (y / k as f64) * p;
    }
    for _ in 0..8 {
        p *= p;
    }
    p as f32
}

/// L, from 2^-126 up to 1; elsewhere a NaN, which is this port's choice.
pub fn ln(x: f32) -> f32 {
    if !(x >= f32::MIN_POSITIVE && x < 1.0) {
        return f32::NAN;
    }
    let e = (x.to_bits() >> 23) as i32 - 127;
    let m = f32::from_bits(x.to_bits() % (1 << 23) + (127 << 23)) as f64;
    let s = (m - 1.0) / (m + 1.0);
    let z = s * s;
    let mut h = 1.0 / 31.0;
    for k in (1..=29).rev().step_by(2) {
        h = 1.0 / k as f64 + z * h;
    }
    (e as f64 * f64::from_bits(0x3fe62e42fefa39ef) + (2.0 * s) * h) as f32
}

pub fn max0(v: f32) -> f32 {
    if v > 0.0 {
        v
    } else {
        0.0
    }
}

//! Floats as whole numbers.

/// Numbers in the order of their values, neighbours one apart, both zeros at 0.
pub fn place(x: f32) -> i64 {
    let size = (x.to_bits() & 0x7fffffff) as i64;
    if x.is_sign_negative() {
        -size
    } else {
        size
    }
}

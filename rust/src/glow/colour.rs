//! From linear light to the colours of a screen.

/// A colour as SVG writes it, from linear red, green and blue, of which 1 is the brightest.
pub fn srgb(linear: [f64; 3]) -> String {
    let [r, g, b] = linear.map(|value| (companded(value.clamp(0.0, 1.0)) * 255.0).round() as u8);
    format!("#{r:02x}{g:02x}{b:02x}")
}

/// The transfer curve of sRGB (IEC 61966-2-1).
fn companded(linear: f64) -> f64 {
    if linear <= 0.0031308 {
        12.92 * linear
    } else {
        1.055 * linear.powf(1.0 / 2.4) - 0.055
    }
}

/// The light in proportion to `white`; black where there is no white to compare with.
pub fn relative(light: [f64; 3], white: f64) -> [f64; 3] {
    if white > 0.0 {
        light.map(|value| value / white)
    } else {
        [0.0; 3]
    }
}

/// The strongest of three channels.
pub fn strongest(light: [f64; 3]) -> f64 {
    light.into_iter().fold(0.0, f64::max)
}

#[cfg(test)]
mod tests {
    use super::*;

    /// Known pairs: the ends, the middle grey of 18 % and a value on the straight part of the curve.
    #[test]
    fn known_colours() {
        assert_eq!(srgb([0.0, 1.0, 2.0]), "#00ffff");
        assert_eq!(srgb([0.18, 0.5, 0.001]), "#76bc03");
        assert_eq!(srgb([-1.0, f64::NAN, f64::INFINITY]), "#0000ff");
    }

    #[test]
    fn no_light_is_black() {
        assert_eq!(relative([0.0; 3], strongest([0.0; 3])), [0.0; 3]);
        assert_eq!(relative([1.0, 0.5, 0.25], strongest([1.0, 0.5, 0.25])), [1.0, 0.5, 0.25]);
    }
}

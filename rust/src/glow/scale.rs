//! Axes: which range to show, and where the tick marks stand.

/// Tick marks at the multiples of a round step.
#[derive(Clone, Copy, Debug, PartialEq)]
pub struct Ticks {
    step: f64,
    /// How many decimals the numbers at the marks need.
    pub decimals: usize,
}

impl Ticks {
    /// A step of 1, 2 or 5 times a power of ten, of which about `count` fit into the length.
    pub fn along(length: f64, count: usize) -> Ticks {
        let rough = length / count as f64;
        let unit = 10f64.powf(rough.log10().floor());
        let step = [1.0, 2.0, 5.0].map(|k| k * unit).into_iter().find(|step| *step >= rough * 0.999).unwrap_or(10.0 * unit);
        Ticks { step, decimals: (-(step.log10() + 1e-9).floor()).max(0.0) as usize }
    }

    pub fn places(self, low: f64, high: f64) -> impl Iterator<Item = f64> {
        let first = (low / self.step - 1e-9).ceil() as i64;
        let last = (high / self.step + 1e-9).floor() as i64;
        (first..=last).map(move |k| k as f64 * self.step)
    }
}

/// A logarithmic range, as powers of ten.
#[derive(Clone, Copy, Debug, PartialEq)]
pub struct Decades {
    pub low: i32,
    pub high: i32,
}

const MOST_DECADES: i32 = 5;
const FEWEST_DECADES: i32 = 2;

impl Decades {
    /// The range that holds both values, if both are above 0, but at most five decades below the higher one.
    pub fn around(highest: f64, lowest: f64) -> Decades {
        if !(highest.is_normal() && highest > 0.0) {
            return Decades { low: -FEWEST_DECADES, high: 0 };
        }
        let high = highest.log10().ceil() as i32;
        let wanted = if lowest > 0.0 { lowest.log10().floor() as i32 } else { i32::MIN };
        Decades { low: wanted.clamp(high - MOST_DECADES, high - FEWEST_DECADES), high }
    }

    /// How far up the value lies: 0 at the lower end, 1 at the upper.
    pub fn share(self, value: f64) -> f64 {
        (value.log10() - f64::from(self.low)) / f64::from(self.high - self.low)
    }
}

/// A power of ten as people read it.
pub fn power_of_ten(power: i32) -> String {
    match power {
        -5..=-1 => format!("{:.*}", power.unsigned_abs() as usize, 10f64.powi(power)),
        0..=5 => format!("{}", 10f64.powi(power)),
        _ => format!("1e{power}"),
    }
}

#[cfg(test)]
mod tests {
    use super::*;

    #[test]
    fn ticks_are_round() {
        let eight = Ticks::along(8.0, 8);
        assert_eq!(eight, Ticks { step: 1.0, decimals: 0 });
        assert_eq!(eight.places(-1.3, 4.0).collect::<Vec<_>>(), [-1.0, 0.0, 1.0, 2.0, 3.0, 4.0]);
        let fine = Ticks::along(0.35, 7);
        assert_eq!(fine.decimals, 2);
        assert_eq!(fine.places(0.0, 0.35).count(), 8);
        assert_eq!(Ticks::along(3.0, 8), Ticks { step: 0.5, decimals: 1 });
        assert_eq!(Ticks::along(60.0, 8), Ticks { step: 10.0, decimals: 0 });
    }

    #[test]
    fn decades_hold_the_values() {
        assert_eq!(Decades::around(0.3, 0.002), Decades { low: -3, high: 0 });
        assert_eq!(Decades::around(0.3, 1e-30), Decades { low: -5, high: 0 });
        assert_eq!(Decades::around(0.3, 0.0), Decades { low: -5, high: 0 });
        assert_eq!(Decades::around(0.3, 0.2), Decades { low: -2, high: 0 });
        assert_eq!(Decades::around(0.0, 0.0), Decades { low: -2, high: 0 });
    }

    #[test]
    fn shares_of_a_range() {
        let decades = Decades { low: -3, high: 1 };
        for (value, share) in [(0.001, 0.0), (0.1, 0.5), (10.0, 1.0), (1e-5, -0.5)] {
            assert!((decades.share(value) - share).abs() < 1e-12, "{value}");
        }
    }

    #[test]
    fn powers_read_well() {
        let shown = [-6, -3, 0, 2, 6].map(power_of_ten);
        assert_eq!(shown, ["1e-6", "0.001", "1", "100", "1e6"]);
    }
}

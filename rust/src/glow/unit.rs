//! Units of length.

#[derive(Clone, Copy, Debug, PartialEq)]
pub struct Unit {
    pub name: &'static str,
    pub millimetres: f64,
}

pub const UNITS: [Unit; 4] = [
    Unit { name: "mm", millimetres: 1.0 },
    Unit { name: "cm", millimetres: 10.0 },
    Unit { name: "um", millimetres: 0.001 },
    Unit { name: "in", millimetres: 25.4 },
];

pub const MILLIMETRE: Unit = UNITS[0];

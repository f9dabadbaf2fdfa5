//! What cut.rs wrote, twice: by the stand-ins of the specification (section 7), and by the functions of std.
#[path = "stand_ins.rs"]
mod std_functions;

impl crate::stand_ins::StandIns for f32 {}

impl std_functions::StandIns for f32 {
    fn stand_in_root(self) -> f32 {
        self.sqrt()
    }

    fn stand_in_exp(self) -> f32 {
        self.exp()
    }

    fn stand_in_ln(self) -> f32 {
        self.ln()
    }

    fn stand_in_max(self, v: f32) -> f32 {
        self.max(v)
    }
}

macro_rules! reference {
    ($module:ident, $functions:path) => {
        pub mod $module {
            use functions::StandIns;
            use $functions as functions;

            #[allow(dead_code, clippy::all)]
            pub mod reference {
                include!(env!("REFERENCE"));
            }

            /// The clamp of a radiance, by the Rust's own.
            #[allow(dead_code)]
            pub trait StandInClamp {
                fn stand_in_clamp(&self, low: f32, high: f32) -> Self;
            }

            impl StandInClamp for reference::RGBSpectrum {
                fn stand_in_clamp(&self, low: f32, high: f32) -> Self {
                    self.clamp(low, high)
                }
            }
        }
    };
}

reference!(by_stand_ins, crate::stand_ins);
reference!(by_std, super::std_functions);

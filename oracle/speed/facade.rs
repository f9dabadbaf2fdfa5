//! The calls by the library, through the functions of include/gauzespar.h. A call that is refused stops the program.
use crate::library::{Library, Query, Table, ETA, G};

#[path = "../../rust/src/ffi/linked.rs"]
mod linked;

use linked::*;

/// The most rounds that a draw may be allowed.
const ALLOWANCE: u32 = 1000;

pub struct Facade {
    table: Table,
    pub marks: Vec<u8>,
}

fn accepted(number: u32) {
    assert!(number == 0, "a call was refused with {}", number);
}

/// A call of a function that reads the lists: with the record, the six lists with their lengths, and then other arguments.
macro_rules! on_lists {
    ($function:ident, $self:ident, $($after:expr),*) => {{
        let t = &$self.table;
        accepted(unsafe {
            $function(
                t.n,
                t.m,
                G,
                ETA,
                t.rho_samples.as_ptr(),
                t.rho_samples.len(),
                t.radius_samples.as_ptr(),
                t.radius_samples.len(),
                t.profile.as_ptr(),
                t.profile.len(),
                t.rho_eff.as_ptr(),
                t.rho_eff.len(),
                t.profile_cdf.as_ptr(),
                t.profile_cdf.len(),
                $self.marks.as_ptr(),
                $self.marks.len(),
                $($after),*
            )
        })
    }};
}

/// A call of a function that writes the lists: with the record, other arguments, and then the lists. `nodes` is how it takes the
/// two node lists, `as_ptr` or `as_mut_ptr`.
macro_rules! on_rows {
    ($function:ident, $self:ident, $nodes:ident, $($before:expr),*) => {{
        let t = &mut $self.table;
        accepted(unsafe {
            $function(
                t.n,
                t.m,
                G,
                ETA,
                $($before,)*
                t.rho_samples.$nodes(),
                t.rho_samples.len(),
                t.radius_samples.$nodes(),
                t.radius_samples.len(),
                t.profile.as_mut_ptr(),
                t.profile.len(),
                t.rho_eff.as_mut_ptr(),
                t.rho_eff.len(),
                t.profile_cdf.as_mut_ptr(),
                t.profile_cdf.len(),
                $self.marks.as_mut_ptr(),
                $self.marks.len(),
            )
        })
    }};
}

impl Library for Facade {
    fn over(table: &Table) -> Facade {
        Facade { table: table.clone(), marks: vec![1; table.n] }
    }

    fn table(&self) -> Table {
        self.table.clone()
    }

    fn start(&mut self) {
        on_rows!(gauzespar_start, self, as_mut_ptr,);
    }

    fn build(&mut self, row: usize) {
        on_rows!(gauzespar_build, self, as_ptr, row);
    }

    fn make(&mut self) {
        self.start();
        (0..self.table.n).for_each(|row| self.build(row));
    }

    fn take(&mut self, _: &Query) {}

    fn work_out(&mut self, _: &Query) {}

    #[inline(always)]
    fn sr(&self, query: &Query) -> [f32; 3] {
        let ([a_r, a_g, a_b], [s_r, s_g, s_b]) = (query.sigma_a, query.sigma_s);
        let mut radiance = [0.0; 3];
        on_lists!(gauzespar_sr, self, a_r, a_g, a_b, s_r, s_g, s_b, query.radius, radiance.as_mut_ptr(), 3);
        radiance
    }

    #[inline(always)]
    fn pdf_sr(&self, query: &Query) -> f32 {
        let ([a_r, a_g, a_b], [s_r, s_g, s_b]) = (query.sigma_a, query.sigma_s);
        let (channel, radius) = (query.channel as u32, query.radius);
        let mut density = 0.0;
        on_lists!(gauzespar_pdf_sr, self, channel, a_r, a_g, a_b, s_r, s_g, s_b, radius, &mut density, 1);
        density
    }

    #[inline(always)]
    fn sample_sr(&self, query: &Query) -> f32 {
        let ([a_r, a_g, a_b], [s_r, s_g, s_b]) = (query.sigma_a, query.sigma_s);
        let (channel, u) = (query.channel as u32, query.u);
        let (mut drawn, mut rounds) = (0.0, 0);
        let (to_drawn, to_rounds) = (&mut drawn, &mut rounds);
        on_lists!(gauzespar_sample_sr, self, channel, a_r, a_g, a_b, s_r, s_g, s_b, u, ALLOWANCE, to_drawn, 1, to_rounds, 1);
        drawn
    }

    #[inline(always)]
    fn sw(&mut self, eta: f32, cosine: f32) -> [f32; 3] {
        let mut spectrum = [0.0; 3];
        accepted(unsafe { gauzespar_sw(eta, cosine, spectrum.as_mut_ptr(), 3) });
        spectrum
    }

    #[inline(always)]
    fn weights(&self, x: f32) -> Option<(i32, [f32; 4])> {
        let nodes = &self.table.rho_samples;
        let (mut inside, mut offset, mut weights) = (0, 0, [0.0; 4]);
        let to_weights = weights.as_mut_ptr();
        accepted(unsafe { gauzespar_weights(nodes.as_ptr(), nodes.len(), x, &mut inside, 1, &mut offset, 1, to_weights, 4) });
        (inside == 1).then_some((offset, weights))
    }

    #[inline(always)]
    fn integrate(&mut self, row: usize) -> f32 {
        let t = &mut self.table;
        let (nodes, values) = (&t.radius_samples, &t.profile[row * t.m..][..t.m]);
        let cdf = &mut t.profile_cdf[row * t.m..][..t.m];
        let mut sum = 0.0;
        accepted(unsafe {
            let (to_cdf, length) = (cdf.as_mut_ptr(), cdf.len());
            gauzespar_integrate(nodes.as_ptr(), nodes.len(), values.as_ptr(), values.len(), to_cdf, length, &mut sum, 1)
        });
        sum
    }

    #[inline(always)]
    fn sample_2d(&self, alpha: f32, u: f32) -> [f32; 3] {
        let t = &self.table;
        let (mut sample, mut rounds) = ([0.0; 3], 0);
        accepted(unsafe {
            gauzespar_sample_2d(
                t.rho_samples.as_ptr(),
                t.rho_samples.len(),
                t.radius_samples.as_ptr(),
                t.radius_samples.len(),
                t.profile.as_ptr(),
                t.profile.len(),
                t.profile_cdf.as_ptr(),
                t.profile_cdf.len(),
                alpha,
                u,
                ALLOWANCE,
                sample.as_mut_ptr(),
                3,
                &mut rounds,
                1,
            )
        });
        sample
    }
}

//! The calls by the functions of rs_pbrt, with the stand-ins and with the functions of std. None is inlined into the loop that times
//! it.
use crate::library::Material;

/// By the lines of the Rust's `new`.
pub fn sigma_t_and_rho([sigma_a, sigma_s]: Material) -> Material {
    let medium = by_stand_ins::medium_of(sigma_a, sigma_s);
    [medium.sigma_t.c, medium.rho.c]
}

macro_rules! rust {
    ($module:ident) => {
        pub mod $module {
            use crate::library::{Library, Query, Table, ETA, G};
            use crate::references::$module::reference::{
                catmull_rom_weights, compute_beam_diffusion_bssrdf, compute_nodes, compute_row, integrate_catmull_rom, medium,
                sample_catmull_rom_2d, BssrdfTable, RGBEnum, RGBSpectrum, TabulatedBssrdf, Vector3f,
            };

            pub struct Rust(TabulatedBssrdf);

            const CHANNELS: [RGBEnum; 3] = [RGBEnum::Red, RGBEnum::Green, RGBEnum::Blue];

            /// Over a table of nothing, which costs nothing.
            #[inline(always)]
            pub fn medium_of(sigma_a: [f32; 3], sigma_s: [f32; 3]) -> TabulatedBssrdf {
                let table = BssrdfTable {
                    n_rho_samples: 0,
                    n_radius_samples: 0,
                    rho_samples: Vec::new(),
                    radius_samples: Vec::new(),
                    profile: Vec::new(),
                    rho_eff: Vec::new(),
                    profile_cdf: Vec::new(),
                };
                medium(&RGBSpectrum { c: sigma_a }, &RGBSpectrum { c: sigma_s }, ETA, table)
            }

            impl Library for Rust {
                fn over(table: &Table) -> Rust {
                    let mut bssrdf = medium_of([0.0; 3], [0.0; 3]);
                    let table = table.clone();
                    bssrdf.table = BssrdfTable {
                        n_rho_samples: table.n as i32,
                        n_radius_samples: table.m as i32,
                        rho_samples: table.rho_samples,
                        radius_samples: table.radius_samples,
                        profile: table.profile,
                        rho_eff: table.rho_eff,
                        profile_cdf: table.profile_cdf,
                    };
                    Rust(bssrdf)
                }

                fn table(&self) -> Table {
                    let t = &self.0.table;
                    Table {
                        n: t.rho_samples.len(),
                        m: t.radius_samples.len(),
                        rho_samples: t.rho_samples.clone(),
                        radius_samples: t.radius_samples.clone(),
                        profile: t.profile.clone(),
                        rho_eff: t.rho_eff.clone(),
                        profile_cdf: t.profile_cdf.clone(),
                    }
                }

                /// A new table, whose lists are allocated as zeros, and its nodes.
                #[inline(never)]
                fn start(&mut self) {
                    let t = &mut self.0.table;
                    *t = BssrdfTable::new(t.n_rho_samples, t.n_radius_samples);
                    compute_nodes(t);
                }

                #[inline(never)]
                fn build(&mut self, row: usize) {
                    compute_row(G, ETA, &mut self.0.table, row);
                }

                #[inline(never)]
                fn make(&mut self) {
                    compute_beam_diffusion_bssrdf(G, ETA, &mut self.0.table);
                }

                #[inline(always)]
                fn take(&mut self, query: &Query) {
                    self.0.sigma_t.c = query.sigma_t;
                    self.0.rho.c = query.rho;
                }

                #[inline(always)]
                fn work_out(&mut self, query: &Query) {
                    let medium = medium_of(query.sigma_a, query.sigma_s);
                    self.0.sigma_t = medium.sigma_t;
                    self.0.rho = medium.rho;
                }

                #[inline(never)]
                fn sr(&self, query: &Query) -> [f32; 3] {
                    self.0.sr(query.radius).c
                }

                #[inline(never)]
                fn pdf_sr(&self, query: &Query) -> f32 {
                    self.0.pdf_sr(CHANNELS[query.channel], query.radius)
                }

                #[inline(never)]
                fn sample_sr(&self, query: &Query) -> f32 {
                    self.0.sample_sr(CHANNELS[query.channel], query.u)
                }

                #[inline(never)]
                fn sw(&mut self, eta: f32, cosine: f32) -> [f32; 3] {
                    self.0.eta = eta;
                    self.0.sw(&Vector3f { x: 0.0, y: 0.0, z: cosine }).c
                }

                #[inline(never)]
                fn weights(&self, x: f32) -> Option<(i32, [f32; 4])> {
                    let (mut offset, mut weights) = (0, [0.0; 4]);
                    let inside = catmull_rom_weights(&self.0.table.rho_samples, x, &mut offset, &mut weights);
                    inside.then_some((offset, weights))
                }

                #[inline(never)]
                fn integrate(&mut self, row: usize) -> f32 {
                    let t = &mut self.0.table;
                    let m = t.n_radius_samples;
                    integrate_catmull_rom(m, &t.radius_samples, row * m as usize, &t.profile, &mut t.profile_cdf)
                }

                #[inline(never)]
                fn sample_2d(&self, alpha: f32, u: f32) -> [f32; 3] {
                    let t = &self.0.table;
                    let (nodes1, nodes2) = (&t.rho_samples, &t.radius_samples);
                    let (mut value, mut density) = (0.0, 0.0);
                    let (fval, pdf) = (Some(&mut value), Some(&mut density));
                    let position = sample_catmull_rom_2d(nodes1, nodes2, &t.profile, &t.profile_cdf, alpha, u, fval, pdf);
                    [position, value, density]
                }
            }
        }
    };
}

rust!(by_stand_ins);
rust!(by_std);

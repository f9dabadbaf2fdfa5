//! How light that enters tinted silicone leaves it again: beam diffusion tables for subsurface scattering, over a proved library.
//!
//! A [`Table`] has one row for each of a number of albedos and one column for each of a number of radii. Its rows are
//! built one by one, and a tint needs at most twelve of them:
//!
//! ```
//! use gauzespar::{Channel, Coefficients, Record, Refusal, Table, WorldRadius};
//!
//! // 100 albedos by 64 radii, even scattering, index of refraction 1.33.
//! let mut table = Table::start(Record::new(100, 64, 0.0, 1.33))?;
//!
//! // A tint in 1/mm, so that radii are in mm.
//! let tint = Coefficients { sigma_a: [0.032, 0.17, 0.48], sigma_s: [0.74, 0.88, 1.01] };
//! assert_eq!(table.sr(tint, WorldRadius(1.0)), Err(Refusal::RowMissing));
//!
//! let built = table.ensure_rows_for(tint)?;
//! assert_eq!(built, [13, 14, 15, 16, 21, 22, 23, 24, 38, 39, 40, 41]);
//!
//! // The radiance that leaves 1 mm from where light entered, in red, green and blue.
//! assert_eq!(table.sr(tint, WorldRadius(1.0))?, [0.015957786, 0.010558161, 0.004966334]);
//!
//! // A radius to follow light to in the red channel, found in at most 100 rounds.
//! let drawn = table.sample_sr(Channel::Red, tint, 0.5, 100)?;
//! assert_eq!((drawn.radius, drawn.rounds), (WorldRadius(1.9426361), 2));
//! assert!(table.pdf_sr(Channel::Red, tint, drawn.radius)? > 0.0);
//! # Ok::<(), Refusal>(())
//! ```
//!
//! # What is proved, and what is not
//!
//! The functions that are linked are compiled from Rattle, in which a function is compiled only once it is proved to meet its
//! contract: for all inputs they give exactly the bits of the formulas in docs/SPECIFICATION.md with each operation rounded
//! once, where any NaN is equal to any NaN; they refuse exactly what is to be refused, and write only what is to be written.
//! The repository's README leads to the contracts.
//!
//! This crate is not proved. It passes slices to the linked library and hands the answers back. [`Coefficients::rho`] and the
//! choice of rows in [`Table::needed_rows`] are Rust; a mistake there could build too few rows or too many, but could not make
//! a query answer from the wrong ones, since the library itself looks which rows it needs. Tests compare them with the
//! library.
//!
//! # Refusals
//!
//! A call that can be refused does not panic over what it is given. It answers a [`Refusal`], the first that applies, and then
//! has written nothing. Each call lists the numbers that it can give.
//!
//! # Threads
//!
//! Queries take `&self`, and [`Table`] is [`Send`] and [`Sync`], so that threads may query one table at once. Building takes
//! `&mut self`. Nothing is kept or shared between calls.
//!
//! # Linking
//!
//! The build script makes the library with `rt lib` in crates/gauzespar, which proves it first; or it links the archive that the
//! environment variable `GAUZESPAR_STATICLIB` names. The library is for x86-64 processors of level v2.
#![warn(missing_docs)]
#![deny(unsafe_op_in_unsafe_fn, unsafe_code)]

#[allow(unsafe_code)]
mod ffi;
pub mod lent;
mod parameters;
mod refusal;
pub mod spline;
mod table;

pub use parameters::{Channel, Coefficients, Drawn, Record, WorldRadius};
pub use refusal::Refusal;
pub use table::{Progress, Table};

/// The Fresnel term at the cosine of a direction, for an index of refraction: three equal values.
///
/// Refusals: 4, 9.
///
/// ```
/// use gauzespar::{sw, Refusal};
///
/// assert_eq!(sw(1.33, 1.0), Ok([0.33393589; 3]));
/// assert_eq!(sw(0.9, 1.0), Err(Refusal::RefractiveIndex));
/// ```
pub fn sw(eta: f32, cosine: f32) -> Result<[f32; 3], Refusal> {
    let mut spectrum = [0.0; 3];
    Refusal::check(ffi::sw(eta, cosine, &mut spectrum))?;
    Ok(spectrum)
}

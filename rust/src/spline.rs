//! Catmull-Rom splines over a caller's own lists.
use crate::ffi::{self, Draw, Surface};
use crate::Refusal;

/// The weights of interpolation at one place.
///
/// A value there is the sum of `weights[k]` times the value at node `offset + k`, for k from 0 to 3. A weight whose node does
/// not exist is zero.
#[derive(Clone, Copy, Debug, PartialEq)]
pub struct Weights {
    /// The number of the node that the first weight belongs to; -1 in the first interval.
    pub offset: i32,
    /// The four weights.
    pub weights: [f32; 4],
}

impl Weights {
    /// The nodes of nonzero weight, in ascending order.
    pub fn nodes(&self) -> impl Iterator<Item = usize> {
        let Weights { offset, weights } = *self;
        (offset..).zip(weights).filter(|(_, weight)| *weight != 0.0).filter_map(|(node, _)| usize::try_from(node).ok())
    }
}

/// The weights of interpolation at x, or none if x lies outside the nodes or is NaN.
///
/// Refusals: 1, 6.
///
/// ```
/// use gauzespar::spline::{weights, Weights};
///
/// let at = weights(&[0.0, 1.0, 2.0], 0.5)?;
/// assert_eq!(at, Some(Weights { offset: -1, weights: [0.0, 0.4375, 0.625, -0.0625] }));
/// assert_eq!(weights(&[0.0, 1.0, 2.0], 2.5)?, None);
/// # Ok::<(), gauzespar::Refusal>(())
/// ```
pub fn weights(nodes: &[f32], x: f32) -> Result<Option<Weights>, Refusal> {
    let (mut inside, mut offset, mut weights) = (0, 0, [0.0; 4]);
    Refusal::check(ffi::weights(nodes, x, &mut inside, &mut offset, &mut weights))?;
    Ok((inside == 1).then_some(Weights { offset, weights }))
}

/// The integral of the spline through the values at the nodes. Its running sum up to each node goes to `cdf`, which is as long
/// as the nodes.
///
/// Refusals: 1, 5, 6.
///
/// ```
/// let mut cdf = [0.0; 3];
/// let sum = gauzespar::spline::integrate(&[0.0, 1.0, 2.0], &[0.0, 2.0, 4.0], &mut cdf)?;
/// assert_eq!((sum, cdf), (4.0, [0.0, 1.0, 4.0]));
/// # Ok::<(), gauzespar::Refusal>(())
/// ```
pub fn integrate(nodes: &[f32], values: &[f32], cdf: &mut [f32]) -> Result<f32, Refusal> {
    let mut sum = 0.0;
    Refusal::check(ffi::integrate(nodes, values, cdf, &mut sum))?;
    Ok(sum)
}

/// A draw from a table of values.
#[derive(Clone, Copy, Debug, PartialEq)]
pub struct Sample {
    /// Where on the second axis.
    pub position: f32,
    /// The value there.
    pub value: f32,
    /// The density with which the position is drawn.
    pub density: f32,
    /// The rounds made to find it, at least one.
    pub rounds: u32,
}

/// Draws from a table of values over two node lists, with the integrals of its rows in `cdf`: alpha picks the rows that are
/// blended, u from 0 to 1 the place. None if alpha lies outside the first nodes or is NaN.
///
/// Refusals: 1, 2, 5, 6, 9, 10, 13.
///
/// ```
/// let (rows, columns) = ([0.0, 1.0], [0.0, 1.0, 2.0]);
/// let values = [1.0, 1.0, 1.0, 0.0, 0.0, 0.0];
/// let cdf = [0.0, 1.0, 2.0, 0.0, 0.0, 0.0];
/// let sample = gauzespar::spline::sample_2d(&rows, &columns, &values, &cdf, 0.0, 0.75, 20)?;
/// let sample = sample.expect("0 is a node");
/// assert_eq!((sample.position, sample.value, sample.density, sample.rounds), (1.5, 1.0, 0.5, 1));
/// # Ok::<(), gauzespar::Refusal>(())
/// ```
pub fn sample_2d(
    nodes1: &[f32],
    nodes2: &[f32],
    values: &[f32],
    cdf: &[f32],
    alpha: f32,
    u: f32,
    allowance: u32,
) -> Result<Option<Sample>, Refusal> {
    let surface = Surface { nodes1, nodes2, values, cdf };
    let (mut sample, mut rounds) = ([0.0; 3], 0);
    Refusal::check(ffi::sample_2d(surface, alpha, Draw { u, allowance }, &mut sample, &mut rounds))?;
    let [position, value, density] = sample;
    Ok((rounds > 0).then_some(Sample { position, value, density, rounds }))
}

//! Floats of several families, and the particular ones that each field of a contact likes to be tried with.

use crate::rng::Rng;

/// What most floats of a contact are like.
#[derive(Copy, Clone, Debug, PartialEq)]
pub enum Like {
    /// Random mantissas at exponents around 1.
    Plain,
    /// Small integers and fractions by powers of two: sums cancel exactly and ties happen.
    Dyadic,
    /// Subnormals and their neighbours.
    Tiny,
    /// Products overflow.
    Huge,
    /// Any exponent.
    Wide,
    /// Each float of another family.
    Mixed,
}

pub const LIKES: [Like; 10] = [
    Like::Plain,
    Like::Plain,
    Like::Plain,
    Like::Dyadic,
    Like::Dyadic,
    Like::Dyadic,
    Like::Tiny,
    Like::Huge,
    Like::Wide,
    Like::Mixed,
];

/// The cutoff of `inv`, 1e-20.
pub const CUTOFF: u32 = 0x1e3c_e508;

fn with_exponent(rng: &mut Rng, from: u32, upto: u32) -> f32 {
    let exponent = from + rng.below((upto - from + 1) as usize) as u32;
    let mantissa = rng.next() as u32 & 0x007f_ffff;
    f32::from_bits(exponent << 23 | mantissa)
}

/// A float of zero or above.
pub fn size(rng: &mut Rng, like: Like) -> f32 {
    if rng.percent(4) {
        return 0.0;
    }
    match like {
        Like::Plain => with_exponent(rng, 123, 130),
        Like::Dyadic => rng.below(9) as f32 / (1 << rng.below(3)) as f32,
        Like::Tiny => {
            let upto = rng.pick(&[2, 2, 60]);
            with_exponent(rng, 0, upto)
        }
        Like::Huge => with_exponent(rng, 180, 254),
        Like::Wide => with_exponent(rng, 0, 254),
        Like::Mixed => {
            let likes = [Like::Plain, Like::Dyadic, Like::Tiny, Like::Huge, Like::Wide];
            let like = rng.pick(&likes);
            size(rng, like)
        }
    }
}

/// A float of either sign, zeros too.
pub fn signed(rng: &mut Rng, like: Like) -> f32 {
    let size = size(rng, like);
    if rng.percent(50) { -size } else { size }
}

/// A normal impulse: minus zero passes too.
pub fn impulse(rng: &mut Rng, like: Like) -> f32 {
    match rng.below(10) {
        0 => 0.0,
        1 => -0.0,
        _ => size(rng, like),
    }
}

/// An r; some stand at the cutoff of `inv` or beside it.
pub fn r(rng: &mut Rng, like: Like) -> f32 {
    match rng.below(20) {
        0 => f32::from_bits(CUTOFF - 2 + rng.below(5) as u32),
        1 => rng.pick(&[0.0, -0.0]),
        2 => with_exponent(rng, 0, 70),
        3 => with_exponent(rng, 55, 65),
        _ => size(rng, like),
    }
}

/// Within (0, 1].
pub fn cfm(rng: &mut Rng) -> f32 {
    match rng.below(10) {
        0..=3 => 1.0,
        4 => 0.5,
        5 => f32::from_bits(0x3f7f_ffff),
        6 => f32::from_bits(1 + rng.below(3) as u32),
        7 => with_exponent(rng, 0, 100),
        _ => with_exponent(rng, 118, 126),
    }
}

pub fn friction(rng: &mut Rng, like: Like) -> f32 {
    match rng.below(10) {
        0 => rng.pick(&[0.0, -0.0]),
        1 => f32::MAX,
        2 => with_exponent(rng, 230, 254),
        3..=6 => with_exponent(rng, 123, 127),
        _ => size(rng, like),
    }
}

/// A flag that lets the pair be worked as a block, or not.
pub fn flag(rng: &mut Rng, block: bool) -> f32 {
    if block {
        rng.pick(&[1.0, 1.0, 1.0, 2.0, f32::from_bits(0x3f00_0001), f32::MAX])
    } else {
        rng.pick(&[0.0, -0.0, 0.5, 0.5, f32::from_bits(0x3eff_ffff), -1.0, 0.25])
    }
}

/// A direction: mostly of length near 1, sometimes an axis, sometimes anything.
pub fn direction(rng: &mut Rng, like: Like) -> [f32; 2] {
    let sign = rng.pick(&[1.0f32, -1.0]);
    match rng.below(10) {
        0 => [rng.pick(&[0.0, -0.0]), sign],
        1 => [sign, rng.pick(&[0.0, -0.0])],
        2 => [0.6 * sign, 0.8],
        3 | 4 => [signed(rng, like), signed(rng, like)],
        _ if like == Like::Dyadic => rng.pick(&[[0.0, sign], [sign, 0.0], [0.5, sign], [sign, sign]]),
        _ => {
            let x = with_exponent(rng, 120, 126) * sign;
            let y = (1.0 - x * x).max(0.0).sqrt();
            if rng.percent(50) { [x, y] } else { [y, x] }
        }
    }
}

/// The same number, or a neighbour of it: for values that are to stand at an edge.
pub fn near(rng: &mut Rng, x: f32) -> f32 {
    match rng.below(4) {
        0 => x.next_up(),
        1 => x.next_down(),
        _ => x,
    }
}

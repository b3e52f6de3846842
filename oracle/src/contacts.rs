//! Makes contacts: floats of a family, and then some of them aimed at an edge: a dvel that cancels, an impulse at the end
//! of its range, a pair of a wanted branch.

use crate::rng::Rng;
use crate::values::{self, Like, near, signed, size};
use crate::wrong::{Left, Model, Wrong};
use oracle::{Contact, FLOOR, Normal, Tangent};

/// The velocity of a body.
pub fn velocity(rng: &mut Rng, like: Like) -> [f32; 3] {
    [0; 3].map(|_| signed(rng, like))
}

/// A contact of random floats that no check refuses. A side without a body is the floor's.
pub fn random(rng: &mut Rng, like: Like, sides: [Option<u32>; 2], count: u8) -> Contact {
    let mut im = |side: Option<u32>| match side {
        Some(_) => [size(rng, like), size(rng, like)],
        None => [0.0, rng.pick(&[0.0, -0.0])],
    };
    let (im1, im2) = (im(sides[0]), im(sides[1]));
    let normals = [0; 2].map(|_| normal(rng, like, sides));
    let tangents = [0; 2].map(|_| tangent(rng, like, sides));
    let block = rng.percent(75);
    Contact {
        body1: sides[0].unwrap_or(FLOOR),
        body2: sides[1].unwrap_or(FLOOR),
        count,
        dir: values::direction(rng, like),
        im1,
        im2,
        friction: values::friction(rng, like),
        k12: signed(rng, like),
        flag: values::flag(rng, block),
        normals,
        tangents,
    }
}

fn normal(rng: &mut Rng, like: Like, sides: [Option<u32>; 2]) -> Normal {
    let [torque1, torque2, rhs] = [0; 3].map(|_| signed(rng, like));
    let [ii1, ii2] = sides.map(|side| side.map_or(0.0, |_| signed(rng, like)));
    let impulse = values::impulse(rng, like);
    let seed = match rng.below(8) {
        0 => rng.pick(&[0.0, -0.0]),
        1 => size(rng, like),
        2 => -f32::from_bits(1),
        _ => -size(rng, like),
    };
    let accumulator = match rng.below(6) {
        0 => -impulse,
        1 => near(rng, -impulse),
        2 => rng.pick(&[0.0, -0.0]),
        3 => -size(rng, like),
        _ => size(rng, like),
    };
    Normal {
        torque1,
        torque2,
        ii1,
        ii2,
        rhs,
        impulse,
        accumulator,
        r: values::r(rng, like),
        cfm: values::cfm(rng),
        seed,
    }
}

fn tangent(rng: &mut Rng, like: Like, sides: [Option<u32>; 2]) -> Tangent {
    let [torque1, torque2, rhs, impulse, accumulator] = [0; 5].map(|_| signed(rng, like));
    let [ii1, ii2] = sides.map(|side| side.map_or(0.0, |_| signed(rng, like)));
    Tangent { torque1, torque2, ii1, ii2, rhs, impulse, accumulator, r: values::r(rng, like) }
}

fn model(contact: &Contact, vels: [[f32; 3]; 2]) -> Model<'_> {
    let left = Left { vels, ..Left::default() };
    Model { wrong: Wrong::Nothing, contact, left }
}

/// Aims the parts of a contact at an edge of a kind, for the velocities it will meet: dvel zero or the impulse zero, or
/// the friction's impulse at an end of its range; each exactly (as far as rounding goes) or a neighbour.
pub fn aim(rng: &mut Rng, contact: &mut Contact, vels: [[f32; 3]; 2], kind: u32) {
    let copy = *contact;
    let model = model(&copy, vels);
    let [x, y] = contact.dir;
    for point in 0..contact.count as usize {
        if kind == 2 {
            let limit = contact.friction * contact.normals[point].impulse;
            let part = &mut contact.tangents[point];
            let dvel = model.dvel([-y, x], part.torque1, part.torque2, 0.0);
            let goal = rng.pick(&[part.impulse, limit, -limit, 0.0]);
            part.rhs = finite(near(rng, aimed(part.impulse, part.r, goal, dvel)), part.rhs);
            continue;
        }
        let part = &mut contact.normals[point];
        let dvel = model.dvel(contact.dir, part.torque1, part.torque2, 0.0);
        let goal = rng.pick(&[part.impulse, 0.0, 0.0]);
        let rhs = near(rng, aimed(part.impulse, part.r, goal, dvel));
        if kind == 3 {
            part.seed = finite(rhs, part.seed);
        } else {
            part.rhs = finite(rhs, part.rhs);
        }
    }
}

/// The rhs that brings an impulse to its goal.
fn aimed(impulse: f32, r: f32, goal: f32, dvel: f32) -> f32 {
    if goal == impulse { -dvel } else { (impulse - goal) / r - dvel }
}

fn finite(x: f32, otherwise: f32) -> f32 {
    if x.is_finite() { x } else { otherwise }
}

/// Aims a pair at a branch: chooses its matrix, and rhs of both points so that b is where the branch has it.
pub fn aim_pair(rng: &mut Rng, contact: &mut Contact, vels: [[f32; 3]; 2], branch: u32) {
    let like = if rng.percent(50) { Like::Dyadic } else { Like::Plain };
    contact.flag = values::flag(rng, branch != 6);
    for part in &mut contact.normals {
        part.r = match like {
            Like::Dyadic => rng.pick(&[0.25, 0.5, 1.0, 2.0]),
            _ => size(rng, like).max(0.01),
        };
        part.cfm = if rng.percent(60) { 1.0 } else { rng.pick(&[0.5, 0.25, 0.9, 0.7]) };
        part.impulse = size(rng, like);
    }
    let [a, b] = contact.normals;
    let [kp11, kp22] = [1.0 / a.r / a.cfm, 1.0 / b.r / b.cfm];
    let coupled = (kp11 * kp22).sqrt();
    contact.k12 = match (branch, like) {
        (5, _) => -coupled * rng.pick(&[1.5, 2.0, 4.0]),
        (_, Like::Dyadic) => rng.pick(&[1.0, 0.5, 0.25, 0.0, -0.5, 1.5]),
        _ => coupled * rng.pick(&[0.9, 0.5, -0.3, 0.1, 0.99]),
    };
    let k12 = contact.k12;
    let [s, t] = [size(rng, like), size(rng, like)];
    let [b1, b2] = match branch {
        1 => [-(kp11 * s + k12 * t), -(k12 * s + kp22 * t)],
        2 => [-kp11 * s, t - k12 * s],
        3 => [s - k12 * t, -kp22 * t],
        4 => [s, t],
        _ => [-s, -t],
    };
    let dvel_a = b1 + a.impulse / a.r + k12 * b.impulse;
    let dvel_b = b2 + k12 * a.impulse + b.impulse / b.r;
    let copy = *contact;
    let [now_a, now_b] = crate::block::dvels(&model(&copy, vels));
    contact.normals[0].rhs = finite(dvel_a - (now_a - a.rhs), a.rhs);
    contact.normals[1].rhs = finite(dvel_b - (now_b - b.rhs), b.rhs);
}

/// Puts an r, a kp or det of a pair at the cutoff of `inv`, or beside it.
pub fn at_cutoff(rng: &mut Rng, contact: &mut Contact) {
    let e = f32::from_bits(values::CUTOFF);
    let beside = |rng: &mut Rng, x: f32| f32::from_bits(x.to_bits() - 3 + rng.below(7) as u32);
    let at = rng.below(2);
    match rng.below(3) {
        0 => contact.normals[at].r = beside(rng, e),
        1 => {
            contact.normals[at].r = beside(rng, 1.0 / e);
            contact.normals[at].cfm = 1.0;
        }
        _ => {
            contact.k12 = 0.0;
            for part in &mut contact.normals {
                part.r = beside(rng, 1.0e10);
                part.cfm = 1.0;
            }
        }
    }
}

/// A contact as a solver would have it: r and k12 that fit the masses, arms and inertias, so that a chain of steps settles.
pub fn fitting(rng: &mut Rng, sides: [Option<u32>; 2], count: u8) -> Contact {
    let mut contact = random(rng, Like::Plain, sides, count);
    let angle = rng.below(6283) as f32 / 1000.0;
    let dir = [angle.cos(), angle.sin()];
    contact.dir = dir;
    let tangent = [-dir[1], dir[0]];
    let masses = sides.map(|side| side.map_or(0.0, |_| rng.pick(&[0.5f32, 1.0, 1.7, 0.1])));
    contact.im1 = [masses[0]; 2];
    contact.im2 = [masses[1]; 2];
    contact.friction = rng.pick(&[0.0, 0.3, 0.5, 1.0]);
    let line = |d: [f32; 2]| (d[0] * d[0] + d[1] * d[1]) * (masses[0] + masses[1]);
    for point in 0..2 {
        let part = &mut contact.normals[point];
        part.torque1 = rng.below(200) as f32 / 100.0 - 1.0;
        part.torque2 = rng.below(200) as f32 / 100.0 - 1.0;
        part.ii1 = part.torque1 * masses[0];
        part.ii2 = part.torque2 * masses[1];
        part.r = 1.0 / (line(dir) + part.torque1 * part.ii1 + part.torque2 * part.ii2).max(0.05);
        part.cfm = rng.pick(&[1.0, 1.0, 0.95]);
        let part = &mut contact.tangents[point];
        part.ii1 = part.torque1 * masses[0];
        part.ii2 = part.torque2 * masses[1];
        part.r = 1.0 / (line(tangent) + part.torque1 * part.ii1 + part.torque2 * part.ii2).max(0.05);
    }
    let [a, b] = contact.normals;
    contact.k12 = line(dir) + a.torque1 * b.ii1 + a.torque2 * b.ii2;
    contact
}

//! The pair's choice of the model in `wrong`, the right way or a wrong one.

use crate::values::CUTOFF;
use crate::wrong::{Left, Model, Wrong};
use Wrong::*;

/// The branch and the two new impulses.
pub fn choose(model: &Model) -> (u8, [f32; 2]) {
    let flag = model.contact.flag;
    if flag > 0.5 || model.is(FlagAtHalf) && flag == 0.5 { block(model) } else { (6, degraded(model)) }
}

fn inv(wrong: Wrong, x: f32) -> f32 {
    let e = f32::from_bits(CUTOFF);
    let cut = match wrong {
        InvClosed => -e <= x && x <= e,
        InvNoCutoff => x == 0.0,
        _ => -e < x && x < e,
    };
    if cut { 0.0 } else { 1.0 / x }
}

/// The dvels of a and b in the pair's order.
pub fn dvels(model: &Model) -> [f32; 2] {
    let dir = model.contact.dir;
    let [v1, v2] = model.left.vels;
    let dot = |v: [f32; 3]| {
        if model.is(FusedDot) { dir[0].mul_add(v[0], dir[1] * v[1]) } else { dir[0] * v[0] + dir[1] * v[1] }
    };
    let lin = if model.is(PairDotOfDifference) { dot([v1[0] - v2[0], v1[1] - v2[1], 0.0]) } else { dot(v1) - dot(v2) };
    model.contact.normals.map(|part| match model.wrong {
        PairSingleOrder => model.dvel(dir, part.torque1, part.torque2, part.rhs),
        DvelRhsFirst => part.rhs + lin + part.torque1 * v1[2] + part.torque2 * v2[2],
        FusedDvel => part.torque2.mul_add(v2[2], part.torque1.mul_add(v1[2], lin)) + part.rhs,
        _ => lin + part.torque1 * v1[2] + part.torque2 * v2[2] + part.rhs,
    })
}

/// What the candidates are made of.
struct Matrix {
    kp11: f32,
    kp22: f32,
    k12: f32,
    b1: f32,
    b2: f32,
}

fn matrix(model: &Model) -> Matrix {
    let wrong = model.wrong;
    let [a, b] = model.contact.normals;
    let (k12, [p, q]) = (model.contact.k12, [a.impulse, b.impulse]);
    let [dvel_a, dvel_b] = dvels(model);
    let (k11, k22) = (inv(wrong, a.r), inv(wrong, b.r));
    let soft = |k: f32, cfm: f32| match wrong {
        DivideByCfm => k / cfm,
        CfmForgotten => k,
        _ => k * inv(wrong, cfm),
    };
    Matrix {
        kp11: soft(k11, a.cfm),
        kp22: soft(k22, b.cfm),
        k12,
        b1: dvel_a - k11 * p - k12 * q,
        b2: dvel_b - k12 * p - k22 * q,
    }
}

fn block(model: &Model) -> (u8, [f32; 2]) {
    let wrong = model.wrong;
    let m = matrix(model);
    // at least zero, or above it where that is the error asked for
    let passes = |strict: Wrong, x: f32| if wrong == strict { x > 0.0 } else { x >= 0.0 };
    let none = m.b1 >= 0.0 && m.b2 >= 0.0;
    if wrong == NoneFirst && none {
        return (4, [0.0, 0.0]);
    }
    let det = m.kp11 * m.kp22 - m.k12 * m.k12;
    let over_det = |x: f32| match wrong {
        DivideByDet => x / det,
        _ => x * inv(wrong, det),
    };
    let over = |x: f32, kp: f32| match wrong {
        DivideByMass => x / kp,
        _ => x * inv(wrong, kp),
    };
    let x = over_det(m.k12 * m.b2 - m.kp22 * m.b1);
    let y = over_det(m.k12 * m.b1 - m.kp11 * m.b2);
    let regular = det > 0.0 || wrong == DetAtZero && det == 0.0;
    if regular && passes(StrictBoth, x) && passes(StrictBoth, y) {
        return (1, [x, y]);
    }
    let x = over(-m.b1, m.kp11);
    if passes(StrictA, x) && passes(StrictA, m.b2 + m.k12 * x) {
        return (2, [x, 0.0]);
    }
    let y = over(-m.b2, m.kp22);
    if passes(StrictB, y) && passes(StrictB, m.b1 + m.k12 * y) {
        return (3, [0.0, y]);
    }
    let [a, b] = model.contact.normals;
    if none { (4, [0.0, 0.0]) } else { (5, [a.impulse, b.impulse]) }
}

fn degraded(model: &Model) -> [f32; 2] {
    let [a, b] = model.contact.normals;
    let dir = model.contact.dir;
    let [lin_a, lin_b] = dvels(model);
    let single = |part: &oracle::Normal| model.dvel(dir, part.torque1, part.torque2, part.rhs);
    let dvel_a = if model.is(DegradedALinFirst) { lin_a } else { single(&a) };
    let dvel_b = if model.is(DegradedBSingleOrder) { single(&b) } else { lin_b };
    let cfm = |cfm: f32| if model.is(CfmForgotten) { 1.0 } else { cfm };
    let toward = |impulse: f32, r: f32, dvel: f32| {
        if model.is(FusedImpulse) { (-r).mul_add(dvel, impulse) } else { impulse - r * dvel }
    };
    let new_a = cfm(a.cfm) * model.max0(toward(a.impulse, a.r, dvel_a));
    if model.is(DegradedBAfterPush) {
        return [new_a, after_push(model, new_a - a.impulse)];
    }
    let dvel = dvel_b + model.contact.k12 * (new_a - a.impulse);
    [new_a, cfm(b.cfm) * model.max0(toward(b.impulse, b.r, dvel))]
}

/// Point b as kind 1 works it, after a's change was pushed.
fn after_push(model: &Model, l: f32) -> f32 {
    let [a, b] = model.contact.normals;
    let dir = model.contact.dir;
    let mut vels = model.left.vels;
    for at in 0..2 {
        vels[0][at] += dir[at] * model.contact.im1[at] * l;
        vels[1][at] += dir[at] * model.contact.im2[at] * -l;
    }
    vels[0][2] += a.ii1 * l;
    vels[1][2] += a.ii2 * l;
    let after = Model { wrong: Nothing, contact: model.contact, left: Left { vels, ..model.left } };
    let dvel = after.dvel(dir, b.torque1, b.torque2, b.rhs);
    b.cfm * model.max0(b.impulse - b.r * dvel)
}

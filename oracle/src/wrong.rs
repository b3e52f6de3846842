//! A small model of document 01's arithmetic in plain f32, and ways to get it wrong: other orders, fused products, and
//! the errors that document 01 warns of. The vectors are searched with it: a contact is kept where a wrong way shows.
//! The judge of answers is the user's Rust, not this; `rounding` holds the right way to it.
//!
//! Four errors show in no number and are not here: a dot that adds y first (addition commutes), `max0(cfm * x)` (cfm is
//! above 0), `-(x + y)` for `-x - y`, and "none" with > for its >= (where b1 or b2 is zero, "a only" or "b only" passes).

use crate::block;
use oracle::{Contact, Normal, Tangent};

macro_rules! wrongs {
    ($($name: ident: $says: literal,)*) => {
        #[derive(Copy, Clone, Debug, PartialEq, Eq, PartialOrd, Ord)]
        pub enum Wrong {
            Nothing,
            $($name,)*
        }
        pub const ALL: &[(Wrong, &str)] = &[$((Wrong::$name, $says),)*];
    };
}

wrongs! {
    FusedDot: "dot with a fused product",
    FusedDvel: "dvel with fused products",
    FusedImpulse: "impulse - r*dvel fused",
    FusedPush: "push with a fused product",
    DvelLinFirst: "single-point dvel in the pair's order",
    DvelRhsFirst: "dvel starting from rhs",
    PushMassByChange: "push as dir*(im*l)",
    PushChangeFirst: "push as (dir*l)*im",
    TangentOtherWay: "tangent (y, -x)",
    PointBFirst: "point b before a",
    WarmByPoint: "warm start point by point",
    CfmOnChange: "cfm on r*dvel alone",
    CfmForgotten: "cfm left out",
    LimitOfPointA: "friction limit of b from a's impulse",
    LimitOfFriction: "friction limit without the normal impulse",
    ClampUpperOnly: "clamp without its lower end",
    RestitutionWithCfm: "restitution with cfm",
    RestitutionByRhs: "restitution with rhs for seed",
    RestitutionNoGate: "restitution without its gate",
    GateSeedAtZero: "restitution's gate open at seed 0",
    GateTotalAtZero: "restitution's gate open at total 0",
    GateByImpulse: "restitution's gate by the impulse alone",
    PairSingleOrder: "pair's dvel in the single-point order",
    PairDotOfDifference: "pair's lin as dot(dir, v1 - v2)",
    DegradedALinFirst: "degraded a with the lin-first dvel",
    DegradedBSingleOrder: "degraded b with the single-point dvel",
    DegradedBAfterPush: "degraded b worked as kind 1's b",
    PairPushApart: "x and y of the pair pushed one by one",
    PairSpinApart: "angular parts of the pair pushed one by one",
    InvClosed: "inv with its ends closed",
    InvNoCutoff: "inv without its cutoff",
    DivideByDet: "division by det for the product with inv(det)",
    DivideByMass: "division by kp for the product with inv(kp)",
    DivideByCfm: "division by cfm for the product with inv(cfm)",
    NoneFirst: "none tested before both",
    DetAtZero: "both taken at det 0",
    StrictBoth: "both with > for its two >=",
    StrictA: "a only with > for its two >=",
    StrictB: "b only with > for its two >=",
    FlagAtHalf: "flag 0.5 taken as a block",
    ZeroPushSkipped: "a zero change not pushed (signs of zeros counted)",
    MaxLeft: "no error: of two zeros max leaves the left one (signs of zeros counted)",
}

use Wrong::*;

/// What a step leaves: velocities, and impulses of the points.
#[derive(Copy, Clone, Debug, Default)]
pub struct Left {
    pub vels: [[f32; 3]; 2],
    pub normals: [f32; 2],
    pub tangents: [f32; 2],
    pub branch: u8,
}

pub struct Model<'a> {
    pub wrong: Wrong,
    pub contact: &'a Contact,
    pub left: Left,
}

/// One step the right way or a wrong one, on finite numbers that no check refuses.
pub fn step(wrong: Wrong, contact: &Contact, vels: [[f32; 3]; 2], kind: u32) -> Left {
    let left = Left {
        vels,
        normals: contact.normals.map(|part| part.impulse),
        tangents: contact.tangents.map(|part| part.impulse),
        branch: 0,
    };
    let mut model = Model { wrong, contact, left };
    let mut points: Vec<usize> = (0..contact.count as usize).collect();
    if wrong == PointBFirst {
        points.reverse();
    }
    match kind {
        0 => model.warm(&points),
        4 => model.pair(),
        _ => points.iter().for_each(|&point| match kind {
            1 => model.normal(point),
            2 => model.friction(point),
            _ => model.restitution(point),
        }),
    }
    model.left
}

impl Model<'_> {
    pub fn max0(&self, x: f32) -> f32 {
        if x > 0.0 || x == 0.0 && self.is(MaxLeft) { x } else { 0.0 }
    }

    pub fn is(&self, wrong: Wrong) -> bool {
        self.wrong == wrong
    }

    fn tangent(&self) -> [f32; 2] {
        let [x, y] = self.contact.dir;
        if self.is(TangentOtherWay) { [y, -x] } else { [-y, x] }
    }

    fn dot(&self, d: [f32; 2], v: [f32; 3]) -> f32 {
        if self.is(FusedDot) {
            return d[0].mul_add(v[0], d[1] * v[1]);
        }
        d[0] * v[0] + d[1] * v[1]
    }

    /// dvel in the single-point order.
    pub fn dvel(&self, d: [f32; 2], t1: f32, t2: f32, rhs: f32) -> f32 {
        let [v1, v2] = self.left.vels;
        let (dot1, dot2) = (self.dot(d, v1), self.dot(d, v2));
        match self.wrong {
            DvelLinFirst => dot1 - dot2 + t1 * v1[2] + t2 * v2[2] + rhs,
            DvelRhsFirst => rhs + dot1 + t1 * v1[2] - dot2 + t2 * v2[2],
            FusedDvel => t2.mul_add(v2[2], t1.mul_add(v1[2], dot1) - dot2) + rhs,
            _ => dot1 + t1 * v1[2] - dot2 + t2 * v2[2] + rhs,
        }
    }

    fn toward(&self, impulse: f32, r: f32, dvel: f32) -> f32 {
        if self.is(FusedImpulse) {
            return (-r).mul_add(dvel, impulse);
        }
        impulse - r * dvel
    }

    fn push_along(&mut self, side: usize, d: [f32; 2], l: f32) {
        let im = [self.contact.im1, self.contact.im2][side];
        for at in 0..2 {
            let v = &mut self.left.vels[side][at];
            *v = match self.wrong {
                PushMassByChange => *v + d[at] * (im[at] * l),
                PushChangeFirst => *v + d[at] * l * im[at],
                FusedPush => (d[at] * im[at]).mul_add(l, *v),
                _ => *v + d[at] * im[at] * l,
            };
        }
    }

    fn push(&mut self, d: [f32; 2], ii: [f32; 2], l: f32) {
        if self.is(ZeroPushSkipped) && l == 0.0 {
            return;
        }
        self.push_along(0, d, l);
        self.push_along(1, d, -l);
        for (side, ii) in ii.into_iter().enumerate() {
            let w = &mut self.left.vels[side][2];
            *w = if self.wrong == FusedPush { ii.mul_add(l, *w) } else { *w + ii * l };
        }
    }

    fn warm(&mut self, points: &[usize]) {
        let tangent = self.tangent();
        for &point in points {
            let Normal { ii1, ii2, impulse, .. } = self.contact.normals[point];
            self.push(self.contact.dir, [ii1, ii2], impulse);
            if self.is(WarmByPoint) {
                let Tangent { ii1, ii2, impulse, .. } = self.contact.tangents[point];
                self.push(tangent, [ii1, ii2], impulse);
            }
        }
        if !self.is(WarmByPoint) {
            for &point in points {
                let Tangent { ii1, ii2, impulse, .. } = self.contact.tangents[point];
                self.push(tangent, [ii1, ii2], impulse);
            }
        }
    }

    fn normal(&mut self, point: usize) {
        let part = self.contact.normals[point];
        let dvel = self.dvel(self.contact.dir, part.torque1, part.torque2, part.rhs);
        let n = match self.wrong {
            CfmOnChange => self.max0(part.impulse - part.cfm * (part.r * dvel)),
            CfmForgotten => self.max0(part.impulse - part.r * dvel),
            _ => part.cfm * self.max0(self.toward(part.impulse, part.r, dvel)),
        };
        self.push(self.contact.dir, [part.ii1, part.ii2], n - part.impulse);
        self.left.normals[point] = n;
    }

    fn friction(&mut self, point: usize) {
        let (part, tangent) = (self.contact.tangents[point], self.tangent());
        let limit = match self.wrong {
            LimitOfPointA => self.contact.friction * self.contact.normals[0].impulse,
            LimitOfFriction => self.contact.friction,
            _ => self.contact.friction * self.contact.normals[point].impulse,
        };
        let dvel = self.dvel(tangent, part.torque1, part.torque2, part.rhs);
        let wanted = self.toward(part.impulse, part.r, dvel);
        let n = if wanted < -limit && !self.is(ClampUpperOnly) {
            -limit
        } else if wanted > limit {
            limit
        } else {
            wanted
        };
        self.push(tangent, [part.ii1, part.ii2], n - part.impulse);
        self.left.tangents[point] = n;
    }

    fn gate(&self, part: &Normal) -> bool {
        let total = part.accumulator + part.impulse;
        match self.wrong {
            GateSeedAtZero => part.seed <= 0.0 && total > 0.0,
            GateTotalAtZero => part.seed < 0.0 && total >= 0.0,
            GateByImpulse => part.seed < 0.0 && part.impulse > 0.0,
            _ => part.seed < 0.0 && total > 0.0,
        }
    }

    fn restitution(&mut self, point: usize) {
        let part = self.contact.normals[point];
        let seed = if self.is(RestitutionByRhs) { part.rhs } else { part.seed };
        let dvel = self.dvel(self.contact.dir, part.torque1, part.torque2, seed);
        let open = self.gate(&part);
        let pushed = self.max0(self.toward(part.impulse, part.r, dvel));
        let n = match self.wrong {
            RestitutionWithCfm if open => part.cfm * pushed,
            RestitutionNoGate => pushed,
            _ if open => pushed,
            _ => part.impulse,
        };
        self.push(self.contact.dir, [part.ii1, part.ii2], n - part.impulse);
        self.left.normals[point] = n;
    }

    fn pair(&mut self) {
        let [a, b] = self.contact.normals;
        let dir = self.contact.dir;
        let (branch, new) = block::choose(self);
        self.left.branch = branch;
        let [x, y] = [new[0] - a.impulse, new[1] - b.impulse];
        self.left.normals = new;
        if self.is(ZeroPushSkipped) && x == 0.0 && y == 0.0 {
            return;
        }
        if self.is(PairPushApart) {
            for l in [x, y] {
                self.push_along(0, dir, l);
                self.push_along(1, dir, -l);
            }
        } else {
            self.push_along(0, dir, x + y);
            self.push_along(1, dir, -x - y);
        }
        let spin = |w: f32, iia: f32, iib: f32| match self.wrong {
            PairSpinApart => w + iia * x + iib * y,
            FusedPush => w + iia.mul_add(x, iib * y),
            _ => w + (iia * x + iib * y),
        };
        let [w1, w2] = [self.left.vels[0][2], self.left.vels[1][2]];
        self.left.vels[0][2] = spin(w1, a.ii1, b.ii1);
        self.left.vels[1][2] = spin(w2, a.ii2, b.ii2);
    }
}

//! Bodies and contacts of document 01, held in the user's own structs and worked by the user's own routines.

use crate::dynamics::solver::contact_constraint::contact_constraint_element::{
    ContactConstraintNormalPart, ContactConstraintTangentPart,
};
use crate::dynamics::solver::contact_constraint::contact_with_coulomb_friction::ContactWithCoulombFriction;
use crate::dynamics::solver::{ContactRef, SolverBodies, SolverVel};
use crate::utils::OrthonormalBasis;
use na::{Vector1, Vector2};

/// The body number of the floor: it reads as zero velocity and is never written.
pub const FLOOR: u32 = 65535;

/// The numbers of a point's normal part, in document 01's order.
#[derive(Copy, Clone, Debug, Default, PartialEq)]
pub struct Normal {
    pub torque1: f32,
    pub torque2: f32,
    pub ii1: f32,
    pub ii2: f32,
    pub rhs: f32,
    pub impulse: f32,
    pub accumulator: f32,
    pub r: f32,
    pub cfm: f32,
    pub seed: f32,
}

/// The numbers of a point's tangent part, in document 01's order.
#[derive(Copy, Clone, Debug, Default, PartialEq)]
pub struct Tangent {
    pub torque1: f32,
    pub torque2: f32,
    pub ii1: f32,
    pub ii2: f32,
    pub rhs: f32,
    pub impulse: f32,
    pub accumulator: f32,
    pub r: f32,
}

/// A contact as a text gives it.
#[derive(Copy, Clone, Debug, Default, PartialEq)]
pub struct Contact {
    pub body1: u32,
    pub body2: u32,
    pub count: u8,
    pub dir: [f32; 2],
    pub im1: [f32; 2],
    pub im2: [f32; 2],
    pub friction: f32,
    pub k12: f32,
    pub flag: f32,
    pub normals: [Normal; 2],
    pub tangents: [Tangent; 2],
}

/// A contact in the user's structs. The seeds stand beside it: in the crate they are the builder's.
#[derive(Copy, Clone, Debug)]
struct Constraint {
    inner: ContactWithCoulombFriction<f32>,
    seeds: [f32; 2],
}

impl From<&Contact> for Constraint {
    fn from(contact: &Contact) -> Self {
        let vector = |[x, y]: [f32; 2]| Vector2::new(x, y);
        let mut normal_part = contact.normals.map(normal_part);
        normal_part[0].r_mat_elts = [contact.k12, contact.flag];
        let inner = ContactWithCoulombFriction {
            dir1: vector(contact.dir),
            im1: vector(contact.im1),
            im2: vector(contact.im2),
            cfm_factor: 0.0,
            limit: contact.friction,
            normal_part,
            tangent_part: contact.tangents.map(tangent_part),
            solver_vel1: [contact.body1],
            solver_vel2: [contact.body2],
            manifold_id: [ContactRef],
            num_contacts: contact.count,
            manifold_contact_id: [[0]; 2],
        };
        let seeds = contact.normals.map(|normal| normal.seed);
        Self { inner, seeds }
    }
}

fn normal_part(from: Normal) -> ContactConstraintNormalPart<f32> {
    ContactConstraintNormalPart {
        torque_dir1: from.torque1,
        torque_dir2: from.torque2,
        ii_torque_dir1: from.ii1,
        ii_torque_dir2: from.ii2,
        rhs: from.rhs,
        impulse: from.impulse,
        impulse_accumulator: from.accumulator,
        r: from.r,
        cfm_factor: from.cfm,
        ..ContactConstraintNormalPart::zero()
    }
}

fn tangent_part(from: Tangent) -> ContactConstraintTangentPart<f32> {
    ContactConstraintTangentPart {
        torque_dir1: [from.torque1],
        torque_dir2: [from.torque2],
        ii_torque_dir1: [from.ii1],
        ii_torque_dir2: [from.ii2],
        rhs: [from.rhs],
        impulse: Vector1::new(from.impulse),
        impulse_accumulator: Vector1::new(from.accumulator),
        r: [from.r],
        ..ContactConstraintTangentPart::zero()
    }
}

/// Bodies and contacts, for the user's routines to work on. Nothing is refused here: counts above 2 panic, and a body
/// number out of range reads as zero and is not written, as the floor.
#[derive(Clone, Debug, Default)]
pub struct Tables {
    bodies: SolverBodies,
    contacts: Vec<Constraint>,
}

impl Tables {
    /// Bodies are x, y, w. There may be no more than 65535 of them.
    pub fn new(bodies: &[[f32; 3]], contacts: &[Contact]) -> Self {
        assert!(bodies.len() <= FLOOR as usize);
        let vel = |&[x, y, angular]: &[f32; 3]| SolverVel { linear: Vector2::new(x, y), angular };
        Self {
            bodies: SolverBodies { vels: bodies.iter().map(vel).collect() },
            contacts: contacts.iter().map(Constraint::from).collect(),
        }
    }

    /// The velocity x, y, w of a body.
    #[inline]
    pub fn body(&self, at: usize) -> [f32; 3] {
        let vel = self.bodies.vels[at];
        [vel.linear.x, vel.linear.y, vel.angular]
    }

    /// The normal and the tangent impulse of a point.
    #[inline]
    pub fn impulses(&self, contact: usize, point: usize) -> (f32, f32) {
        let inner = &self.contacts[contact].inner;
        (inner.normal_part[point].impulse, inner.tangent_part[point].impulse[0])
    }

    /// Puts impulses back, for a benchmark that starts again from the same numbers.
    #[inline]
    pub fn set_impulses(&mut self, contact: usize, point: usize, (normal, tangent): (f32, f32)) {
        let inner = &mut self.contacts[contact].inner;
        inner.normal_part[point].impulse = normal;
        inner.tangent_part[point].impulse[0] = tangent;
    }

    /// One step: gathers the two velocities, runs the user's routines over the points below count, scatters. The branch
    /// of a pair, 1 to 6, is told only with the feature `notes`; else, and for every other kind, it is 0.
    #[inline]
    pub fn run(&mut self, contact: usize, kind: u8) -> u8 {
        let Constraint { inner, seeds } = &mut self.contacts[contact];
        let (ids1, ids2) = (inner.solver_vel1, inner.solver_vel2);
        let mut vel1 = self.bodies.gather_vels(ids1);
        let mut vel2 = self.bodies.gather_vels(ids2);
        let branch = run_element(inner, seeds, kind, &mut vel1, &mut vel2);
        self.bodies.scatter_vels(ids1, vel1);
        self.bodies.scatter_vels(ids2, vel2);
        branch
    }

    /// The same step by the crate's own driver, where the driver has it as a call of its own: warm start, friction, the
    /// pair of two points, and the normal part of a single point. `None` for the others.
    pub fn run_by_driver(&mut self, contact: usize, kind: u8) -> Option<u8> {
        let inner = &mut self.contacts[contact].inner;
        na::notes::take();
        match (kind, inner.num_contacts) {
            (0, _) => inner.warmstart(&mut self.bodies),
            (2, _) => inner.solve(&mut self.bodies, false, true),
            (1, 1) | (4, 2) => inner.solve(&mut self.bodies, true, false),
            _ => return None,
        }
        Some(if kind == 4 { branch_noted() } else { 0 })
    }
}

#[inline(always)]
fn run_element(
    inner: &mut ContactWithCoulombFriction<f32>,
    seeds: &[f32; 2],
    kind: u8,
    vel1: &mut SolverVel<f32>,
    vel2: &mut SolverVel<f32>,
) -> u8 {
    let (dir, im1, im2) = (&inner.dir1, &inner.im1, &inner.im2);
    let count = inner.num_contacts as usize;
    let tangent = dir.orthonormal_vector();
    let normals = &mut inner.normal_part[..count];
    let tangents = &mut inner.tangent_part[..count];
    match kind {
        0 => {
            for part in normals {
                part.warmstart(dir, im1, im2, vel1, vel2);
            }
            for part in tangents {
                part.warmstart([&tangent], im1, im2, vel1, vel2);
            }
        }
        1 => {
            for part in normals {
                part.solve(dir, im1, im2, vel1, vel2);
            }
        }
        2 => {
            for (part, normal) in tangents.iter_mut().zip(normals) {
                let limit = inner.limit * normal.impulse;
                part.solve([&tangent], im1, im2, limit, vel1, vel2);
            }
        }
        3 => {
            for (part, seed) in normals.iter_mut().zip(seeds) {
                part.solve_restitution(*seed, dir, im1, im2, vel1, vel2);
            }
        }
        _ => {
            let [a, b] = normals else { panic!("a pair has two points") };
            na::notes::take();
            ContactConstraintNormalPart::solve_pair(a, b, dir, im1, im2, vel1, vel2);
            return branch_noted();
        }
    }
    0
}

/// The pair selects five times: keep3, keep2, keep1, keep0, use_block.
#[inline(always)]
fn branch_noted() -> u8 {
    #[cfg(not(feature = "notes"))]
    return 0;
    #[cfg(feature = "notes")]
    match na::notes::take() {
        (5, [_, _, _, _, false, ..]) => 6,
        (5, [_, _, _, true, ..]) => 1,
        (5, [_, _, true, ..]) => 2,
        (5, [_, true, ..]) => 3,
        (5, [true, ..]) => 4,
        (5, _) => 5,
        (count, _) => panic!("the pair made {count} selects, not the five that tell its branch"),
    }
}

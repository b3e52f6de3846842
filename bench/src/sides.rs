//! The same night on both sides: as flat rows for the proved library, and in the user's own structs for the Rust. Each side
//! can be put back to the start, run, and compared with the other.

use crate::nights::Night;
use oracle::Tables;
use romaludiv::{Done, call};
use std::hint::black_box;

/// Rows of the library's tables that a call writes.
#[derive(Clone)]
struct Written {
    bodies: Vec<f32>,
    floats: Vec<f32>,
}

pub struct Sides {
    night: Night,
    numbers: Vec<u16>,
    steps: Vec<u16>,
    room: Vec<u16>,
    start: Written,
    ours: Written,
    rust_start: Tables,
    rust: Tables,
}

/// A contact as the library's Rust package has it.
fn record(contact: &oracle::Contact) -> romaludiv::Contact {
    let pair = |[x, y]: [f32; 2]| romaludiv::Vec2 { x, y };
    let point = |at: usize| {
        let (n, t) = (contact.normals[at], contact.tangents[at]);
        let (torque1, torque2, ii1, ii2, rhs) = (n.torque1, n.torque2, n.ii1, n.ii2, n.rhs);
        let (impulse, accumulator, r, cfm, seed) = (n.impulse, n.accumulator, n.r, n.cfm, n.seed);
        let normal = romaludiv::NormalPart { torque1, torque2, ii1, ii2, rhs, impulse, accumulator, r, cfm, seed };
        let (torque1, torque2, ii1, ii2, rhs) = (t.torque1, t.torque2, t.ii1, t.ii2, t.rhs);
        let (impulse, accumulator, r) = (t.impulse, t.accumulator, t.r);
        let tangent = romaludiv::TangentPart { torque1, torque2, ii1, ii2, rhs, impulse, accumulator, r };
        romaludiv::Point { normal, tangent }
    };
    romaludiv::Contact {
        body1: contact.body1 as u16,
        body2: contact.body2 as u16,
        count: contact.count.into(),
        dir: pair(contact.dir),
        im1: pair(contact.im1),
        im2: pair(contact.im2),
        friction: contact.friction,
        k12: contact.k12,
        flag: contact.flag,
        a: point(0),
        b: point(1),
    }
}

impl Sides {
    pub fn new(night: &Night) -> Self {
        let records: Vec<_> = night.contacts.iter().map(record).collect();
        let start = Written {
            bodies: night.bodies.concat(),
            floats: records.iter().flat_map(|contact| contact.floats()).collect(),
        };
        let rust_start = Tables::new(&night.bodies, &night.contacts);
        Self {
            night: night.clone(),
            numbers: records.iter().flat_map(|contact| contact.numbers()).collect(),
            steps: night.steps.iter().flat_map(|&(contact, kind)| [contact, kind]).collect(),
            room: vec![0; 2 * night.steps.len()],
            ours: start.clone(),
            start,
            rust: rust_start.clone(),
            rust_start,
        }
    }

    pub fn length(&self) -> usize {
        self.night.steps.len()
    }

    pub fn restore_ours(&mut self) {
        self.ours.bodies.copy_from_slice(&self.start.bodies);
        self.ours.floats.copy_from_slice(&self.start.floats);
    }

    pub fn restore_rust(&mut self) {
        self.rust.clone_from(&self.rust_start);
    }

    /// The whole list in one call of the library, or with a smaller budget its first steps.
    pub fn run_ours(&mut self, budget: usize) -> Done {
        let Written { bodies, floats } = &mut self.ours;
        let done = call(bodies, &self.numbers, floats, &self.steps, &mut self.room, black_box(budget));
        black_box(done.expect("the call is not refused"))
    }

    /// The same list, step after step, by the user's Rust, which tests nothing.
    pub fn run_rust(&mut self) {
        for step in black_box(&self.steps).chunks_exact(2) {
            self.rust.run(step[0].into(), step[1] as u8);
        }
        black_box(&mut self.rust);
    }

    /// How many of the last answers have each branch, 0 to 6. Panics if one is a refusal.
    pub fn branches(&self) -> [usize; 7] {
        let mut counts = [0; 7];
        for answer in self.room.chunks_exact(2) {
            assert_eq!(answer[0], 0, "a step is refused");
            counts[usize::from(answer[1])] += 1;
        }
        counts
    }

    /// Panics unless all bodies and all impulses of points below count have the same bits on both sides; the two zeros
    /// are taken as equal.
    pub fn compare(&self) {
        for (at, body) in self.ours.bodies.chunks_exact(3).enumerate() {
            let rust = self.rust.body(at);
            assert!(body.iter().zip(rust).all(|(&a, b)| same(a, b)), "body {at}: {body:?}, and in Rust {rust:?}");
        }
        for (at, row) in self.ours.floats.chunks_exact(romaludiv::FLOATS_WIDTH).enumerate() {
            for point in 0..usize::from(self.night.contacts[at].count) {
                let (normal, tangent) = (row[14 + 18 * point], row[24 + 18 * point]);
                let rust = self.rust.impulses(at, point);
                let agree = same(normal, rust.0) && same(tangent, rust.1);
                assert!(agree, "contact {at}, point {point}: {normal} and {tangent}, and in Rust {rust:?}");
            }
        }
    }

    /// The bodies as the library left them.
    pub fn bodies(&self) -> &[f32] {
        &self.ours.bodies
    }
}

fn same(a: f32, b: f32) -> bool {
    a.to_bits() == b.to_bits() || (a == 0.0 && b == 0.0)
}

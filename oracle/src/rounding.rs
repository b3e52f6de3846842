//! Looks for contacts on which a wrong order of arithmetic shows, and tells which wrong ways a night would show.

use crate::contacts;
use crate::judge;
use crate::night::{IMPULSE, Night, Row, normal_at, tangent_at};
use crate::rng::Rng;
use crate::values::{Like, near};
use crate::wrong::{self, Left, Wrong};
use oracle::{Contact, FLOOR};
use std::collections::BTreeMap;

/// A contact and the velocities it meets.
pub type Case = (Contact, [[f32; 3]; 2]);

/// Contacts of a night in which each has two bodies of its own.
pub const ROOM: usize = 32;

/// Does a step end otherwise if it is done this wrong way? The two zeros are equal, except where signs are what is asked.
pub fn shows(wrong: Wrong, (contact, vels): &Case, kind: u32) -> bool {
    let right = wrong::step(Wrong::Nothing, contact, *vels, kind);
    let other = wrong::step(wrong, contact, *vels, kind);
    let signs = matches!(wrong, Wrong::ZeroPushSkipped | Wrong::MaxLeft);
    let (right_cells, other_cells) = (printed(contact, &right), printed(contact, &other));
    let same = |(a, b): (&f32, &f32)| a.to_bits() == b.to_bits() || !signs && a == b;
    right.branch != other.branch || !right_cells.iter().zip(&other_cells).all(same)
}

/// The floats of a step that a night's answer has.
fn printed(contact: &Contact, left: &Left) -> Vec<f32> {
    let count = contact.count as usize;
    let mut cells = [&left.normals[..count], &left.tangents[..count]].concat();
    for (body, vel) in [contact.body1, contact.body2].iter().zip(left.vels) {
        if *body != FLOOR {
            cells.extend(vel);
        }
    }
    cells
}

/// What a search is for: each wrong way is to be shown by so many contacts, `make` making one for a pair's branch (or 0).
pub struct Search<'a> {
    pub seed: u64,
    pub kind: u32,
    pub branch: u8,
    pub wrongs: &'a [Wrong],
    pub wanted: usize,
    pub make: fn(&mut Rng, u8) -> Case,
}

/// A night of contacts apart, each with one step. Contacts are made until every wrong way is shown, or the room is full.
pub fn search(asked: &Search) -> Night {
    let &Search { seed, kind, branch, wrongs, wanted, make } = asked;
    let mut rng = Rng::new(seed);
    let mut night = Night::default();
    let mut shown: BTreeMap<Wrong, usize> = wrongs.iter().map(|&wrong| (wrong, 0)).collect();
    let mut tries = 0;
    while night.contacts.len() < ROOM && tries < 400_000 {
        tries += 1;
        let case = make(&mut rng, branch);
        let missing = |wrong: &Wrong| shown[wrong] < wanted;
        let missing: Vec<Wrong> = shown.keys().copied().filter(missing).collect();
        let showing: Vec<Wrong> = wrongs.iter().copied().filter(|&w| shows(w, &case, kind)).collect();
        let useful = missing.iter().filter(|wrong| showing.contains(wrong)).count();
        // at first only those that show all that is missing; fewer and fewer as tries go by
        let asked = missing.len().saturating_sub(tries / 6000).max(1);
        if useful < asked && !missing.is_empty() || !done(&case, kind, branch) {
            continue;
        }
        for wrong in showing {
            *shown.get_mut(&wrong).unwrap() += 1;
        }
        add(&mut night, case, kind);
        tries = 0;
    }
    night
}

/// Is the step done, and by this branch?
fn done(case: &Case, kind: u32, branch: u8) -> bool {
    let mut night = Night::default();
    add(&mut night, *case, kind);
    let answered = judge::answer(night).unwrap_or_else(|_| unreachable!());
    let step = answered.steps[0];
    step.answer == 0 && (branch == 0 || step.branch == u32::from(branch))
}

/// Adds a case with two bodies of its own.
pub fn add(night: &mut Night, (mut contact, vels): Case, kind: u32) {
    contact.body1 = night.bodies.len() as u32;
    contact.body2 = contact.body1 + 1;
    night.bodies.extend(vels.map(|vel| vel.map(f32::to_bits)));
    night.steps.push((night.contacts.len(), kind));
    night.contacts.push(Row::from(&contact));
}

/// Random mantissas all over, and for a pair a matrix that leads to the branch.
pub fn plain(rng: &mut Rng, branch: u8) -> Case {
    let mut contact = contacts::random(rng, Like::Plain, [Some(0), Some(1)], 2);
    let vels = [0; 2].map(|_| contacts::velocity(rng, Like::Plain));
    for part in &mut contact.normals {
        if part.cfm < 0.01 {
            part.cfm = 0.7;
        }
    }
    if branch > 0 {
        contacts::aim_pair(rng, &mut contact, vels, branch.into());
    }
    (contact, vels)
}

/// Friction at the ends of its range.
pub fn ends(rng: &mut Rng, _: u8) -> Case {
    let like = rng.pick(&[Like::Plain, Like::Dyadic]);
    let mut contact = contacts::random(rng, like, [Some(0), Some(1)], 2);
    let vels = [0; 2].map(|_| contacts::velocity(rng, like));
    contacts::aim(rng, &mut contact, vels, 2);
    (contact, vels)
}

/// Pairs whose r, kp or det stands at the cutoff of `inv` or beside it.
pub fn cutoffs(rng: &mut Rng, _: u8) -> Case {
    let (mut contact, vels) = plain(rng, 1);
    contacts::at_cutoff(rng, &mut contact);
    (contact, vels)
}

/// Pairs at an edge between branches: exact zeros in b, in a candidate, in a slack or in det.
pub fn edges(rng: &mut Rng, _: u8) -> Case {
    let mut contact = contacts::random(rng, Like::Dyadic, [Some(0), Some(1)], 2);
    contact.flag = 1.0;
    contact.k12 = rng.pick(&[0.0, 1.0, -1.0, 2.0, -2.0, 0.5]);
    for part in &mut contact.normals {
        part.r = rng.pick(&[1.0, 0.5, 1.0, 2.0]);
        part.cfm = 1.0;
        part.rhs = rng.pick(&[0.0, -1.0, 1.0, -2.0, 3.0]);
        part.impulse = rng.pick(&[0.0, 0.0, 1.0]);
    }
    let still = [rng.pick(&[0.0, 1.0]), rng.pick(&[0.0, -1.0]), 0.0];
    (contact, [still, [0.0; 3]])
}

/// Restitution at the edges of its gate.
pub fn gates(rng: &mut Rng, _: u8) -> Case {
    let (mut contact, vels) = plain(rng, 0);
    for part in &mut contact.normals {
        part.seed = match rng.below(3) {
            0 => near(rng, 0.0),
            _ => -part.r,
        };
        let (almost, none) = (near(rng, -part.impulse), near(rng, 0.0));
        part.accumulator = rng.pick(&[-part.impulse, almost, none, 1.0]);
    }
    (contact, vels)
}

/// Bodies with minus zeros, and changes that are zero.
pub fn still(rng: &mut Rng, _: u8) -> Case {
    let mut contact = contacts::random(rng, Like::Dyadic, [Some(0), Some(1)], 2);
    let vels = [0; 2].map(|_| [0; 3].map(|_| rng.pick(&[-0.0, -0.0, -0.0, 1.5])));
    for part in &mut contact.normals {
        part.seed = near(rng, 0.0);
        part.accumulator = -part.impulse;
    }
    (contact, vels)
}

/// For each wrong way, on how many done steps of a night it would show. The right way is held to the Rust's bits.
pub fn shown_by(night: Night) -> BTreeMap<Wrong, usize> {
    let mut counts = BTreeMap::new();
    let mut watch = |before: &Night, after: &Night, at: usize, done: &judge::Done| {
        if done.answer != 0 {
            return;
        }
        let contact = before.contacts[at].contact();
        let vel = |night: &Night, body: u32| match night.bodies.get(body as usize) {
            Some(vel) if body != FLOOR => vel.map(f32::from_bits),
            _ => [0.0; 3],
        };
        let vels = [contact.body1, contact.body2].map(|body| vel(before, body));
        let right = wrong::step(Wrong::Nothing, &contact, vels, done.kind);
        let cells = after.contacts[at].cells.map(f32::from_bits);
        let left = Left {
            vels: [contact.body1, contact.body2].map(|body| vel(after, body)),
            normals: [0, 1].map(|point| cells[normal_at(point) + IMPULSE]),
            tangents: [0, 1].map(|point| cells[tangent_at(point) + IMPULSE]),
            branch: done.branch as u8,
        };
        assert!(printed(&contact, &right) == printed(&contact, &left) && right.branch == left.branch);
        for &(wrong, _) in wrong::ALL {
            if shows(wrong, &(contact, vels), done.kind) {
                *counts.entry(wrong).or_default() += 1;
            }
        }
    };
    let _ = judge::watched(night, Some(&mut watch));
    counts
}

//! Good nights from a seed. Two families: apart, where every contact has bodies and a step of its own, so that each step's
//! result shows by itself; and chains, where up to 256 steps share a few bodies and contacts.

use crate::contacts;
use crate::night::{Night, Row, normal_at, tangent_at};
use crate::rng::Rng;
use crate::values::{LIKES, Like};

/// Whether the night of this number is a chain.
pub fn is_chain(number: u64) -> bool {
    number.is_multiple_of(3)
}

/// The night of this number of a seed.
pub fn night(seed: u64, number: u64) -> Night {
    let mut rng = Rng::new(seed.wrapping_mul(1_000_003).wrapping_add(number));
    let mut night = if is_chain(number) { chain(&mut rng) } else { apart(&mut rng) };
    if rng.percent(1) {
        let steps = night.steps.len();
        let at = rng.below(steps);
        if rng.percent(50) {
            night.steps[at].0 = rng.pick(&[night.contacts.len(), 64, 65535]);
        }
        if rng.percent(70) {
            night.steps[at / 2].1 = rng.pick(&[5, 6, 255, 65535]);
        }
    }
    night
}

/// Bodies taken one after another for a contact: both sides, or one and the floor.
fn take_sides(rng: &mut Rng, night: &mut Night, floor: bool) -> [Option<u32>; 2] {
    let next = night.bodies.len() as u32;
    night.bodies.push([0; 3]);
    if floor {
        return rng.pick(&[[Some(next), None], [None, Some(next)]]);
    }
    night.bodies.push([0; 3]);
    [Some(next), Some(next + 1)]
}

pub fn apart(rng: &mut Rng) -> Night {
    let mut night = Night::default();
    let floors = rng.pick(&[0, 30, 100]);
    let mut turn = rng.below(5) as u32;
    while night.bodies.len() + 2 <= 64 {
        let floor = rng.percent(floors);
        let sides = take_sides(rng, &mut night, floor);
        turn += 1;
        add_step(rng, &mut night, sides, turn % 5);
    }
    night
}

/// A contact of these bodies, and a step of this kind on it.
fn add_step(rng: &mut Rng, night: &mut Night, sides: [Option<u32>; 2], kind: u32) {
    let like = rng.pick(&LIKES);
    let count = match kind {
        4 if rng.percent(96) => 2,
        _ => rng.pick(&[1, 2]),
    };
    let vels = sides.map(|side| side.map_or([0.0; 3], |_| contacts::velocity(rng, like)));
    let mut contact = contacts::random(rng, like, sides, count);
    if kind == 4 && rng.percent(70) {
        let branch = 1 + rng.below(6) as u32;
        contacts::aim_pair(rng, &mut contact, vels, branch);
    } else if rng.percent(40) {
        contacts::aim(rng, &mut contact, vels, kind);
    }
    if kind == 4 && rng.percent(8) {
        contacts::at_cutoff(rng, &mut contact);
    }
    for (side, vel) in sides.iter().zip(vels) {
        if let Some(body) = side {
            night.bodies[*body as usize] = vel.map(f32::to_bits);
        }
    }
    let mut row = Row::from(&contact);
    if rng.percent(6) {
        damage(rng, night, &mut row);
    }
    night.steps.push((night.contacts.len(), kind));
    night.contacts.push(row);
}

fn chain(rng: &mut Rng) -> Night {
    let mut night = Night::default();
    let like = rng.pick(&[Like::Plain, Like::Plain, Like::Dyadic, Like::Mixed, Like::Tiny]);
    let settles = rng.percent(60);
    let bodies = 2 + rng.below(7);
    for _ in 0..bodies {
        let like = if settles { Like::Plain } else { like };
        night.bodies.push(contacts::velocity(rng, like).map(f32::to_bits));
    }
    for _ in 0..1 + rng.below(10) {
        let one = rng.below(bodies);
        let other = (one + 1 + rng.below(bodies - 1)) % bodies;
        let other = if rng.percent(25) { None } else { Some(other as u32) };
        let mut sides = [Some(one as u32), other];
        if rng.percent(50) {
            sides.reverse();
        }
        let count = rng.pick(&[1, 2, 2]);
        let contact =
            if settles { contacts::fitting(rng, sides, count) } else { contacts::random(rng, like, sides, count) };
        let mut row = Row::from(&contact);
        if rng.percent(4) {
            damage(rng, &mut night, &mut row);
        }
        night.contacts.push(row);
    }
    for _ in 0..256 - rng.below(40) {
        let contact = rng.below(night.contacts.len());
        let single = night.contacts[contact].count == 1 && rng.percent(90);
        let kind = rng.below(if single { 4 } else { 5 });
        night.steps.push((contact, kind as u32));
    }
    night
}

/// Something that a check refuses.
fn damage(rng: &mut Rng, night: &mut Night, row: &mut Row) {
    let point = rng.below(2);
    let no_number = rng.pick(&[0x7fc0_0000u32, 0x7f80_0001, 0xffc1_2345, 0x7f80_0000, 0xff80_0000]);
    let minus = rng.pick(&[0xbf80_0000u32, 0x8000_0001, 0xff7f_ffff]);
    match rng.below(12) {
        0 => row.cells[rng.below(45)] = no_number,
        1 => {
            let body = rng.below(night.bodies.len());
            night.bodies[body][rng.below(3)] = no_number;
        }
        2 => row.cells[2 + rng.below(5)] = minus,
        3 => row.cells[normal_at(point) + 7] = minus,
        4 => row.cells[tangent_at(point) + 7] = minus,
        5 => row.cells[normal_at(point) + 5] = minus,
        6 => row.cells[normal_at(point) + 8] = rng.pick(&[0, 0x8000_0000, 0x3f80_0001, 0xbf80_0000]),
        7 => row.body1 = rng.pick(&[64, 1000, 65534]),
        8 => row.body2 = row.body1,
        9 => row.count = rng.pick(&[0, 3, 65535]),
        10 => row.body1 = 65535,
        _ => row.body2 = 65535,
    }
}

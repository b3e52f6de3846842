//! The oracle's answer to a night: refusals by document 01, arithmetic by the user's Rust. Each done step is run twice
//! where the crate's own driver has it, by the element's routines and by the driver, and the two are held together.

use crate::night::{HEAD, IMPULSE, Night, Row, normal_at, record, tangent_at};
use oracle::{FLOOR, Tables};

/// What a step answered, and of which kind and count it was.
#[derive(Copy, Clone, Debug, PartialEq)]
pub struct Done {
    pub kind: u32,
    pub count: u32,
    pub answer: u32,
    pub branch: u32,
    /// Run by the driver too.
    pub by_driver: bool,
    /// A restitution that the crate's driver passes over, since no seed is below 0; true where passing it over would show.
    pub passed_over: Option<bool>,
}

/// Which kind of step last wrote each cell that is printed.
#[derive(Clone, Debug, Default)]
pub struct Writers {
    pub bodies: Vec<[Option<u32>; 3]>,
    /// Normal and tangent impulse of points a and b.
    pub impulses: Vec<[[Option<u32>; 2]; 2]>,
}

pub struct Answered {
    pub night: Night,
    pub steps: Vec<Done>,
    pub writers: Writers,
}

/// Sees the tables before and after a step, the contact's number, and what the step answered.
pub type Watch<'a> = &'a mut dyn FnMut(&Night, &Night, usize, &Done);

/// A night's answer, or the number that refuses the whole call.
pub fn answer(night: Night) -> Result<Answered, u32> {
    watched(night, None)
}

/// The same, each step being watched.
pub fn watched(mut night: Night, mut watch: Option<Watch>) -> Result<Answered, u32> {
    let contacts = night.contacts.len();
    if night.steps.iter().any(|step| step.0 >= contacts) {
        return Err(2);
    }
    if night.steps.iter().any(|step| step.1 > 4) {
        return Err(3);
    }
    let mut writers = Writers { bodies: vec![[None; 3]; night.bodies.len()], impulses: vec![[[None; 2]; 2]; contacts] };
    let list = night.steps.clone();
    let mut steps = vec![];
    for (contact, kind) in list {
        let before = watch.is_some().then(|| night.clone());
        let done = step(&mut night, &mut writers, contact, kind);
        if let (Some(watch), Some(before)) = (&mut watch, before) {
            watch(&before, &night, contact, &done);
        }
        steps.push(done);
    }
    Ok(Answered { night, steps, writers })
}

fn step(night: &mut Night, writers: &mut Writers, contact: usize, kind: u32) -> Done {
    let row = &night.contacts[contact];
    let mut done = Done {
        kind,
        count: row.count,
        answer: check_before(&night.bodies, row, kind),
        branch: 0,
        by_driver: false,
        passed_over: None,
    };
    if done.answer != 0 {
        return done;
    }
    let (tables, branch, by_driver) = run(&night.bodies, row, kind);
    done.by_driver = by_driver;
    if kind == 3 && (0..row.count as usize).all(|point| row.contact().normals[point].seed >= 0.0) {
        done.passed_over = Some(changes(&night.bodies, row, &tables));
    }
    let real = real_bodies(row);
    let impulses = written(kind, row.count);
    let after = |&(point, tangent): &(usize, bool)| {
        let (n, t) = tables.impulses(0, point);
        if tangent { t } else { n }
    };
    for at in (0..row.count as usize).flat_map(|point| [(point, false), (point, true)]) {
        let (point, tangent) = at;
        let part = if tangent { tangent_at(point) } else { normal_at(point) };
        let kept = after(&at).to_bits() == row.cells[part + IMPULSE];
        assert!(kept || impulses.contains(&at), "kind {kind} changed an impulse that document 01 says it leaves");
    }
    let finite = real.iter().all(|&(side, _)| tables.body(side).iter().all(|f| f.is_finite()))
        && impulses.iter().all(|at| after(at).is_finite());
    if !finite {
        done.answer = 10;
        return done;
    }
    done.branch = branch;
    for &(side, body) in &real {
        night.bodies[body] = tables.body(side).map(f32::to_bits);
        writers.bodies[body] = [Some(kind); 3];
    }
    for at in &impulses {
        let (point, tangent) = *at;
        let part = if tangent { tangent_at(point) } else { normal_at(point) };
        night.contacts[contact].cells[part + IMPULSE] = after(at).to_bits();
        writers.impulses[contact][point][usize::from(tangent)] = Some(kind);
    }
    done
}

/// The sides that are real bodies, and their numbers.
fn real_bodies(row: &Row) -> Vec<(usize, usize)> {
    let sides = [row.body1, row.body2].into_iter().enumerate();
    sides.filter(|&(_, body)| body != FLOOR).map(|(side, body)| (side, body as usize)).collect()
}

/// Whether a step changes a bit of its bodies; one that is refused with 10 does, since passing over would not be refused.
fn changes(bodies: &[[u32; 3]], row: &Row, tables: &Tables) -> bool {
    let same = |&(side, body): &(usize, usize)| tables.body(side).map(f32::to_bits) == bodies[body];
    !real_bodies(row).iter().all(same)
}

/// The impulses that a kind stores: which point, and whether the tangent's.
fn written(kind: u32, count: u32) -> Vec<(usize, bool)> {
    match kind {
        0 => vec![],
        2 => (0..count as usize).map(|point| (point, true)).collect(),
        _ => (0..count as usize).map(|point| (point, false)).collect(),
    }
}

/// The step over a table of its own two bodies, side 1 being row 0 and side 2 row 1. Panics where the driver, given the
/// same, leaves other bits than the element's routines.
fn run(bodies: &[[u32; 3]], row: &Row, kind: u32) -> (Tables, u32, bool) {
    let mut contact = row.contact();
    let mut vel = |body: u32, side: u32| {
        if body == FLOOR {
            [0.0; 3]
        } else {
            if side == 0 {
                contact.body1 = 0;
            } else {
                contact.body2 = 1;
            }
            bodies[body as usize].map(f32::from_bits)
        }
    };
    let vels = [vel(row.body1, 0), vel(row.body2, 1)];
    let start = Tables::new(&vels, &[contact]);
    let mut tables = start.clone();
    let branch = tables.run(0, kind as u8);
    let mut driven = start;
    let by_driver = driven.run_by_driver(0, kind as u8);
    if let Some(other) = by_driver {
        let same = other == branch && bits(&driven, row.count) == bits(&tables, row.count);
        assert!(same, "driver and element differ: kind {kind}, {row:?}, {vels:?}");
    }
    (tables, branch.into(), by_driver.is_some())
}

/// All that a step may leave, for comparing; any NaN is as good as another.
fn bits(tables: &Tables, count: u32) -> Vec<u32> {
    let bit = |f: f32| if f.is_nan() { 0x7fc0_0000 } else { f.to_bits() };
    let mut all: Vec<u32> = (0..2).flat_map(|side| tables.body(side)).map(bit).collect();
    for point in 0..count as usize {
        let (normal, tangent) = tables.impulses(0, point);
        all.extend([bit(normal), bit(tangent)]);
    }
    all
}

/// Numbers 5 to 9, in their order; 0 where the step may be worked.
fn check_before(bodies: &[[u32; 3]], row: &Row, kind: u32) -> u32 {
    let known = |body: u32| body == FLOOR || (body as usize) < bodies.len();
    if !known(row.body1) || !known(row.body2) || row.body1 == row.body2 {
        return 5;
    }
    if !matches!(row.count, 1 | 2) {
        return 6;
    }
    if kind == 4 && row.count == 1 {
        return 7;
    }
    let count = row.count as usize;
    let finite = |&cell: &u32| f32::from_bits(cell).is_finite();
    let body_finite = |&(_, body): &(usize, usize)| bodies[body].iter().all(finite);
    if !row.cells[..HEAD + 18 * count].iter().all(finite) || !real_bodies(row).iter().all(body_finite) {
        return 8;
    }
    if in_range(row) { 0 } else { 9 }
}

/// Check 9.
fn in_range(row: &Row) -> bool {
    let contact = row.contact();
    let points = 0..row.count as usize;
    let head = [contact.im1[0], contact.im1[1], contact.im2[0], contact.im2[1], contact.friction];
    let part = |point: usize| {
        let (normal, tangent) = (contact.normals[point], contact.tangents[point]);
        normal.r >= 0.0 && tangent.r >= 0.0 && normal.impulse >= 0.0 && normal.cfm > 0.0 && normal.cfm <= 1.0
    };
    let still1 = |point: usize| contact.normals[point].ii1 == 0.0 && contact.tangents[point].ii1 == 0.0;
    let still2 = |point: usize| contact.normals[point].ii2 == 0.0 && contact.tangents[point].ii2 == 0.0;
    head.iter().all(|&f| f >= 0.0)
        && points.clone().all(part)
        && (row.body1 != FLOOR || contact.im1 == [0.0; 2] && points.clone().all(still1))
        && (row.body2 != FLOOR || contact.im2 == [0.0; 2] && points.clone().all(still2))
}

/// The text of an answer.
pub fn text(result: &Result<Answered, u32>) -> String {
    let mut out = String::new();
    let answered = match result {
        Err(number) => {
            record(&mut out, "R", &[*number], &[]);
            return out;
        }
        Ok(answered) => answered,
    };
    for done in &answered.steps {
        record(&mut out, "A", &[done.answer, done.branch], &[]);
    }
    for body in &answered.night.bodies {
        record(&mut out, "B", &[], body);
    }
    for (at, row) in answered.night.contacts.iter().enumerate() {
        for point in 0..row.points() {
            let impulses = [normal_at(point), tangent_at(point)].map(|part| row.cells[part + IMPULSE]);
            record(&mut out, "I", &[at as u32, point as u32], &impulses);
        }
    }
    let refused = answered.steps.iter().filter(|done| done.answer != 0).count();
    record(&mut out, "E", &[answered.steps.len() as u32, refused as u32], &[]);
    out
}

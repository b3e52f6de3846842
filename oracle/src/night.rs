//! Document 01's text form: a night is read into tables of bit patterns and written from them. Cells stay patterns, so
//! that one that no step stores to is printed as it was read, a NaN's payload too.

use oracle::{Contact, Normal, Tangent};
use std::fmt::Write;

/// A contact's row: its floats are head 9, then normal 10 and tangent 8 of point a, then of point b.
#[derive(Clone, Debug, PartialEq)]
pub struct Row {
    pub body1: u32,
    pub body2: u32,
    pub count: u32,
    pub cells: [u32; 45],
}

/// The places of a contact's cells.
pub const HEAD: usize = 9;
pub const fn normal_at(point: usize) -> usize {
    HEAD + 18 * point
}
pub const fn tangent_at(point: usize) -> usize {
    HEAD + 18 * point + 10
}
/// The impulse's place within a part of either kind.
pub const IMPULSE: usize = 5;

#[derive(Clone, Debug, Default, PartialEq)]
pub struct Night {
    pub bodies: Vec<[u32; 3]>,
    pub contacts: Vec<Row>,
    pub steps: Vec<(usize, u32)>,
}

impl Row {
    /// The same contact in numbers. A count above 255 is cut; check 6 has refused it by then.
    pub fn contact(&self) -> Contact {
        let f = self.cells.map(f32::from_bits);
        let part = |at: usize| (f[at], f[at + 1], f[at + 2], f[at + 3], f[at + 4]);
        let normal = |point: usize| {
            let at = normal_at(point);
            let (torque1, torque2, ii1, ii2, rhs) = part(at);
            Normal {
                torque1,
                torque2,
                ii1,
                ii2,
                rhs,
                impulse: f[at + 5],
                accumulator: f[at + 6],
                r: f[at + 7],
                cfm: f[at + 8],
                seed: f[at + 9],
            }
        };
        let tangent = |point: usize| {
            let at = tangent_at(point);
            let (torque1, torque2, ii1, ii2, rhs) = part(at);
            Tangent { torque1, torque2, ii1, ii2, rhs, impulse: f[at + 5], accumulator: f[at + 6], r: f[at + 7] }
        };
        Contact {
            body1: self.body1,
            body2: self.body2,
            count: self.count as u8,
            dir: [f[0], f[1]],
            im1: [f[2], f[3]],
            im2: [f[4], f[5]],
            friction: f[6],
            k12: f[7],
            flag: f[8],
            normals: [normal(0), normal(1)],
            tangents: [tangent(0), tangent(1)],
        }
    }

    /// The points that have I lines.
    pub fn points(&self) -> usize {
        if matches!(self.count, 1 | 2) { self.count as usize } else { 0 }
    }
}

impl From<&Contact> for Row {
    fn from(contact: &Contact) -> Self {
        let mut cells = [contact.dir, contact.im1, contact.im2].concat();
        cells.extend([contact.friction, contact.k12, contact.flag]);
        for (n, t) in contact.normals.iter().zip(&contact.tangents) {
            cells.extend([n.torque1, n.torque2, n.ii1, n.ii2, n.rhs]);
            cells.extend([n.impulse, n.accumulator, n.r, n.cfm, n.seed]);
            cells.extend([t.torque1, t.torque2, t.ii1, t.ii2, t.rhs]);
            cells.extend([t.impulse, t.accumulator, t.r]);
        }
        let cells: Vec<u32> = cells.into_iter().map(f32::to_bits).collect();
        Self {
            body1: contact.body1,
            body2: contact.body2,
            count: contact.count.into(),
            cells: cells.try_into().unwrap(),
        }
    }
}

/// Reads a good text; of a bad one it says which line it could not read, and judges no further.
pub fn read(text: &str) -> Result<Night, String> {
    let lines: Vec<Vec<&str>> = text.split_terminator('\n').map(|line| line.split('\t').collect()).collect();
    let mut night = Night::default();
    let mut at = 0;
    while at < lines.len() {
        let taken = take(&mut night, &lines[at..]);
        at += taken.ok_or_else(|| format!("line {} is not read here", at + 1))?;
    }
    Ok(night)
}

/// Reads the next record, all five lines of a contact, and tells how many lines it had.
fn take(night: &mut Night, lines: &[Vec<&str>]) -> Option<usize> {
    let fields = &lines[0][1..];
    match lines[0][0] {
        "B" if night.contacts.is_empty() && night.steps.is_empty() && night.bodies.len() < 64 => {
            night.bodies.push(floats(fields)?);
            Some(1)
        }
        "C" if night.steps.is_empty() && night.contacts.len() < 64 => {
            let [body1, body2, count] = numbers(fields.get(..3)?)?;
            let mut cells = floats::<HEAD>(&fields[3..])?.to_vec();
            for (at, letter) in ["N", "T", "N", "T"].iter().enumerate() {
                cells.extend(part(letter, lines.get(at + 1)?)?);
            }
            night.contacts.push(Row { body1, body2, count, cells: cells.try_into().ok()? });
            Some(5)
        }
        "S" if night.steps.len() < 256 => {
            let [contact, kind] = numbers(fields)?;
            night.steps.push((contact as usize, kind));
            Some(1)
        }
        _ => None,
    }
}

fn part(letter: &str, fields: &[&str]) -> Option<Vec<u32>> {
    match fields[0] == letter {
        true if letter == "N" => floats::<10>(&fields[1..]).map(|cells| cells.to_vec()),
        true => floats::<8>(&fields[1..]).map(|cells| cells.to_vec()),
        false => None,
    }
}

fn floats<const N: usize>(fields: &[&str]) -> Option<[u32; N]> {
    let cells: Option<Vec<u32>> = fields.iter().map(|f| float(f)).collect();
    cells?.try_into().ok()
}

pub fn float(field: &str) -> Option<u32> {
    let good = |b: u8| b.is_ascii_digit() || (b'a'..=b'f').contains(&b);
    if field.len() == 8 && field.bytes().all(good) { u32::from_str_radix(field, 16).ok() } else { None }
}

fn numbers<const N: usize>(fields: &[&str]) -> Option<[u32; N]> {
    let some: Option<Vec<u32>> = fields.iter().map(|f| number(f)).collect();
    some?.try_into().ok()
}

fn number(field: &str) -> Option<u32> {
    let plain = field.bytes().all(|b| b.is_ascii_digit()) && (field == "0" || !field.starts_with('0'));
    let number = field.parse().ok().filter(|&number| number <= 65535);
    if plain { number } else { None }
}

/// The text of a night.
pub fn text(night: &Night) -> String {
    let mut out = String::new();
    for body in &night.bodies {
        record(&mut out, "B", &[], body);
    }
    for row in &night.contacts {
        let numbers = [row.body1, row.body2, row.count];
        record(&mut out, "C", &numbers, &row.cells[..HEAD]);
        for point in 0..2 {
            record(&mut out, "N", &[], &row.cells[normal_at(point)..tangent_at(point)]);
            record(&mut out, "T", &[], &row.cells[tangent_at(point)..normal_at(point + 1)]);
        }
    }
    for &(contact, kind) in &night.steps {
        record(&mut out, "S", &[contact as u32, kind], &[]);
    }
    out
}

/// One line: the letter, decimals, floats.
pub fn record(out: &mut String, letter: &str, numbers: &[u32], floats: &[u32]) {
    out.push_str(letter);
    for number in numbers {
        write!(out, "\t{number}").unwrap();
    }
    for float in floats {
        write!(out, "\t{float:08x}").unwrap();
    }
    out.push('\n');
}

//! The text program beside a plain reader and writer, as processes: what the best run of each takes, by turns.

use crate::nights::{Night, feet, of_kind};
use crate::sides::Sides;
use std::fmt::Write;
use std::fs::{self, File};
use std::path::Path;
use std::process::Command;
use std::time::Instant;

const RUNS: usize = 400;

/// The largest night that the program takes: 64 bodies, 64 contacts, 256 steps, of all kinds.
fn night() -> Night {
    let steps = feet(256).steps.iter().enumerate().map(|(i, &(_, kind))| ((i % 64) as u16, kind)).collect();
    Night { steps, ..of_kind(64, 2, 0, 0) }
}

fn line(out: &mut String, letter: &str, numbers: &[u32], floats: &[f32]) {
    out.push_str(letter);
    numbers.iter().for_each(|number| write!(out, "\t{number}").unwrap());
    floats.iter().for_each(|float| write!(out, "\t{:08x}", float.to_bits()).unwrap());
    out.push('\n');
}

/// The night in document 01's text form.
fn text(night: &Night) -> String {
    let mut out = String::new();
    night.bodies.iter().for_each(|body| line(&mut out, "B", &[], body));
    for c in &night.contacts {
        let head = [c.dir[0], c.dir[1], c.im1[0], c.im1[1], c.im2[0], c.im2[1], c.friction, c.k12, c.flag];
        line(&mut out, "C", &[c.body1, c.body2, c.count.into()], &head);
        for (n, t) in c.normals.iter().zip(&c.tangents) {
            let normal = [n.torque1, n.torque2, n.ii1, n.ii2, n.rhs, n.impulse, n.accumulator, n.r, n.cfm, n.seed];
            line(&mut out, "N", &[], &normal);
            line(&mut out, "T", &[], &[t.torque1, t.torque2, t.ii1, t.ii2, t.rhs, t.impulse, t.accumulator, t.r]);
        }
    }
    night.steps.iter().for_each(|&(contact, kind)| line(&mut out, "S", &[contact.into(), kind.into()], &[]));
    out
}

/// What the answer has to have after its A lines, as far as the bodies.
fn bodies_of(night: &Night) -> String {
    let mut sides = Sides::new(night);
    sides.run_ours(night.steps.len());
    let mut out = String::new();
    sides.bodies().chunks_exact(3).for_each(|body| line(&mut out, "B", &[], body));
    out
}

/// Microseconds that one run takes, from its start to its end.
fn run(command: &mut Command, from: &Path, to: &Path) -> f64 {
    command.stdin(File::open(from).unwrap()).stdout(File::create(to).unwrap());
    let began = Instant::now();
    let status = command.status().expect("the program starts");
    let took = began.elapsed().as_nanos() as f64 / 1000.0;
    assert!(status.success(), "the program fails: {status}");
    took
}

pub fn measure(program: &str, plain: &str, folder: &Path) {
    let night = night();
    let (asked, answered) = (folder.join("night.txt"), folder.join("night.answer"));
    fs::write(&asked, text(&night)).unwrap();
    run(&mut Command::new(program), &asked, &answered);
    let answer = fs::read_to_string(&answered).unwrap();
    assert!(answer.contains(&bodies_of(&night)), "the program's bodies are not the library's");
    assert!(answer.ends_with("E\t256\t0\n"), "a step is refused");
    let (read, written) = (fs::metadata(&asked).unwrap().len(), answer.len());
    let mut best = [f64::INFINITY; 2];
    let mut all = [Vec::new(), Vec::new()];
    for _ in 0..RUNS {
        let took = run(&mut Command::new(program), &asked, &answered);
        let plainly = run(Command::new(plain).arg(written.to_string()), &asked, &folder.join("plain.answer"));
        for (at, took) in [took, plainly].into_iter().enumerate() {
            best[at] = best[at].min(took);
            all[at].push(took);
        }
    }
    tell(read as f64, written as f64, best, all.map(|mut times| middle(&mut times)));
}

fn middle(times: &mut [f64]) -> f64 {
    times.sort_by(f64::total_cmp);
    times[times.len() / 2]
}

fn tell(read: f64, written: f64, best: [f64; 2], middle: [f64; 2]) {
    println!("\n### The text program: {read} bytes read, {written} written, best and middle of {RUNS} runs each\n");
    println!("| | best, µs | middle, µs | bytes read per second, best |\n|---|--:|--:|--:|");
    for (at, name) in ["sheet", "plain read and write"].into_iter().enumerate() {
        println!("| {name} | {:.0} | {:.0} | {:.0} million |", best[at], middle[at], read / best[at]);
    }
    let more = best[0] - best[1];
    println!("\nsheet takes {more:.0} µs more: {:.1} ns for each byte read.", 1000.0 * more / read);
}

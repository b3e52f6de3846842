//! Holds a program's answer to the oracle's, and counts. Floats are to be equal in bits; two zeros of unlike sign are
//! counted apart, by the kind of step that last wrote the cell, and are no failure.

use crate::judge::{self, Answered};
use crate::night;
use std::collections::BTreeMap;
use std::fmt::Write;

#[derive(Default)]
pub struct Counts {
    pub nights: usize,
    pub failed: usize,
    /// Steps by kind, count and answer.
    pub steps: BTreeMap<(u32, u32, u32), usize>,
    pub branches: BTreeMap<u32, usize>,
    pub by_driver: usize,
    /// Restitutions that the crate's driver passes over, and those of them where it would show.
    pub passed_over: [usize; 2],
    pub refused_calls: BTreeMap<u32, usize>,
    /// Cells that some step wrote, by its kind: equal in bits and not zero, equal zeros, zeros of unlike sign, unlike.
    pub written: BTreeMap<u32, [usize; 4]>,
    /// Cells that no step wrote, which are to be printed as they were read.
    pub kept: usize,
}

/// The place of each float in an answer's lines: which kind of step last wrote it.
fn writers(answered: &Answered) -> Vec<Vec<Option<u32>>> {
    let mut lines = vec![vec![]; answered.steps.len()];
    lines.extend(answered.writers.bodies.iter().map(|cells| cells.to_vec()));
    for (row, points) in answered.night.contacts.iter().zip(&answered.writers.impulses) {
        let points = &points[..row.points()];
        lines.extend(points.iter().map(|cells| cells.to_vec()));
    }
    lines.push(vec![]);
    lines
}

/// Compares one answer; what it finds is said in `said`. True where nothing but signs of zeros differs.
pub fn one(name: &str, input: &str, ours: &str, counts: &mut Counts, said: &mut String) -> Result<bool, String> {
    let result = judge::answer(night::read(input)?);
    let expected = judge::text(&result);
    counts.nights += 1;
    let kinds = match &result {
        Ok(answered) => {
            tally(answered, counts);
            writers(answered)
        }
        Err(number) => {
            *counts.refused_calls.entry(*number).or_default() += 1;
            vec![vec![]]
        }
    };
    // `lines` takes a carriage return, and a last line without its newline, for nothing
    let ends_right = ours.ends_with('\n') && !ours.contains('\r');
    let (theirs, ours): (Vec<&str>, Vec<&str>) = (expected.lines().collect(), ours.lines().collect());
    let mut good = theirs.len() == ours.len() && ends_right;
    if !good {
        writeln!(said, "{name}: {} lines, or wrong ends of lines; the oracle has {}", ours.len(), theirs.len())
            .unwrap();
    }
    for (at, (their, our)) in theirs.iter().zip(&ours).enumerate() {
        if !line(their, our, &kinds[at], counts) {
            writeln!(said, "{name}: answer line {}: oracle '{their}', program '{our}'", at + 1).unwrap();
            good = false;
        }
    }
    counts.failed += usize::from(!good);
    Ok(good)
}

fn tally(answered: &Answered, counts: &mut Counts) {
    for done in &answered.steps {
        let class = (done.kind, done.count, done.answer);
        *counts.steps.entry(class).or_default() += 1;
        counts.by_driver += usize::from(done.by_driver);
        if let Some(shows) = done.passed_over {
            counts.passed_over[0] += 1;
            counts.passed_over[1] += usize::from(shows);
        }
        if done.kind == 4 && done.answer == 0 {
            *counts.branches.entry(done.branch).or_default() += 1;
        }
    }
}

/// Compares a line, its last fields being the floats that `kinds` has writers for.
fn line(their: &str, our: &str, kinds: &[Option<u32>], counts: &mut Counts) -> bool {
    let (their, our): (Vec<&str>, Vec<&str>) = (their.split('\t').collect(), our.split('\t').collect());
    if their.len() != our.len() {
        return false;
    }
    let plain = their.len() - kinds.len();
    let mut good = their[..plain] == our[..plain];
    for (at, kind) in kinds.iter().enumerate() {
        let (their, our) = (their[plain + at], our[plain + at]);
        let Some(kind) = kind else {
            counts.kept += 1;
            good &= their == our;
            continue;
        };
        let zero = |field: &str| field == "00000000" || field == "80000000";
        let class = match (their == our, zero(their) && zero(our)) {
            (true, false) => 0,
            (true, true) => 1,
            (false, true) => 2,
            (false, false) => 3,
        };
        counts.written.entry(*kind).or_default()[class] += 1;
        good &= class != 3;
    }
    good
}

pub const KINDS: [&str; 5] = ["0 warm start", "1 normal", "2 friction", "3 restitution", "4 pair"];

/// The tables of a run.
pub fn report(counts: &Counts) -> String {
    let mut out = steps_table(counts);
    let mut sum = [0; 4];
    writeln!(out, "\nfloats written by a step, by the kind that wrote them last").unwrap();
    writeln!(out, "{:14} {:>10} {:>12} {:>12} {:>8}", "kind", "same bits", "same zero", "zero's sign", "unlike")
        .unwrap();
    for (kind, cells) in &counts.written {
        let [same, zero, sign, unlike] = cells;
        writeln!(out, "{:14} {same:>10} {zero:>12} {sign:>12} {unlike:>8}", KINDS[*kind as usize]).unwrap();
        for (total, cell) in sum.iter_mut().zip(cells) {
            *total += cell;
        }
    }
    let [same, zero, sign, unlike] = sum;
    writeln!(out, "{:14} {same:>10} {zero:>12} {sign:>12} {unlike:>8}", "all").unwrap();
    let floats: usize = sum.iter().sum();
    writeln!(
        out,
        "{} floats compared: {} equal in bits ({} of them cells that no step wrote), {sign} zeros of unlike sign, {unlike} unlike",
        floats + counts.kept,
        same + zero + counts.kept,
        counts.kept
    )
    .unwrap();
    out
}

/// Steps by kind, count and answer, and pairs by branch.
pub fn steps_table(counts: &Counts) -> String {
    let mut out = String::new();
    let total: usize = counts.steps.values().sum();
    let answers = [0, 5, 6, 7, 8, 9, 10];
    write!(out, "steps: {total} in {} nights\n{:14} {:>6}", counts.nights, "kind", "count").unwrap();
    for answer in answers {
        write!(out, " {:>8}", format!("answer {answer}")).unwrap();
    }
    let classes: std::collections::BTreeSet<(u32, u32)> = counts.steps.keys().map(|&(k, c, _)| (k, c)).collect();
    for (kind, count) in classes {
        write!(out, "\n{:14} {count:>6}", KINDS[kind as usize]).unwrap();
        for answer in answers {
            let steps = counts.steps.get(&(kind, count, answer)).unwrap_or(&0);
            write!(out, " {steps:>8}").unwrap();
        }
    }
    let names = ["both", "a only", "b only", "none", "previous kept", "degraded"];
    write!(out, "\npairs by branch:").unwrap();
    for (branch, name) in names.iter().enumerate() {
        let steps = counts.branches.get(&(branch as u32 + 1)).unwrap_or(&0);
        write!(out, " {} {name} {steps}{}", branch + 1, if branch < 5 { "," } else { "\n" }).unwrap();
    }
    for (number, nights) in &counts.refused_calls {
        writeln!(out, "calls refused with {number}: {nights}").unwrap();
    }
    writeln!(out, "steps that the crate's own driver did too, with the same bits: {}", counts.by_driver).unwrap();
    let [all, show] = counts.passed_over;
    writeln!(out, "restitutions that the crate's driver would pass over, no seed being below 0: {all}; where that would show: {show}").unwrap();
    out
}

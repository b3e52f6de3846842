//! The kept vectors: which nights they are, and how each is made. The same on every run.

use crate::judge;
use crate::night::{self, Night};
use crate::nights;
use crate::rng::Rng;
use crate::rounding::{self, Case, ROOM, Search, shows};
use crate::wrong::{self, Wrong};
use Wrong::*;
use std::path::Path;
use std::{fs, io};

const PUSH: [Wrong; 3] = [FusedPush, PushMassByChange, PushChangeFirst];
const DVEL: [Wrong; 4] = [FusedDot, FusedDvel, DvelLinFirst, DvelRhsFirst];
const PAIR: [Wrong; 5] = [FusedDot, FusedDvel, DvelRhsFirst, PairSingleOrder, PairDotOfDifference];
const DEGRADED: [Wrong; 6] =
    [DegradedALinFirst, DegradedBSingleOrder, DegradedBAfterPush, FusedImpulse, FlagAtHalf, CfmForgotten];
const APART: [Wrong; 2] = [PairPushApart, PairSpinApart];

/// Nights in which an order of arithmetic shows: name, kind, branch (or 0), and the wrong orders searched for.
const ORDERS: [(&str, u32, u8, &[&[Wrong]]); 9] = [
    ("warm-start", 0, 0, &[&PUSH, &[TangentOtherWay, PointBFirst, WarmByPoint]]),
    ("normal", 1, 0, &[&PUSH, &DVEL, &[FusedImpulse, PointBFirst, CfmOnChange, CfmForgotten]]),
    ("friction", 2, 0, &[&PUSH, &DVEL, &[FusedImpulse, PointBFirst, TangentOtherWay]]),
    ("restitution", 3, 0, &[&PUSH, &DVEL, &[FusedImpulse, PointBFirst, RestitutionWithCfm, RestitutionByRhs]]),
    ("pair-both", 4, 1, &[&PUSH, &PAIR, &APART, &[DivideByDet, DivideByCfm, CfmForgotten]]),
    ("pair-a-only", 4, 2, &[&PUSH, &PAIR, &APART, &[DivideByMass, DivideByCfm, CfmForgotten]]),
    ("pair-b-only", 4, 3, &[&PUSH, &PAIR, &APART, &[DivideByMass, DivideByCfm, CfmForgotten]]),
    ("pair-none", 4, 4, &[&PUSH, &APART]),
    ("pair-degraded", 4, 6, &[&PUSH, &APART, &DEGRADED, &[FusedDot, FusedDvel, DvelRhsFirst]]),
];

/// Nights at an edge: name, seed, kind, how many contacts for each wrong way, the wrong ways, and what makes a contact.
type Edge = (&'static str, u64, u32, usize, &'static [Wrong], fn(&mut Rng, u8) -> Case);
const EDGES: [Edge; 4] = [
    ("clamp-ends", 11, 2, 20, &[LimitOfPointA, LimitOfFriction, ClampUpperOnly], rounding::ends),
    ("inv-cutoff", 12, 4, 16, &[InvClosed, InvNoCutoff], rounding::cutoffs),
    ("pair-edges", 14, 4, 10, &[NoneFirst, DetAtZero, StrictBoth, StrictA, StrictB], rounding::edges),
    (
        "restitution-gate",
        15,
        3,
        20,
        &[RestitutionNoGate, GateSeedAtZero, GateTotalAtZero, GateByImpulse],
        rounding::gates,
    ),
];

/// The nights by name.
fn all() -> Vec<(String, Night)> {
    let mut all = vec![];
    for (name, kind, branch, wrongs) in ORDERS {
        let seed = 100 * u64::from(kind) + u64::from(branch);
        let wrongs = &wrongs.concat();
        let search = Search { seed, kind, branch, wrongs, wanted: 20, make: rounding::plain };
        all.push((format!("order-{name}"), rounding::search(&search)));
    }
    for (name, seed, kind, wanted, wrongs, make) in EDGES {
        let search = Search { seed, kind, branch: 0, wrongs, wanted, make };
        all.push((name.into(), rounding::search(&search)));
    }
    all.push(("exact/zero-push".into(), zero_push()));
    for (seed, number) in [(1, 1), (1, 2), (2, 1)] {
        all.push((format!("apart-{seed}-{number}"), nights::night(seed, number)));
    }
    for (seed, number) in [(1, 0), (1, 3), (2, 6)] {
        all.push((format!("chain-{seed}-{number}"), nights::night(seed, number)));
    }
    all
}

/// Changes of zero on bodies with minus zeros, of every kind: not pushing them would show in a zero's sign. Kept are those
/// on which it is no matter which of two zeros `max` leaves.
fn zero_push() -> Night {
    let mut rng = Rng::new(13);
    let mut night = Night::default();
    let mut turn = 0;
    while night.contacts.len() < ROOM {
        let kind = turn % 5;
        let case = rounding::still(&mut rng, 0);
        if shows(ZeroPushSkipped, &case, kind) && !shows(MaxLeft, &case, kind) {
            rounding::add(&mut night, case, kind);
            turn += 1;
        }
    }
    night
}

/// Writes each night and the oracle's answer.
pub fn write(dir: &Path) -> io::Result<()> {
    fs::create_dir_all(dir.join("exact"))?;
    for (name, night) in all() {
        fs::write(dir.join(format!("{name}.txt")), night::text(&night))?;
        let answer = judge::text(&judge::answer(night));
        fs::write(dir.join(format!("{name}.out")), answer)?;
    }
    Ok(())
}

/// Which wrong ways the kept nights of a folder would show, by how many steps.
pub fn tell(dir: &Path) -> Result<(), String> {
    let mut files = crate::texts(dir)?;
    files.extend(crate::texts(&dir.join("exact"))?);
    let nights: Result<Vec<Night>, String> = files.iter().map(|path| night::read(&crate::read(path)?)).collect();
    let shown: Vec<_> = nights?.into_iter().map(rounding::shown_by).collect();
    for (wrong, says) in wrong::ALL {
        let steps: Vec<usize> = shown.iter().map(|counts| *counts.get(wrong).unwrap_or(&0)).collect();
        let best = steps.iter().max().unwrap_or(&0);
        let at = steps.iter().position(|steps| steps == best).unwrap_or(0);
        let name = files[at].file_stem().unwrap().to_string_lossy();
        println!("{says:72} {:>5} steps, {best:>3} of them in {name}", steps.iter().sum::<usize>());
    }
    Ok(())
}

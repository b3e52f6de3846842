//! The tables of a run, in Markdown.

use crate::clock::{Times, both, checks_alone};
use crate::nights::{Night, at_random, feet, of_kind, on_the_floor};

const KINDS: [&str; 5] = ["0 warm start", "1 normal", "2 friction", "3 restitution", "4 pair"];
const LENGTHS: [usize; 5] = [256, 1024, 4096, 16384, 65536];

fn header(title: &str, columns: &[String]) {
    println!("\n### {title}\n");
    println!("| {} |", columns.join(" | "));
    println!("|---{}|", "|--:".repeat(columns.len() - 1));
}

/// Ours / Rust and the ratio of them.
fn cell(times: Times) -> String {
    format!("{:.1} / {:.1} = {:.2}", times.ours, times.rust, times.ours / times.rust)
}

fn lengths_header(title: &str, first: &str, lengths: &[usize]) {
    let mut columns = vec![first.to_string()];
    columns.extend(lengths.iter().map(|length| format!("{length} steps")));
    header(title, &columns);
}

/// One row: a night for each length.
fn row(name: &str, lengths: &[usize], night: impl Fn(usize) -> Night) {
    let cells: Vec<String> = lengths.iter().map(|&length| cell(both(&night(length)).0.per_step(length))).collect();
    println!("| {name} | {} |", cells.join(" | "));
}

/// Each kind, over 64 contacts and 64 bodies, each contact named again and again.
pub fn kinds() {
    lengths_header("Each kind, 64 contacts: ns per step, ours / Rust = ratio", "kind, points", &LENGTHS);
    for (kind, name) in KINDS.iter().enumerate() {
        for count in if kind == 4 { 2..=2 } else { 1..=2 } {
            row(&format!("{name}, {count}"), &LENGTHS, |length| of_kind(64, count, kind as u16, length));
        }
    }
    let (_, branches) = both(&of_kind(64, 2, 4, 65536));
    assert!(branches[1..].iter().filter(|&&steps| steps > 0).count() >= 4, "the pairs take few branches: {branches:?}");
    println!("\nBranches 1 to 6 of the 65536 pairs: {:?}.", &branches[1..]);
}

/// What earlier states were measured by, so that they can be compared.
pub fn floor() {
    let lengths = [65536];
    lengths_header("Each kind, 256 contacts of two points on the floor", "kind", &lengths);
    for (kind, name) in KINDS.iter().enumerate() {
        row(name, &lengths, |length| on_the_floor(kind as u16, length));
    }
}

/// Contacts in no order that a processor could foresee, which tells code with branches from code with selects.
pub fn random() {
    let lengths = [4096, 65536];
    lengths_header("Random order, 64 contacts of two points", "kind", &lengths);
    for (kind, name) in KINDS.iter().enumerate() {
        row(name, &lengths, |length| at_random(&[kind as u16], length));
    }
    row("any, drawn for each step", &lengths, |length| at_random(&[0, 1, 2, 3, 4], length));
}

/// The mixed night.
pub fn mixed() {
    lengths_header("A mixed night, 40 feet of 2 contacts", "", &LENGTHS);
    row("feet", &LENGTHS, feet);
}

/// Each contact named once.
pub fn first_touch() {
    let lengths = [256, 4096, 16384];
    lengths_header("First touch: each contact named once, two points", "kind", &lengths);
    for (kind, name) in KINDS.iter().enumerate() {
        row(name, &lengths, |length| of_kind(length, 2, kind as u16, length));
    }
}

/// Where the time goes, in ns per step over 256 contacts of two points. A list that names each contact once is set beside
/// one that names each 16 times; what an empty call takes is taken off.
pub fn shares() {
    const CONTACTS: usize = 256;
    const LONG: usize = 16 * CONTACTS;
    let empty = checks_alone(&of_kind(CONTACTS, 2, 0, 0));
    let names = ["kind", "first touch", "repeated", "test of a contact", "Rust", "call's checks", "rest"];
    header("Where the time goes: ns per step, 256 contacts of two points", &names.map(String::from));
    for (kind, name) in KINDS.iter().enumerate() {
        let night = |length| of_kind(CONTACTS, 2, kind as u16, length);
        let (once, _) = both(&night(CONTACTS));
        let (often, _) = both(&night(LONG));
        let first = (once.ours - empty) / CONTACTS as f64;
        let again = (LONG - CONTACTS) as f64;
        let repeated = (often.ours - once.ours) / again;
        let rust = (often.rust - once.rust) / again;
        let checks = (checks_alone(&night(LONG)) - empty) / LONG as f64;
        let rest = repeated - rust - checks;
        let tested = first - repeated;
        println!("| {name} | {first:.1} | {repeated:.1} | {tested:.1} | {rust:.1} | {checks:.1} | {rest:.1} |");
    }
    println!("\nAn empty call: {empty:.0} ns.");
}

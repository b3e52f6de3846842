//! The repository's example nights, read into stretches and worked by the call: what comes out, written in document
//! 01's text form, is what the examples' .out files say. Their answers were worked out from the rules, without the
//! library. Nights whose text is bad (X) are left out: the call reads no text; tests/portions.rs is about that.
mod common;
use common::{Lent, UNTOUCHED};
use std::fmt::Write;
use std::fs;
use std::path::Path;

fn floats(fields: &[&str]) -> Vec<f32> {
    let bits = |field: &&str| u32::from_str_radix(field, 16).expect("eight hex digits");
    fields.iter().map(bits).map(f32::from_bits).collect()
}

fn numbers(fields: &[&str]) -> Vec<u16> {
    let number = |field: &&str| field.parse().expect("a decimal number");
    fields.iter().map(number).collect()
}

/// A good text's tables and list.
fn read(text: &str) -> Lent {
    let mut lent = Lent::default();
    for line in text.lines() {
        let fields: Vec<_> = line.split('\t').collect();
        match fields[0] {
            "B" => lent.bodies.extend(floats(&fields[1..])),
            "C" => {
                lent.numbers.extend(numbers(&fields[1..4]));
                lent.floats.extend(floats(&fields[4..]));
            }
            "N" | "T" => lent.floats.extend(floats(&fields[1..])),
            "S" => lent.steps.extend(numbers(&fields[1..])),
            other => panic!("no such line: {other}"),
        }
    }
    lent.room = vec![UNTOUCHED; lent.steps.len()];
    lent
}

/// The answer as text.
fn answered(mut lent: Lent) -> String {
    let done = match lent.call(256) {
        Ok(done) => done,
        Err(refusal) => return format!("R\t{}\n", refusal as u16),
    };
    let mut text = String::new();
    for row in lent.room.chunks(2) {
        writeln!(text, "A\t{}\t{}", row[0], row[1]).unwrap();
    }
    for row in lent.bodies.chunks(3) {
        let [x, y, w] = [0, 1, 2].map(|i| row[i].to_bits());
        writeln!(text, "B\t{x:08x}\t{y:08x}\t{w:08x}").unwrap();
    }
    for k in 0..lent.numbers.len() / 3 {
        let contact = lent.contact(k);
        let points = if contact.count > 2 { 0 } else { contact.count };
        for (i, point) in (0..points).zip([contact.a, contact.b]) {
            let load = point.normal.impulse.to_bits();
            let rub = point.tangent.impulse.to_bits();
            writeln!(text, "I\t{k}\t{i}\t{load:08x}\t{rub:08x}").unwrap();
        }
    }
    writeln!(text, "E\t{}\t{}", done.done, done.refused).unwrap();
    text
}

#[test]
fn the_example_nights() {
    let folder = Path::new(env!("CARGO_MANIFEST_DIR")).join("../../examples");
    let mut worked = 0;
    for entry in fs::read_dir(&folder).expect("the examples are there") {
        let night = entry.unwrap().path();
        if night.extension() != Some("txt".as_ref()) {
            continue;
        }
        let wanted = fs::read_to_string(night.with_extension("out")).unwrap();
        if wanted.starts_with('X') {
            continue;
        }
        let text = fs::read_to_string(&night).unwrap();
        assert_eq!(answered(read(&text)), wanted, "{}", night.display());
        worked += 1;
    }
    assert!(worked >= 8, "only {worked} nights were found");
}

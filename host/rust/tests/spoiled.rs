//! Each float of a contact and of its two bodies spoiled in turn, of every kind: what the step is answered.
mod common;
use common::{number, Lent};
use romaludiv::*;

/// The kinds; what is put in the place of each float; the contact; and for each float a digit, the number answered: of
/// the head, of point a's normal and tangent part, of point b's, and of the two bodies.
const ANSWERS: &str = "\
01234 NaN two-points   888888888 8888888888 88888888 8888888888 88888888 888 888
0123  NaN one-point    888888888 8888888888 88888888 0000000000 00000000 888 888
4     NaN one-point    777777777 7777777777 77777777 7777777777 77777777 777 777
01234 -1  two-points   009999900 0000090990 00000009 0000090990 00000009 000 000
0123  -1  one-point    009999900 0000090990 00000009 0000000000 00000000 000 000
4     -1  one-point    777777777 7777777777 77777777 7777777777 77777777 777 777
01234 1   floor-first  009900000 0090000000 00900000 0090000000 00900000 000 000
01234 1   floor-second 000099000 0009000000 00090000 0009000000 00090000 000 000
";

/// A contact of these bodies that moves nothing.
fn still(body1: u16, body2: u16, count: u16) -> Contact {
    let mut contact = Contact {
        body1,
        body2,
        count,
        ..Contact::default()
    };
    contact.dir.y = 1.0;
    (contact.a.normal.cfm, contact.b.normal.cfm) = (1.0, 1.0);
    contact
}

fn named(what: &str) -> Contact {
    match what {
        "two-points" => still(0, 1, 2),
        "one-point" => still(0, 1, 1),
        "floor-first" => still(FLOOR, 1, 2),
        "floor-second" => still(0, FLOOR, 2),
        other => panic!("no such contact: {other}"),
    }
}

/// The number answered where float `place` is x: of the contact, and from 45 on of the two bodies.
fn spoiled(contact: Contact, place: usize, x: f32, kind: u16) -> u16 {
    let (mut floats, mut bodies) = (contact.floats(), [[0.0; BODY_WIDTH]; 2]);
    match place.checked_sub(FLOATS_WIDTH) {
        None => floats[place] = x,
        Some(place) => bodies[place / BODY_WIDTH][place % BODY_WIDTH] = x,
    }
    let contact = Contact::of_rows(contact.numbers(), floats);
    number(bodies.map(Body::of_row), contact, kind)
}

#[test]
fn each_float_in_turn() {
    for line in ANSWERS.lines() {
        let words: Vec<_> = line.split_whitespace().collect();
        let [kinds, x, what, digits @ ..] = &words[..] else {
            panic!("no line of the table: {line}");
        };
        for kind in kinds.bytes().map(|digit| u16::from(digit - b'0')) {
            let x = x.parse().expect("a float");
            let answers = (0..FLOATS_WIDTH + 2 * BODY_WIDTH)
                .map(|place| spoiled(named(what), place, x, kind).to_string());
            let got: String = answers.collect();
            assert_eq!(got, digits.concat(), "kind {kind}, {x}, {what}");
        }
    }
}

#[test]
fn which_numbers_name_one_of_two_bodies() {
    let bodies = [0, 1, 2, 3, 6, 65534, 65535];
    let numbers = |contact: fn(u16) -> Contact| {
        bodies.map(|body| {
            let mut lent = Lent::new(&[Body::default(); 2], &[contact(body)], &[(0, 1)]);
            assert!(lent.call(1).is_ok());
            lent.answer(0).0
        })
    };
    let wanted = [0, 0, 5, 5, 5, 5, 5];
    assert_eq!(
        numbers(|body| still(body, FLOOR, 1)),
        wanted,
        "on the floor"
    );
    assert_eq!(numbers(|body| still(FLOOR, body, 1)), wanted, "floor first");
}

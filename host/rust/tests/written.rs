//! Which cells a call writes: one step of each kind, and a small night. A 1 stands for a float whose bits changed.
mod common;
use common::{falling, Lent, UNTOUCHED};
use romaludiv::*;

/// Kind and count; the four bodies; and contact 1: its head, point a's normal and tangent part, and point b's.
const STEPS: &str = "\
0 2  000 111 111 000  000000000 0000000000 00000000 0000000000 00000000
0 1  000 111 111 000  000000000 0000000000 00000000 0000000000 00000000
1 2  000 111 111 000  000000000 0000010000 00000000 0000010000 00000000
1 1  000 111 111 000  000000000 0000010000 00000000 0000000000 00000000
2 2  000 111 111 000  000000000 0000000000 00000100 0000000000 00000100
2 1  000 111 111 000  000000000 0000000000 00000100 0000000000 00000000
3 2  000 111 111 000  000000000 0000010000 00000000 0000010000 00000000
3 1  000 111 111 000  000000000 0000010000 00000000 0000000000 00000000
4 2  000 111 111 000  000000000 0000010000 00000000 0000010000 00000000
4 1  000 000 000 000  000000000 0000000000 00000000 0000000000 00000000
";

fn changed(before: &[f32], after: &[f32]) -> String {
    assert_eq!(before.len(), after.len());
    let pairs = before.iter().zip(after);
    let changed = pairs.map(|(x, y)| x.to_bits() != y.to_bits());
    changed.map(|is| if is { '1' } else { '0' }).collect()
}

/// A contact of bodies 1 and 2 in which every kind has something to do.
fn busy(count: u16) -> Contact {
    let mut contact = Contact::of_rows([1, 2, count], [1.0; FLOATS_WIDTH]);
    contact.k12 = 0.5;
    for point in [&mut contact.a, &mut contact.b] {
        let (load, rub) = (&mut point.normal, &mut point.tangent);
        (load.rhs, load.r, load.seed) = (-8.0, 0.25, -9.0);
        (rub.rhs, rub.impulse, rub.r) = (0.5, 0.25, 0.125);
    }
    contact
}

/// What a step on contact 1 of three changes, which joins bodies 1 and 2 of four.
fn step_writes(kind: u16, count: u16) -> String {
    let half = Body::of_row([0.5; BODY_WIDTH]);
    let [first, last] = [[0, 1, 2], [2, 3, 2]].map(|n| Contact::of_rows(n, [0.0; FLOATS_WIDTH]));
    let contacts = [first, busy(count), last];
    let mut lent = Lent::new(&[half; 4], &contacts, &[(1, kind)]);
    let before = lent.clone();
    let refused = usize::from(kind == 4 && count == 1); // with 7
    assert_eq!(lent.call(1), Ok(Done { done: 1, refused }));
    let floats = changed(&before.floats, &lent.floats);
    assert!(!floats[..45].contains('1'), "contact 0");
    assert!(!floats[90..].contains('1'), "contact 2");
    changed(&before.bodies, &lent.bodies) + &floats[45..90]
}

#[test]
fn a_step_writes_its_velocities_and_its_impulses() {
    for line in STEPS.lines() {
        let words: Vec<_> = line.split_whitespace().collect();
        let [kind, count] = [0, 1].map(|i| words[i].parse().expect("a number"));
        let got = step_writes(kind, count);
        assert_eq!(got, words[2..].concat(), "kind {kind}, count {count}");
    }
}

#[test]
fn a_small_night() {
    // bodies 0 and 1 fall on the floor, body 0 sliding and turning, body 1 with three points, which 6 refuses
    let (falls, contact) = falling(0);
    let (slides, rests) = (Body::of_row([3.0, -2.0, 5.0]), Body::default());
    let mut wrong = falling(1).1;
    wrong.count = 3;
    let contacts = [contact, wrong, Contact::default()];
    let steps = [(0, 1), (1, 1), (0, 2), (0, 1)];
    let mut lent = Lent::new(&[slides, falls, rests, rests], &contacts, &steps);
    lent.room.extend([UNTOUCHED; ANSWER_WIDTH]); // room for five
    let before = lent.clone();
    let done = Done {
        done: 3,
        refused: 1,
    };
    assert_eq!(lent.call(3), Ok(done));
    assert_eq!(lent.room[..6], [0, 0, 6, 0, 0, 0]);
    assert_eq!(lent.room[6..], [UNTOUCHED; 4]);
    assert_eq!(lent.body(0), Body { y: 0.0, ..slides });
    assert_eq!(lent.loads(0), (2.0, 0.0));
    assert_eq!(changed(&before.bodies, &lent.bodies), "010000000000");
    let floats = changed(&before.floats, &lent.floats);
    assert_eq!(floats[..18], *"000000000000001000", "a load alone");
    assert!(!floats[18..].contains('1'));
}

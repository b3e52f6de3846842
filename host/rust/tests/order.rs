//! Which orders of a list matter: steps that share a body do, the steps of different feet do not.
mod common;
use common::{bits, falling, Lent};
use romaludiv::*;

const HEEL: (u16, u16) = (0, 1);
const TOE: (u16, u16) = (1, 1);
const OTHER_HEEL: (u16, u16) = (2, 1);

/// How many rows differ in some bit; of width 1, how many floats.
fn differing(s: &[f32], t: &[f32], width: usize) -> usize {
    assert_eq!(s.len(), t.len());
    let rows = s.chunks(width).zip(t.chunks(width));
    rows.filter(|(s, t)| bits(s) != bits(t)).count()
}

/// Two feet come down on the floor at speed 1. Foot 0 has a heel and, right under its middle, a toe; foot 1 a heel.
fn feet(steps: &[(u16, u16); 3]) -> Lent {
    let heel = |foot| {
        let mut contact = falling(foot).1;
        (contact.a.normal.torque1, contact.a.normal.ii1) = (-1.0, -1.0);
        contact.a.normal.r = 0.5;
        contact
    };
    let toe = falling(0).1;
    let down = Body {
        y: -1.0,
        ..Body::default()
    };
    let mut lent = Lent::new(&[down; 2], &[heel(0), toe, heel(1)], steps);
    let done = Done {
        done: 3,
        refused: 0,
    };
    assert_eq!(lent.call(3), Ok(done));
    assert_eq!(lent.room, [0; 6], "no step is refused");
    lent
}

/// The loads of foot 0's heel and toe and of foot 1's heel.
fn loads(lent: &Lent) -> [f32; 3] {
    [0, 1, 2].map(|contact| lent.loads(contact).0)
}

#[test]
fn heel_before_toe_is_not_toe_before_heel() {
    let heel_first = feet(&[HEEL, TOE, OTHER_HEEL]);
    assert_eq!(loads(&heel_first), [0.5, 0.5, 0.5]);
    assert_eq!(heel_first.bodies, [0.0, 0.0, -0.5, 0.0, -0.5, -0.5]);
    let toe_first = feet(&[TOE, HEEL, OTHER_HEEL]);
    assert_eq!(loads(&toe_first), [0.0, 1.0, 0.5]);
    assert_eq!(toe_first.bodies, [0.0, 0.0, 0.0, 0.0, -0.5, -0.5]);
    // nothing else differs: foot 0's w, and its two loads
    assert_eq!(differing(&heel_first.bodies, &toe_first.bodies, 1), 1);
    assert_eq!(differing(&heel_first.floats, &toe_first.floats, 1), 2);
}

#[test]
fn another_foots_step_may_stand_anywhere() {
    let last = feet(&[HEEL, TOE, OTHER_HEEL]);
    for steps in [[OTHER_HEEL, HEEL, TOE], [HEEL, OTHER_HEEL, TOE]] {
        let moved = feet(&steps);
        assert_eq!(bits(&moved.bodies), bits(&last.bodies));
        assert_eq!(bits(&moved.floats), bits(&last.floats));
    }
}

/// Each of forty feet has six steps: three on its heel, then three on its toe, of which the first is a pair. Contacts 2 f
/// and 2 f + 1 are the heel and the toe of foot f, so step s of the list foot after foot is on contact s / 3.
const KINDS: [u16; 6] = [0, 1, 2, 4, 3, 2];

/// The heel of foot 17 has no point: its three steps are refused.
const BROKEN: usize = 34;

/// What heel and toe have in common. The numbers of two feet differ by their x.
fn touching(foot: u16, x: f32) -> Contact {
    let mut contact = Contact {
        friction: 0.3,
        ..falling(foot).1
    };
    let rub = &mut contact.a.tangent;
    (rub.torque1, rub.ii1, rub.r) = (0.7, 0.3, 0.45);
    (rub.rhs, rub.impulse) = (x, 0.1);
    contact
}

fn heel(foot: u16, x: f32) -> Contact {
    let mut contact = touching(foot, x);
    let a = &mut contact.a.normal;
    (a.torque1, a.ii1, a.r, a.impulse) = (-1.1, -0.4, 0.6, 0.2 + x);
    contact
}

fn toe(foot: u16, x: f32) -> Contact {
    let mut contact = Contact {
        count: 2,
        k12: 1.0,
        flag: 1.0,
        ..touching(foot, x)
    };
    let (a, b) = (&mut contact.a.normal, &mut contact.b.normal);
    (a.torque1, a.ii1, a.r, a.cfm) = (0.9, 0.35, 0.65, 0.9);
    (a.accumulator, a.seed) = (1.0, -0.5 - x);
    (b.torque1, b.ii1, b.r, b.cfm) = (-0.2, -0.1, 0.95, 1.0);
    contact
}

/// Which step of the list foot after foot stands at a place.
type Order = fn(usize) -> usize;

const FOOT_AFTER_FOOT: Order = |place| place;
const REVERSE: Order = |place| 6 * (39 - place / 6) + place % 6;
const TURN_BY_TURN: Order = |place| 6 * (place % 40) + place / 40;
const STRIDES_OF_7: Order = |place| 6 * (7 * (place / 6) % 40) + place % 6;
const TOE_OF_7_FIRST: Order = |place| match place / 6 {
    7 => 42 + (place + 3) % 6,
    _ => place,
};

fn forty(order: Order) -> Lent {
    let (mut bodies, mut contacts) = (vec![], vec![]);
    let mut x = 0.0;
    for foot in 0..40 {
        bodies.push(Body {
            x: 1.0 + x,
            y: -3.0 - x,
            w: 0.3,
        });
        contacts.extend([heel(foot, x), toe(foot, x)]);
        x += 0.1;
    }
    contacts[BROKEN].count = 0;
    let step = |step: usize| ((step / 3) as u16, KINDS[step % 6]);
    let steps: Vec<_> = (0..240).map(order).map(step).collect();
    Lent::new(&bodies, &contacts, &steps)
}

fn worked(order: Order) -> Lent {
    let mut lent = forty(order);
    let done = Done {
        done: 240,
        refused: 3,
    };
    assert_eq!(lent.call(240), Ok(done));
    lent
}

/// The answers, as the steps stand in the list foot after foot.
fn answers(lent: &Lent, order: Order) -> Vec<Option<(u16, u16)>> {
    let mut answers = vec![None; 240];
    for place in 0..240 {
        answers[order(place)] = Some(lent.answer(place));
    }
    answers
}

/// How many bodies, contacts and answers an order leaves otherwise than foot after foot.
fn left_otherwise(order: Order) -> [usize; 3] {
    let (first, other) = (worked(FOOT_AFTER_FOOT), worked(order));
    let answers = [answers(&first, FOOT_AFTER_FOOT), answers(&other, order)];
    let answers = answers[0].iter().zip(&answers[1]);
    [
        differing(&first.bodies, &other.bodies, BODY_WIDTH),
        differing(&first.floats, &other.floats, FLOATS_WIDTH),
        answers.filter(|(first, other)| first != other).count(),
    ]
}

fn steps_elsewhere(order: Order) -> usize {
    (0..240).filter(|&place| order(place) != place).count()
}

#[test]
fn forty_feet_move_and_all_their_contacts_but_the_broken_one() {
    let (before, after) = (forty(FOOT_AFTER_FOOT), worked(FOOT_AFTER_FOOT));
    assert_eq!(differing(&before.bodies, &after.bodies, BODY_WIDTH), 40);
    assert_eq!(differing(&before.floats, &after.floats, FLOATS_WIDTH), 79);
    assert_eq!(before.contact(BROKEN), after.contact(BROKEN));
}

#[test]
fn forty_feet_may_come_in_any_order() {
    let orders = [
        ("in reverse", REVERSE, 240),
        ("turn by turn", TURN_BY_TURN, 238),
        ("in strides of 7", STRIDES_OF_7, 228),
    ];
    for (what, order, elsewhere) in orders {
        assert_eq!(steps_elsewhere(order), elsewhere, "{what}");
        assert_eq!(left_otherwise(order), [0, 0, 0], "{what}");
    }
}

#[test]
fn the_toe_of_foot_7_before_its_heel_changes_foot_7_alone() {
    assert_eq!(steps_elsewhere(TOE_OF_7_FIRST), 6);
    assert_eq!(left_otherwise(TOE_OF_7_FIRST), [1, 2, 1]);
    let (first, other) = (worked(FOOT_AFTER_FOOT), worked(TOE_OF_7_FIRST));
    let floats_of = |contact| {
        let [first, other] = [&first, &other].map(|lent| lent.contact(contact).floats());
        differing(&first, &other, 1)
    };
    assert_eq!(floats_of(14), 2, "its heel");
    assert_eq!(floats_of(15), 3, "its toe");
    let [first, other] = [first, other].map(|lent| lent.body(7).row());
    assert_eq!(differing(&first, &other, 1), 3);
}

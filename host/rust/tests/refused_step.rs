//! Numbers 5 to 10, which refuse one step: each by several inputs, tried by `common::number`.
mod common;
use common::{good, number};
use romaludiv::*;

const BAD: [f32; 3] = [f32::NAN, f32::INFINITY, f32::NEG_INFINITY];
const REST: [Body; 2] = [Body {
    x: 0.0,
    y: 0.0,
    w: 0.0,
}; 2];

/// As `number`, of `good()` with a change, on bodies at rest.
fn changed(kind: u16, change: impl Fn(&mut Contact)) -> u16 {
    let mut contact = good();
    change(&mut contact);
    number(REST, contact, kind)
}

/// A contact of one real body with the floor, which is its second or its first body.
fn on_floor(floor_first: bool) -> Contact {
    let mut contact = good();
    if floor_first {
        contact.body1 = FLOOR;
        contact.im1 = Vec2::default();
    } else {
        contact.body2 = FLOOR;
        contact.im2 = Vec2::default();
    }
    contact
}

#[test]
fn the_good_contact_is_done_by_every_kind() {
    for kind in 0..5 {
        assert_eq!(number(REST, good(), kind), 0);
        assert_eq!(number(REST, on_floor(true), kind), 0);
        assert_eq!(number(REST, on_floor(false), kind), 0);
    }
}

#[test]
fn bodies_that_are_not_there_or_equal_are_5() {
    let wrong = [(3, 1), (0, 3), (65534, 1), (0, 0), (1, 1), (FLOOR, FLOOR)];
    for (body1, body2) in wrong.into_iter().chain([(9, 9), (FLOOR, 3), (3, FLOOR)]) {
        for kind in 0..5 {
            let got = changed(kind, |c| (c.body1, c.body2) = (body1, body2));
            assert_eq!(got, 5, "bodies {body1} and {body2}, kind {kind}");
        }
    }
    assert_eq!(changed(1, |c| (c.body1, c.body2) = (1, 0)), 0);
}

#[test]
fn other_counts_than_1_and_2_are_6() {
    for count in [0, 3, 4, 257, 65535] {
        for kind in 0..5 {
            assert_eq!(changed(kind, |c| c.count = count), 6, "count {count}");
        }
    }
}

#[test]
fn a_pair_of_one_point_is_7() {
    assert_eq!(changed(4, |c| c.count = 1), 7);
    for kind in 0..4 {
        assert_eq!(changed(kind, |c| c.count = 1), 0);
    }
}

#[test]
fn a_float_that_is_not_finite_is_8() {
    for bad in BAD {
        for place in 0..FLOATS_WIDTH {
            let mut floats = good().floats();
            floats[place] = bad;
            for kind in 0..5 {
                let both = Contact::of_rows([0, 1, 2], floats);
                assert_eq!(number(REST, both, kind), 8, "float {place}");
                // of a contact with one point, point b is not looked at; a pair of it is refused before
                let one = Contact::of_rows([0, 1, 1], floats);
                let want = match (kind, place < 27) {
                    (4, _) => 7,
                    (_, true) => 8,
                    (_, false) => 0,
                };
                assert_eq!(number(REST, one, kind), want, "float {place}, one point");
            }
        }
    }
}

#[test]
fn a_velocity_that_is_not_finite_is_8() {
    for bad in BAD {
        for place in 0..3 {
            let mut row = [0.0; 3];
            row[place] = bad;
            let (spoiled, rest) = (Body::of_row(row), Body::default());
            for kind in 0..5 {
                assert_eq!(number([spoiled, rest], good(), kind), 8);
                assert_eq!(number([rest, spoiled], good(), kind), 8);
                assert_eq!(number([spoiled, rest], on_floor(false), kind), 8);
                assert_eq!(number([rest, spoiled], on_floor(true), kind), 8);
                // a body that the step does not name
                assert_eq!(number([rest, spoiled], on_floor(false), kind), 0);
                assert_eq!(number([spoiled, rest], on_floor(true), kind), 0);
            }
        }
    }
}

type Change = fn(&mut Contact, f32);

/// What must not be below 0: in the head and point a, and in point b.
const NOT_BELOW_0: [Change; 8] = [
    |c, x| c.im1.x = x,
    |c, x| c.im1.y = x,
    |c, x| c.im2.x = x,
    |c, x| c.im2.y = x,
    |c, x| c.friction = x,
    |c, x| c.a.normal.r = x,
    |c, x| c.a.tangent.r = x,
    |c, x| c.a.normal.impulse = x,
];
const NOT_BELOW_0_IN_B: [Change; 3] = [
    |c, x| c.b.normal.r = x,
    |c, x| c.b.tangent.r = x,
    |c, x| c.b.normal.impulse = x,
];

#[test]
fn what_is_below_0_is_9_and_minus_zero_passes() {
    let all = NOT_BELOW_0.iter().chain(&NOT_BELOW_0_IN_B);
    for (i, set) in all.enumerate() {
        for kind in 0..5 {
            for below in [-1.0, -f32::from_bits(1), f32::MIN] {
                assert_eq!(changed(kind, |c| set(c, below)), 9, "{i}, {below}");
            }
            assert_eq!(changed(kind, |c| set(c, -0.0)), 0, "{i}, minus zero");
        }
    }
    for set in NOT_BELOW_0_IN_B {
        let one_point = |c: &mut Contact| {
            c.count = 1;
            set(c, -1.0);
        };
        assert_eq!(changed(1, one_point), 0, "b is not looked at");
    }
}

#[test]
fn what_may_be_below_0_is_not_9() {
    let may: [Change; 7] = [
        |c, x| c.a.tangent.impulse = x,
        |c, x| c.a.normal.accumulator = x,
        |c, x| c.a.normal.seed = x,
        |c, x| c.a.normal.torque1 = x,
        |c, x| c.a.normal.ii1 = x,
        |c, x| c.k12 = x,
        |c, x| c.flag = x,
    ];
    for set in may {
        for kind in 0..5 {
            assert_eq!(changed(kind, |c| set(c, -1.0)), 0);
        }
    }
}

#[test]
fn softness_outside_0_to_1_is_9() {
    let above = f32::from_bits(1.0_f32.to_bits() + 1);
    for cfm in [0.0, -0.0, -0.5, above, 2.0] {
        for kind in 0..5 {
            assert_eq!(changed(kind, |c| c.a.normal.cfm = cfm), 9, "a, {cfm}");
            assert_eq!(changed(kind, |c| c.b.normal.cfm = cfm), 9, "b, {cfm}");
        }
    }
    for cfm in [1.0, 0.5, f32::MIN_POSITIVE, f32::from_bits(1)] {
        assert_eq!(changed(1, |c| c.a.normal.cfm = cfm), 0, "{cfm}");
    }
    let one_point = |c: &mut Contact| {
        c.count = 1;
        c.b.normal.cfm = 0.0;
    };
    assert_eq!(changed(1, one_point), 0, "b is not looked at");
}

#[test]
fn a_floor_that_could_move_is_9() {
    let first: [Change; 6] = [
        |c, x| c.im1.x = x,
        |c, x| c.im1.y = x,
        |c, x| c.a.normal.ii1 = x,
        |c, x| c.a.tangent.ii1 = x,
        |c, x| c.b.normal.ii1 = x,
        |c, x| c.b.tangent.ii1 = x,
    ];
    let second: [Change; 6] = [
        |c, x| c.im2.x = x,
        |c, x| c.im2.y = x,
        |c, x| c.a.normal.ii2 = x,
        |c, x| c.a.tangent.ii2 = x,
        |c, x| c.b.normal.ii2 = x,
        |c, x| c.b.tangent.ii2 = x,
    ];
    for (floor_first, sides) in [(true, [first, second]), (false, [second, first])] {
        let [floor, real] = sides;
        let with = |set: Change, x, count| {
            let mut contact = on_floor(floor_first);
            contact.count = count;
            set(&mut contact, x);
            number(REST, contact, 1)
        };
        for (i, set) in floor.into_iter().enumerate() {
            assert_eq!(with(set, 1.0, 2), 9, "{i} of the floor's side");
            assert_eq!(with(set, f32::from_bits(1), 2), 9, "however small");
            assert_eq!(with(set, -0.0, 2), 0, "minus zero is zero");
            let want = if i < 4 { 9 } else { 0 };
            assert_eq!(with(set, 1.0, 1), want, "one point");
        }
        for set in real {
            assert_eq!(with(set, 1.0, 2), 0, "the other side may");
        }
    }
}

#[test]
fn a_velocity_that_overflows_is_10() {
    let push: [Change; 4] = [
        |c, x| c.im1.y = x,
        |c, x| c.im2.y = x,
        |c, x| c.a.normal.ii1 = x,
        |c, x| c.a.normal.ii2 = x,
    ];
    for set in push {
        let warm = |c: &mut Contact| {
            c.a.normal.impulse = 1e30;
            set(c, 1e30);
        };
        assert_eq!(changed(0, warm), 10, "warm start");
        for kind in [1, 3] {
            let solve = |c: &mut Contact| {
                set(c, 1e30);
                (c.a.normal.rhs, c.a.normal.seed) = (-1e30, -1e30);
                c.a.normal.accumulator = 1.0;
            };
            assert_eq!(changed(kind, solve), 10, "kind {kind}");
        }
    }
    let mut contact = on_floor(false);
    contact.a.normal.impulse = 1e30;
    contact.im1.y = 1e30;
    assert_eq!(number(REST, contact, 0), 10, "on the floor");
}

#[test]
fn an_impulse_that_overflows_is_10() {
    let large = |c: &mut Contact| {
        c.im1 = Vec2::default();
        c.im2 = Vec2::default();
        c.friction = 1e30;
        for point in [&mut c.a, &mut c.b] {
            point.normal.impulse = 1e30; // friction's limit is infinite, and cuts nothing
            point.normal.accumulator = 1.0;
            (point.normal.rhs, point.normal.seed) = (-1e30, -1e30);
            point.tangent.rhs = -1e30;
        }
    };
    let in_a = |c: &mut Contact| {
        large(c);
        (c.a.normal.r, c.a.tangent.r) = (1e30, 1e30);
    };
    let in_b = |c: &mut Contact| {
        large(c);
        (c.b.normal.r, c.b.tangent.r) = (1e30, 1e30);
    };
    for kind in 1..5 {
        assert_eq!(changed(kind, large), 0, "kind {kind}, large but finite");
        assert_eq!(changed(kind, in_a), 10, "kind {kind}, a");
        assert_eq!(changed(kind, in_b), 10, "kind {kind}, b");
    }
    assert_eq!(changed(0, in_a), 0, "warm start writes no impulse");
}

#[test]
fn the_lowest_number_is_answered() {
    let mut c = good();
    (c.body2, c.count, c.friction) = (0, 0, -1.0);
    (c.k12, c.a.normal.impulse, c.im1.y) = (f32::NAN, 1e30, 1e30);
    assert_eq!(number(REST, c, 4), 5);
    c.body2 = 1;
    assert_eq!(number(REST, c, 4), 6);
    c.count = 1;
    assert_eq!(number(REST, c, 4), 7);
    c.count = 2;
    assert_eq!(number(REST, c, 4), 8);
    c.k12 = 0.0;
    assert_eq!(number(REST, c, 0), 9);
    c.friction = 0.0;
    assert_eq!(number(REST, c, 0), 10);
    c.im1.y = 1.0;
    assert_eq!(number(REST, c, 0), 0);
}

//! Document 01's example, its marked examples and its rounding, through the call. Bodies are at rest with im and arms of
//! zero, so that a point's dvel is its rhs and nothing moves, but where a test is about the push. M8's inv(−4) does not
//! show: of what a pair inverts, det alone may be below 0, and then its inv is not used.
mod common;
use common::{bits, falling, good, Lent};
use romaludiv::*;

/// A pair of given r, k12 and flag, whose dvel are given; previous impulses 0, cfm 1.
fn pair(r: (f32, f32), k12: f32, flag: f32, dvel: (f32, f32)) -> Contact {
    let mut contact = Contact {
        k12,
        flag,
        im1: Vec2::default(),
        im2: Vec2::default(),
        ..good()
    };
    (contact.a.normal.r, contact.b.normal.r) = r;
    (contact.a.normal.rhs, contact.b.normal.rhs) = dvel;
    contact
}

/// The branch and the loads that a pair step leaves.
fn solved(contact: Contact) -> (u16, (f32, f32)) {
    let mut lent = Lent::new(&[Body::default(); 2], &[contact], &[(0, 4)]);
    let done = Done {
        done: 1,
        refused: 0,
    };
    assert_eq!(lent.call(1), Ok(done));
    let (number, branch) = lent.answer(0);
    assert_eq!(number, 0);
    assert_eq!(bits(&lent.bodies), [0; 6], "nothing moves");
    let (a, b) = lent.loads(0);
    assert!(
        a.is_sign_positive() && b.is_sign_positive(),
        "no minus zero"
    );
    (branch, (a, b))
}

/// The contact after one step of a kind other than the pair, with its one point.
fn one_point(kind: u16, set: impl Fn(&mut Point)) -> Point {
    let mut contact = pair((1.0, 1.0), 0.0, 0.0, (0.0, 0.0));
    contact.count = 1;
    contact.friction = 1.0;
    contact.a.tangent.r = 1.0;
    set(&mut contact.a);
    let mut lent = Lent::new(&[Body::default(); 2], &[contact], &[(0, kind)]);
    assert!(lent.call(1).is_ok());
    assert_eq!(lent.answer(0), (0, 0));
    let after = lent.contact(0).a;
    assert!(after.normal.impulse.is_sign_positive(), "no minus zero");
    after
}

#[test]
fn documents_example() {
    let (body, contact) = falling(0);
    let mut lent = Lent::new(&[body], &[contact], &[(0, 1)]);
    let done = Done {
        done: 1,
        refused: 0,
    };
    assert_eq!(lent.call(1), Ok(done));
    assert_eq!(lent.answer(0), (0, 0));
    assert_eq!(bits(&lent.bodies), [0; 3]);
    let mut after = contact;
    after.a.normal.impulse = 2.0;
    assert_eq!(bits(&lent.floats), bits(&after.floats()));
}

#[test]
fn m1_to_m5_the_branches_of_the_block() {
    let with = |dvel| solved(pair((0.5, 1.0), 1.0, 1.0, dvel));
    assert_eq!(with((-5.0, -3.0)), (1, (2.0, 1.0)), "M1");
    assert_eq!(with((-4.0, -1.0)), (2, (2.0, 0.0)), "M2");
    assert_eq!(with((-1.0, -3.0)), (3, (0.0, 3.0)), "M3");
    assert_eq!(with((1.0, 1.0)), (4, (0.0, 0.0)), "M4");
    assert_eq!(with((0.0, 0.0)), (1, (0.0, 0.0)), "M5");
}

#[test]
fn m6_previous_kept() {
    let mut contact = pair((1.0, 1.0), -2.0, 1.0, (-2.0, -2.0));
    (contact.a.normal.impulse, contact.b.normal.impulse) = (1.0, 1.0);
    assert_eq!(solved(contact), (5, (1.0, 1.0)));
}

#[test]
fn m7_degraded_unless_flag_is_above_a_half() {
    let with = |flag| solved(pair((0.5, 1.0), 1.0, flag, (-5.0, -3.0)));
    assert_eq!(with(0.5), (6, (2.5, 0.5)));
    assert_eq!(with(0.0), (6, (2.5, 0.5)));
    assert_eq!(with(f32::from_bits(0.5_f32.to_bits() + 1)).0, 1);
}

#[test]
fn m8_the_reciprocal_of_0_is_0() {
    // point a is pressed, and r 0 or below inv's cutoff leaves it without load; 1/0 would make no candidate pass
    let with = |r| solved(pair((r, 1.0), 0.0, 1.0, (-5.0, 3.0)));
    assert_eq!(with(0.0), (2, (0.0, 0.0)));
    let cutoff = f32::from_bits(0x1e3c_e508);
    let below = f32::from_bits(cutoff.to_bits() - 1);
    assert_eq!(with(below), (2, (0.0, 0.0)));
    let load = 5.0 * (1.0 / (1.0 / cutoff));
    assert_eq!(with(cutoff), (2, (load, 0.0)));
}

#[test]
fn m9_friction_is_cut_at_its_limit() {
    let rub = |rhs| {
        let after = one_point(2, |point| {
            point.normal.impulse = 1.0; // friction is 1, so the limit is 1
            point.tangent.rhs = rhs;
        });
        after.tangent.impulse
    };
    assert_eq!(rub(3.0), -1.0, "clamp(-3, 1)");
    assert_eq!(rub(-1.0), 1.0, "clamp(1, 1)");
}

#[test]
fn m10_normal_is_softened() {
    let after = one_point(1, |point| {
        (point.normal.cfm, point.normal.rhs) = (0.5, -2.0);
    });
    assert_eq!(after.normal.impulse, 1.0);
}

#[test]
fn m11_and_m12_restitution_needs_a_push_before() {
    let load = |accumulator| {
        let after = one_point(3, |point| {
            (point.normal.seed, point.normal.accumulator) = (-1.0, accumulator);
            point.normal.cfm = 0.5; // which restitution leaves aside
        });
        after.normal.impulse
    };
    assert_eq!(load(1.0), 1.0, "M11");
    assert_eq!(load(0.0), 0.0, "M12");
}

#[test]
fn a_pair_pushes_both_bodies() {
    // M1's loads, 2 and 1, with masses and arms that tell every place of the two rows apart
    let mut contact = pair((0.5, 1.0), 1.0, 1.0, (-5.0, -3.0));
    (contact.im1.y, contact.im2.y) = (1.0, 0.5);
    (contact.a.normal.ii1, contact.b.normal.ii1) = (-1.0, 4.0);
    (contact.a.normal.ii2, contact.b.normal.ii2) = (1.0, 0.5);
    let mut lent = Lent::new(&[Body::default(); 2], &[contact], &[(0, 4)]);
    assert!(lent.call(1).is_ok());
    assert_eq!(lent.answer(0), (0, 1));
    assert_eq!(lent.bodies, [0.0, 3.0, 2.0, 0.0, -1.5, 2.5]);
}

#[test]
fn warm_start_pushes_loads_and_rubs() {
    let mut contact = good(); // dir is (0, 1), so the tangent is (-1, 0)
    (contact.a.normal.impulse, contact.b.normal.impulse) = (1.0, 2.0);
    (contact.a.tangent.impulse, contact.b.tangent.impulse) = (4.0, -8.0);
    (contact.a.normal.ii1, contact.b.normal.ii1) = (1.0, 16.0);
    (contact.a.tangent.ii2, contact.b.tangent.ii2) = (0.5, 2.0);
    let mut lent = Lent::new(&[Body::default(); 2], &[contact], &[(0, 0)]);
    let floats = lent.floats.clone();
    assert!(lent.call(1).is_ok());
    assert_eq!(lent.bodies, [4.0, 3.0, 33.0, -4.0, -3.0, -14.0]);
    assert_eq!(lent.floats, floats, "warm start stores nothing");
}

/// The load that a normal step leaves of p − r·dvel.
fn normal(p: f32, r: f32, dvel: f32) -> f32 {
    let after = one_point(1, |point| {
        (point.normal.impulse, point.normal.r, point.normal.rhs) = (p, r, dvel);
    });
    after.normal.impulse
}

#[test]
fn every_product_and_sum_is_rounded_once() {
    let (half, ulp) = (2.0_f32.powi(-24), 2.0_f32.powi(-23)); // of a number from 1 to 2
    assert_eq!(normal(1.0, 1.0, -half), 1.0, "a tie goes to even, below");
    assert_eq!(normal(1.0 + ulp, 1.0, -half), 1.0 + 2.0 * ulp, "or above");
    let x = 1.0 + 2.0_f32.powi(-12);
    let square = 1.0 + 2.0_f32.powi(-11); // and half an ulp more, which goes
    let fused = square + ulp;
    assert_eq!(x.mul_add(x, half), fused);
    assert_eq!(normal(half, x, -x), square, "the product is rounded first");
}

#[test]
fn subnormal_numbers_are_kept() {
    let least = f32::from_bits(1);
    assert_eq!(normal(0.0, 1.0, -least), least);
    assert_eq!(normal(least, 1.0, -least), f32::from_bits(2));
    let product = normal(0.0, f32::MIN_POSITIVE, -0.5);
    assert_eq!(product, f32::MIN_POSITIVE / 2.0, "made of normal numbers");
}

//! A NaN's payload stays where no done step writes: of bodies and of every cell of a contact, in calls that are done,
//! cut short by their budget or refused, and in steps that are refused. In the logic there is one NaN, so the call's
//! contract cannot say this (docs/LOOSE.md).
mod common;
use common::{falling, Lent};
use romaludiv::*;

/// A NaN for each place: quiet and signalling, of both signs, no two alike.
fn payload(place: usize) -> f32 {
    let kinds = [0x7fc0_0000, 0x7f80_0000, 0xffc0_0000, 0xff80_0000];
    f32::from_bits(kinds[place % 4] | (place as u32 + 1))
}

fn fill(floats: &mut [f32]) {
    for (place, x) in floats.iter_mut().enumerate() {
        *x = payload(place);
    }
}

/// Three bodies and three contacts, every float of them a NaN, with these body numbers, count and steps.
fn all_nan(numbers: [u16; NUMBERS_WIDTH], steps: &[(u16, u16)]) -> Lent {
    let contact = Contact::of_rows(numbers, [0.0; FLOATS_WIDTH]);
    let mut lent = Lent::new(&[Body::default(); 3], &[contact; 3], steps);
    fill(&mut lent.bodies);
    fill(&mut lent.floats);
    lent
}

/// The call refuses step 0 with this number, and every bit of the tables stays.
fn refused_step(mut lent: Lent, number: u16, why: &str) {
    let before = lent.clone();
    let done = lent.call(1).expect("the call is not refused");
    assert_eq!((done.done, done.refused), (1, 1), "{why}");
    assert_eq!(lent.answer(0), (number, 0), "{why}");
    lent.room.copy_from_slice(&before.room);
    assert!(lent.same(&before), "{why}: a bit changed");
}

#[test]
fn the_payloads_are_nans_and_all_differ() {
    let all: Vec<_> = (0..3 * FLOATS_WIDTH).map(payload).collect();
    assert!(all.iter().all(|x| x.is_nan()));
    let mut bits = common::bits(&all);
    bits.sort();
    bits.dedup();
    assert_eq!(bits.len(), all.len());
}

#[test]
fn an_empty_list_or_a_budget_of_0_changes_no_bit() {
    for steps in [&[][..], &[(0, 1), (2, 4)][..]] {
        let mut lent = all_nan([0, 1, 2], steps);
        let before = lent.clone();
        let (done, refused) = (0, 0);
        assert_eq!(lent.call(0), Ok(Done { done, refused }));
        assert!(lent.same(&before), "{} steps", steps.len());
    }
}

#[test]
fn a_refused_call_changes_no_bit() {
    let good = all_nan([0, 1, 2], &[(0, 1)]);
    let mut uneven = good.clone();
    uneven.bodies.push(payload(9));
    uneven.refused(9, Refusal::Sizes, "1");
    all_nan([0, 1, 2], &[(0, 1), (3, 1)]).refused(9, Refusal::NoSuchContact, "2");
    all_nan([0, 1, 2], &[(0, 1), (0, 5)]).refused(9, Refusal::KindAbove4, "3");
    let mut short = good;
    short.room.clear();
    short.refused(9, Refusal::Room, "4");
}

#[test]
fn a_refused_step_changes_no_bit() {
    for kind in 0..5 {
        let step = [(1, kind)];
        refused_step(all_nan([7, 1, 2], &step), 5, "5: no such body");
        refused_step(all_nan([0, 1, 3], &step), 6, "6: three points");
        refused_step(all_nan([0, 1, 2], &step), 8, "8: all are NaN");
    }
    refused_step(all_nan([0, 1, 1], &[(1, 4)]), 7, "7: a pair of one point");
}

/// Document 01's example as contact 0, of body 0 with the floor; every float of it that is not looked at, its point b,
/// is a NaN, and so is every float of body 1 and of contact 1.
fn one_good(change: impl Fn(&mut Contact), steps: &[(u16, u16)]) -> Lent {
    let (body, mut contact) = falling(0);
    change(&mut contact);
    let other = Contact::of_rows([1, FLOOR, 2], [0.0; FLOATS_WIDTH]);
    let mut lent = Lent::new(&[body, Body::default()], &[contact, other], steps);
    fill(&mut lent.bodies[BODY_WIDTH..]);
    fill(&mut lent.floats[POINT_B..]);
    lent
}

/// Where point b begins among a contact's floats.
const POINT_B: usize = 27;

#[test]
fn steps_refused_with_9_and_10_change_no_bit() {
    for kind in 0..4 {
        let moves = one_good(|c| c.im2.x = 1.0, &[(0, kind)]);
        refused_step(moves, 9, "9: a floor that can move");
    }
    let too_fast = one_good(|c| c.a.normal.r = f32::MAX, &[(0, 1)]);
    refused_step(too_fast, 10, "10: the load would not be finite");
}

#[test]
fn a_done_step_leaves_the_bits_of_all_that_it_does_not_write() {
    for kind in 0..4 {
        let mut lent = one_good(|_| (), &[(0, kind), (1, kind), (0, kind)]);
        let before = lent.clone();
        let (done, refused) = (3, 1);
        assert_eq!(lent.call(3), Ok(Done { done, refused }));
        assert_eq!([0, 1, 2].map(|i| lent.answer(i).0), [0, 8, 0]);
        let bodies = [&lent, &before].map(|l| common::bits(&l.bodies[BODY_WIDTH..]));
        assert_eq!(bodies[0], bodies[1], "body 1, kind {kind}");
        let floats = [&lent, &before].map(|l| common::bits(&l.floats[POINT_B..]));
        assert_eq!(floats[0], floats[1], "point b and contact 1, kind {kind}");
    }
}

#[test]
fn a_pair_leaves_the_bits_of_other_rows() {
    let mut lent = all_nan([2, FLOOR, 2], &[(1, 4)]);
    let row = FLOATS_WIDTH..2 * FLOATS_WIDTH;
    let contact = Contact::of_rows([0, 1, 2], common::good().floats());
    lent.numbers[3..6].copy_from_slice(&contact.numbers());
    lent.floats[row.clone()].copy_from_slice(&contact.floats());
    lent.bodies[..2 * BODY_WIDTH].fill(0.0);
    let before = lent.clone();
    assert!(lent.call(1).is_ok());
    assert_eq!(lent.answer(0).0, 0);
    lent.bodies[..2 * BODY_WIDTH].fill(0.0);
    lent.floats[row.clone()].copy_from_slice(&before.floats[row]);
    lent.room.copy_from_slice(&before.room);
    assert!(lent.same(&before), "body 2, contacts 0 and 2");
}

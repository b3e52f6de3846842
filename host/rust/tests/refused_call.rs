//! Numbers 1 to 4, which refuse the whole call: what gives them, in which order, and that nothing is written. The good
//! step that stands first in each list would be seen in the tables if it were done.
mod common;
use common::{falling, Lent};
use romaludiv::*;

/// One falling body, and a list that starts with a good step.
fn night(more: &[(u16, u16)]) -> Lent {
    let (body, contact) = falling(0);
    let mut steps = vec![(0, 1)];
    steps.extend(more);
    Lent::new(&[body], &[contact], &steps)
}

#[test]
fn the_good_step_is_seen() {
    let mut lent = night(&[]);
    let before = lent.clone();
    assert!(lent.call(1).is_ok());
    assert!(!lent.same(&before));
}

#[test]
fn a_contact_that_is_not_there_is_2() {
    for contact in [1, 2, 16383, 16384, 65535] {
        night(&[(contact, 1)]).refused(9, Refusal::NoSuchContact, "last of two");
    }
}

#[test]
fn a_kind_above_4_is_3() {
    for kind in [5, 6, 255, 256, 65535] {
        night(&[(0, kind)]).refused(9, Refusal::KindAbove4, "last of two");
    }
    assert!(night(&[(0, 4)]).call(9).is_ok(), "4 is a kind");
}

#[test]
fn less_room_than_steps_is_4() {
    for rows in [0, 1] {
        let mut lent = night(&[(0, 1)]);
        lent.room.truncate(rows * ANSWER_WIDTH);
        lent.refused(9, Refusal::Room, "room for fewer");
    }
    let mut lent = night(&[(0, 1)]);
    lent.room.truncate(ANSWER_WIDTH);
    lent.refused(1, Refusal::Room, "the room is for the list, not the budget");
}

#[test]
fn steps_past_the_budget_are_looked_at() {
    for budget in [0, 1] {
        night(&[(1, 1)]).refused(budget, Refusal::NoSuchContact, "contact");
        night(&[(0, 5)]).refused(budget, Refusal::KindAbove4, "kind");
    }
}

#[test]
fn the_lowest_number_is_given() {
    // all four at once, then without the lowest, one by one
    let mut all = night(&[(0, 5), (1, 1)]);
    all.bodies.push(0.0);
    all.room.truncate(ANSWER_WIDTH);
    all.clone().refused(9, Refusal::Sizes, "1, 2, 3 and 4");
    all.bodies.pop();
    all.clone().refused(9, Refusal::NoSuchContact, "2, 3 and 4");
    all.steps[4] = 0;
    all.clone().refused(9, Refusal::KindAbove4, "3 and 4");
    all.steps[3] = 1;
    all.clone().refused(9, Refusal::Room, "4");
    all.room.resize(3 * ANSWER_WIDTH, 0);
    assert!(all.call(9).is_ok());
}

#[test]
fn contacts_are_looked_at_in_every_step_before_kinds() {
    night(&[(0, 5), (0, 1), (1, 1)]).refused(1, Refusal::NoSuchContact, "the kind stands first");
    night(&[(1, 5)]).refused(1, Refusal::NoSuchContact, "both in one step");
}

#[test]
fn the_numbers_are_document_01s() {
    let all = [
        Refusal::Sizes,
        Refusal::NoSuchContact,
        Refusal::KindAbove4,
        Refusal::Room,
    ];
    assert_eq!(all.map(|refusal| refusal as u16), [1, 2, 3, 4]);
    let said = Refusal::Room.to_string();
    assert!(said.starts_with("refused with 4: "), "{said}");
}

//! Sizes of the lent stretches: whole rows, equal rows, the largest sizes, empty stretches, and room to spare.
mod common;
use common::{bits, falling, small, Lent, UNTOUCHED};
use romaludiv::*;

const ONE: Done = Done {
    done: 1,
    refused: 1,
};

#[test]
fn the_small_call_is_not_refused() {
    assert_eq!(small().call(1), Ok(ONE));
}

#[test]
fn every_stretch_is_a_whole_number_of_rows() {
    for more in 1..BODY_WIDTH {
        let mut lent = small();
        lent.bodies.extend(vec![0.0; more]);
        lent.refused(1, Refusal::Sizes, "bodies");
    }
    for more in 1..NUMBERS_WIDTH {
        let mut lent = small();
        lent.numbers.extend(vec![0; more]);
        lent.refused(1, Refusal::Sizes, "numbers");
    }
    for more in 1..FLOATS_WIDTH {
        let mut lent = small();
        lent.floats.extend(vec![0.0; more]);
        lent.refused(1, Refusal::Sizes, "floats");
    }
    let mut lent = small();
    lent.steps.push(0);
    lent.refused(1, Refusal::Sizes, "steps");
    let mut lent = small();
    lent.room.push(UNTOUCHED);
    lent.refused(1, Refusal::Sizes, "room");
}

#[test]
fn a_row_that_is_cut_short_is_no_row() {
    let mut lent = small();
    lent.bodies.pop();
    lent.refused(1, Refusal::Sizes, "bodies");
    let mut lent = small();
    lent.numbers.pop();
    lent.refused(1, Refusal::Sizes, "numbers");
    let mut lent = small();
    lent.floats.pop();
    lent.refused(1, Refusal::Sizes, "floats");
    let mut lent = small();
    lent.steps.pop();
    lent.refused(1, Refusal::Sizes, "steps");
    let mut lent = small();
    lent.room.pop();
    lent.refused(1, Refusal::Sizes, "room"); // 1 comes before 4
}

#[test]
fn a_contacts_stretches_have_equally_many_rows() {
    let mut lent = small();
    lent.numbers.extend([0; NUMBERS_WIDTH]);
    lent.refused(1, Refusal::Sizes, "a row more of numbers");
    let mut lent = small();
    lent.floats.extend([0.0; FLOATS_WIDTH]);
    lent.refused(1, Refusal::Sizes, "a row more of floats");
    let mut lent = small();
    lent.numbers.clear();
    lent.refused(1, Refusal::Sizes, "no numbers");
    let mut lent = small();
    lent.floats.clear();
    lent.refused(1, Refusal::Sizes, "no floats");
    let mut lent = small();
    lent.numbers.extend([0; NUMBERS_WIDTH]);
    lent.floats.extend([0.0; FLOATS_WIDTH]);
    assert_eq!(lent.call(1), Ok(ONE), "a row more of both");
}

#[test]
fn bodies_up_to_4096() {
    let mut lent = small();
    lent.bodies = vec![0.0; LARGEST_BODIES * BODY_WIDTH];
    assert_eq!(lent.call(1), Ok(ONE));
    lent.bodies.extend([0.0; BODY_WIDTH]);
    lent.room.fill(UNTOUCHED);
    lent.refused(1, Refusal::Sizes, "4,097 bodies");
}

#[test]
fn contacts_up_to_16384() {
    let mut lent = small();
    lent.numbers = vec![0; LARGEST_CONTACTS * NUMBERS_WIDTH];
    lent.floats = vec![0.0; LARGEST_CONTACTS * FLOATS_WIDTH];
    lent.steps[0] = (LARGEST_CONTACTS - 1) as u16;
    assert_eq!(lent.call(1), Ok(ONE));
    lent.room.fill(UNTOUCHED);
    lent.steps[0] = LARGEST_CONTACTS as u16;
    lent.clone().refused(1, Refusal::NoSuchContact, "one past");
    lent.numbers.extend([0; NUMBERS_WIDTH]);
    lent.floats.extend([0.0; FLOATS_WIDTH]);
    lent.refused(1, Refusal::Sizes, "16,385 contacts");
}

#[test]
fn steps_up_to_65536() {
    let mut lent = small();
    lent.steps = vec![0; LARGEST_STEPS * STEP_WIDTH];
    lent.room = vec![UNTOUCHED; LARGEST_STEPS * ANSWER_WIDTH];
    let all = Done {
        done: LARGEST_STEPS,
        refused: LARGEST_STEPS,
    };
    assert_eq!(lent.call(usize::MAX), Ok(all));
    lent.room.fill(UNTOUCHED);
    let mut short = lent.clone();
    short.room.truncate((LARGEST_STEPS - 1) * ANSWER_WIDTH);
    short.refused(usize::MAX, Refusal::Room, "room for 65,535");
    lent.steps.extend([0; STEP_WIDTH]);
    lent.room.extend([UNTOUCHED; ANSWER_WIDTH]);
    lent.refused(usize::MAX, Refusal::Sizes, "65,537 steps");
}

#[test]
fn a_budget_one_below_the_longest_list() {
    let mut lent = small();
    lent.steps = vec![0; LARGEST_STEPS * STEP_WIDTH];
    lent.room = vec![UNTOUCHED; LARGEST_STEPS * ANSWER_WIDTH];
    let (done, refused) = (LARGEST_STEPS - 1, LARGEST_STEPS - 1);
    assert_eq!(lent.call(done), Ok(Done { done, refused }));
    assert_eq!(lent.answer(done - 1), (5, 0));
    assert_eq!(lent.answer(done), (UNTOUCHED, UNTOUCHED));
}

#[test]
fn the_last_rows_of_the_largest_tables_are_worked() {
    let last = (LARGEST_BODIES - 1) as u16;
    let (body, contact) = falling(last);
    let mut bodies = vec![Body::default(); LARGEST_BODIES];
    bodies[LARGEST_BODIES - 1] = body;
    let mut contacts = vec![Contact::default(); LARGEST_CONTACTS];
    contacts[LARGEST_CONTACTS - 1] = contact;
    let mut steps = vec![(0, 1); LARGEST_STEPS];
    steps[LARGEST_STEPS - 1] = ((LARGEST_CONTACTS - 1) as u16, 1);
    let mut lent = Lent::new(&bodies, &contacts, &steps);
    let all_but_one = Done {
        done: LARGEST_STEPS,
        refused: LARGEST_STEPS - 1,
    };
    assert_eq!(lent.call(LARGEST_STEPS), Ok(all_but_one));
    assert_eq!(lent.answer(LARGEST_STEPS - 1), (0, 0));
    assert_eq!(lent.loads(LARGEST_CONTACTS - 1), (2.0, 0.0));
    assert_eq!(lent.body(LARGEST_BODIES - 1), Body::default());
}

#[test]
fn the_text_programs_tables_with_every_row_zero() {
    let zero = Contact::default(); // joins body 0 with itself
    let mut lent = Lent::new(&[Body::default(); 64], &[zero; 64], &[(0, 0); 256]);
    let all = Done {
        done: 256,
        refused: 256,
    };
    assert_eq!(lent.call(256), Ok(all));
    assert_eq!(lent.room, [5, 0].repeat(256));
}

#[test]
fn empty_stretches() {
    let none = Done {
        done: 0,
        refused: 0,
    };
    assert_eq!(Lent::default().call(0), Ok(none));
    assert_eq!(Lent::default().call(usize::MAX), Ok(none));
    let mut lent = small();
    lent.steps.clear();
    let before = lent.clone();
    assert_eq!(lent.call(5), Ok(none));
    assert!(lent.same(&before), "an empty list writes nothing");
    lent.room.clear();
    assert_eq!(lent.call(5), Ok(none), "it needs no room");
    let mut lent = small();
    lent.bodies.clear();
    assert_eq!(lent.call(1), Ok(ONE), "no bodies: its step is refused");
    assert_eq!(lent.answer(0), (5, 0));
    let mut lent = small();
    lent.numbers.clear();
    lent.floats.clear();
    lent.refused(1, Refusal::NoSuchContact, "no contacts");
}

#[test]
fn room_may_be_larger_than_the_list_and_stays_as_it_is_there() {
    let mut lent = small();
    lent.room = vec![UNTOUCHED; (LARGEST_STEPS + 1) * ANSWER_WIDTH];
    assert_eq!(lent.call(9), Ok(ONE));
    assert_eq!(lent.answer(0), (5, 0));
    assert!(lent.room[ANSWER_WIDTH..].iter().all(|&n| n == UNTOUCHED));
}

#[test]
fn how_many_contacts_there_are_changes_no_answer() {
    let (body, contact) = falling(0);
    let kinds = [0, 1, 2, 4, 3, 1];
    let outcome = |contacts: usize| {
        let last = contacts - 1;
        let steps = kinds.map(|kind| (last as u16, kind));
        let mut lent = Lent::new(&[body], &vec![contact; contacts], &steps);
        let told = lent.call(steps.len());
        let answers = kinds.iter().enumerate().map(|(i, _)| lent.answer(i));
        let answers: Vec<_> = answers.collect();
        (told, answers, bits(&lent.bodies), lent.loads(last))
    };
    let alone = outcome(1);
    for contacts in [2, 255, 256, 257, 1000, 16384] {
        assert_eq!(outcome(contacts), alone, "{contacts} contacts");
    }
}

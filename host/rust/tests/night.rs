//! The records and the builder: which float stands where, what `Night` answers, and where it stops.
mod common;
use common::{bits, falling, good};
use romaludiv::*;

#[test]
fn a_contact_reads_back_as_it_was_written() {
    let floats: [f32; FLOATS_WIDTH] = std::array::from_fn(|i| i as f32);
    let contact = Contact::of_rows([46, 47, 48], floats);
    assert_eq!(contact.floats(), floats);
    assert_eq!(contact.numbers(), [46, 47, 48]);
    let nan = f32::from_bits(0x7fa0_0001);
    assert_eq!(
        bits(&Contact::of_rows([0; 3], [nan; 45]).floats()),
        [0x7fa0_0001; 45]
    );
}

#[test]
fn document_01s_example_by_the_builder() {
    let mut night = Night::new();
    let (body, contact) = falling(0);
    assert_eq!(night.add_body(body), Ok(0));
    assert_eq!(night.add_contact(contact), Ok(0));
    assert_eq!(night.add_step(0, Kind::Normal), Ok(0));
    let report = night.run(1).unwrap();
    let answer = Answer {
        number: 0,
        branch: 0,
    };
    assert_eq!(report.answers, [answer]);
    assert_eq!(report.refused, 0);
    assert_eq!(night.body(0), Some(Body::default()));
    assert_eq!(night.load(0, PointName::A), Some(2.0));
    assert_eq!(night.rub(0, PointName::A), Some(0.0));
    assert_eq!(night.load(0, PointName::B), None, "it has one point");
    assert_eq!(night.load(1, PointName::A), None, "there is no contact 1");
    assert_eq!(night.body(1), None);
    assert_eq!(night.contact(1), None);
}

#[test]
fn loads_and_rubs_are_the_contacts_own() {
    let mut night = Night::new();
    let mut contact = good();
    (contact.a.normal.impulse, contact.a.tangent.impulse) = (1.0, 2.0);
    (contact.b.normal.impulse, contact.b.tangent.impulse) = (3.0, 4.0);
    night.add_contact(Contact::default()).unwrap();
    night.add_contact(contact).unwrap();
    contact.count = 3;
    night.add_contact(contact).unwrap();
    assert_eq!(night.load(0, PointName::A), None, "count 0");
    assert_eq!(night.load(1, PointName::A), Some(1.0));
    assert_eq!(night.rub(1, PointName::A), Some(2.0));
    assert_eq!(night.load(1, PointName::B), Some(3.0));
    assert_eq!(night.rub(1, PointName::B), Some(4.0));
    assert_eq!(night.rub(2, PointName::B), None, "count 3");
    assert_eq!(night.contact(2), Some(contact));
}

#[test]
fn answers_stop_at_the_budget_and_say_number_and_branch() {
    let mut night = Night::new();
    night.add_body(Body::default()).unwrap();
    night.add_body(Body::default()).unwrap();
    let mut pair = good();
    (pair.k12, pair.flag) = (1.0, 1.0);
    let wrong = Contact { count: 3, ..good() };
    let (pair, wrong) = (night.add_contact(pair), night.add_contact(wrong));
    night.add_step(pair.unwrap(), Kind::Pair).unwrap();
    night.add_step(wrong.unwrap(), Kind::Pair).unwrap();
    night.add_step(0, Kind::Friction).unwrap();
    let report = night.run(2).unwrap();
    let said: Vec<_> = report
        .answers
        .iter()
        .map(|a| (a.number, a.branch))
        .collect();
    assert_eq!(said, [(0, 1), (6, 0)]);
    assert_eq!(report.refused, 1);
    let step = night.step(1).unwrap();
    assert_eq!((step.contact, step.kind), (1, Kind::Pair));
    assert_eq!(night.step(3), None);
}

#[test]
fn a_refused_night_is_not_changed_and_can_be_mended() {
    let mut night = Night::new();
    let (body, contact) = falling(0);
    night.add_body(body).unwrap();
    night.add_contact(contact).unwrap();
    night.add_step(0, Kind::Normal).unwrap();
    night.add_step(1, Kind::Normal).unwrap();
    assert_eq!(night.run(1), Err(Refusal::NoSuchContact));
    assert_eq!(night.body(0), Some(body));
    assert_eq!(night.contact(0), Some(contact));
    night.clear_steps();
    night.add_step(0, Kind::Normal).unwrap();
    assert!(night.run(1).is_ok());
    assert_eq!(night.load(0, PointName::A), Some(2.0));
}

#[test]
fn every_kind_has_its_number() {
    let mut night = Night::new();
    let kinds = [
        Kind::WarmStart,
        Kind::Normal,
        Kind::Friction,
        Kind::Restitution,
        Kind::Pair,
    ];
    for (i, kind) in kinds.into_iter().enumerate() {
        assert_eq!(kind as usize, i);
        let step = night.add_step(i as u16, kind).unwrap();
        let contact = i as u16;
        assert_eq!(night.step(step), Some(Step { contact, kind }));
    }
}

#[test]
fn tables_take_their_largest_sizes_and_no_more() {
    let mut night = Night::new();
    for k in 0..LARGEST_BODIES {
        assert_eq!(night.add_body(Body::default()), Ok(k as u16));
    }
    for k in 0..LARGEST_CONTACTS {
        assert_eq!(night.add_contact(Contact::default()), Ok(k as u16));
    }
    for k in 0..LARGEST_STEPS {
        assert_eq!(night.add_step(16383, Kind::Pair), Ok(k as u16));
    }
    assert_eq!(night.add_body(Body::default()), Err(Refusal::Sizes));
    assert_eq!(night.add_contact(Contact::default()), Err(Refusal::Sizes));
    assert_eq!(night.add_step(0, Kind::Pair), Err(Refusal::Sizes));
    assert_eq!(night.body(4095), Some(Body::default()));
    assert_eq!(night.body(4096), None);
    let report = night
        .run(usize::MAX)
        .expect("the library takes these sizes");
    assert_eq!(report.answers.len(), 65536);
    assert_eq!(report.refused, 65536);
}

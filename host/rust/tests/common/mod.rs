//! What the tests share: the stretches of a call as one value, contacts to start from, and one step's answer.
#![allow(dead_code)] // each test file uses a part of it
use romaludiv::*;

/// What the room is filled with before a call; no answer is this.
pub const UNTOUCHED: u16 = 7777;

/// The five stretches of a call.
#[derive(Clone, Default)]
pub struct Lent {
    pub bodies: Vec<f32>,
    pub numbers: Vec<u16>,
    pub floats: Vec<f32>,
    pub steps: Vec<u16>,
    pub room: Vec<u16>,
}

pub fn bits(floats: &[f32]) -> Vec<u32> {
    floats.iter().map(|x| x.to_bits()).collect()
}

impl Lent {
    /// With room for exactly one answer a step.
    pub fn new(bodies: &[Body], contacts: &[Contact], steps: &[(u16, u16)]) -> Self {
        Lent {
            bodies: bodies.iter().flat_map(|body| body.row()).collect(),
            numbers: contacts.iter().flat_map(|c| c.numbers()).collect(),
            floats: contacts.iter().flat_map(|c| c.floats()).collect(),
            steps: steps.iter().flat_map(|&(c, kind)| [c, kind]).collect(),
            room: vec![UNTOUCHED; steps.len() * ANSWER_WIDTH],
        }
    }

    pub fn call(&mut self, budget: usize) -> Result<Done, Refusal> {
        call(
            &mut self.bodies,
            &self.numbers,
            &mut self.floats,
            &self.steps,
            &mut self.room,
            budget,
        )
    }

    /// The call is refused as a whole, and writes nothing.
    pub fn refused(mut self, budget: usize, refusal: Refusal, why: &str) {
        let before = self.clone();
        assert_eq!(self.call(budget), Err(refusal), "{why}");
        assert!(self.same(&before), "{why}: something was written");
    }

    /// The same bits in every stretch that can be written.
    pub fn same(&self, other: &Lent) -> bool {
        bits(&self.bodies) == bits(&other.bodies)
            && bits(&self.floats) == bits(&other.floats)
            && self.room == other.room
    }

    /// Number and branch that step `i` was answered.
    pub fn answer(&self, i: usize) -> (u16, u16) {
        (self.room[2 * i], self.room[2 * i + 1])
    }

    pub fn body(&self, k: usize) -> Body {
        Body::of_row(self.bodies[3 * k..3 * k + 3].try_into().unwrap())
    }

    pub fn contact(&self, k: usize) -> Contact {
        Contact::of_rows(
            self.numbers[3 * k..3 * k + 3].try_into().unwrap(),
            self.floats[45 * k..45 * k + 45].try_into().unwrap(),
        )
    }

    /// The normal impulses of points a and b.
    pub fn loads(&self, k: usize) -> (f32, f32) {
        let contact = self.contact(k);
        (contact.a.normal.impulse, contact.b.normal.impulse)
    }
}

/// A call that is not refused, of one step that is, with 5: the zero contact has the same body twice.
pub fn small() -> Lent {
    Lent::new(&[Body::default(); 2], &[Contact::default()], &[(0, 1)])
}

/// Two real bodies of mass 1 that touch at two points; every kind of step on it is done.
pub fn good() -> Contact {
    let one = Vec2 { x: 1.0, y: 1.0 };
    let mut contact = Contact {
        body2: 1,
        count: 2,
        dir: Vec2 { x: 0.0, y: 1.0 },
        im1: one,
        im2: one,
        ..Contact::default()
    };
    for point in [&mut contact.a, &mut contact.b] {
        point.normal.r = 0.5;
        point.normal.cfm = 1.0;
        point.tangent.r = 0.5;
    }
    contact
}

/// Document 01's example: body `k`, which falls on the floor, touches it at one point.
pub fn falling(k: u16) -> (Body, Contact) {
    let mut contact = Contact {
        body1: k,
        body2: FLOOR,
        im2: Vec2::default(),
        count: 1,
        ..good()
    };
    contact.a = Point::default();
    contact.a.normal.r = 1.0;
    contact.a.normal.cfm = 1.0;
    contact.b = Point::default();
    let body = Body {
        y: -2.0,
        ..Body::default()
    };
    (body, contact)
}

/// The number that a step on this contact is answered; bodies 0 and 1 are these. It stands in a list before a good step
/// on other rows, which has to be done all the same. If it is refused, no bit of its own rows may change.
pub fn number(bodies: [Body; 2], contact: Contact, kind: u16) -> u16 {
    let (body, other) = falling(2);
    let [first, second] = bodies;
    let contacts = [contact, other];
    let mut lent = Lent::new(&[first, second, body], &contacts, &[(0, kind), (1, 1)]);
    let before = lent.clone();
    let done = lent.call(2).expect("the call is not refused");
    let (number, branch) = lent.answer(0);
    if number != 0 {
        assert_eq!(branch, 0);
        assert_eq!(bits(&lent.bodies[..6]), bits(&before.bodies[..6]));
        assert_eq!(bits(&lent.floats[..45]), bits(&before.floats[..45]));
    }
    let refused = usize::from(number != 0);
    assert_eq!(done, Done { done: 2, refused });
    assert_eq!(lent.answer(1), (0, 0), "the list goes on");
    assert_eq!(lent.loads(1), (2.0, 0.0), "the list goes on");
    number
}

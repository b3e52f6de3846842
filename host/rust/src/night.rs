//! A night: the tables and the list of one call, for a program that keeps none of its own.
use crate::{
    call, Body, Contact, Point, Refusal, ANSWER_WIDTH, BODY_WIDTH, FLOATS_WIDTH, LARGEST_BODIES,
    LARGEST_CONTACTS, LARGEST_STEPS, NUMBERS_WIDTH, STEP_WIDTH,
};

/// Which routine a step runs; `as u16` gives document 01's number.
#[derive(Clone, Copy, Debug, PartialEq, Eq)]
#[repr(u16)]
pub enum Kind {
    WarmStart = 0,
    Normal = 1,
    Friction = 2,
    Restitution = 3,
    Pair = 4,
}

#[derive(Clone, Copy, Debug, PartialEq, Eq)]
pub struct Step {
    pub contact: u16,
    pub kind: Kind,
}

/// What became of a step: 0 if it was done, or the number from 5 to 10 that refuses it; and of a done pair, which
/// branch it took, 1 to 6.
#[derive(Clone, Copy, Debug, PartialEq, Eq)]
pub struct Answer {
    pub number: u16,
    pub branch: u16,
}

/// One answer for each step done, in the list's order, and how many of these are refusals.
#[derive(Clone, Debug, PartialEq, Eq)]
pub struct Report {
    pub answers: Vec<Answer>,
    pub refused: usize,
}

/// Which of a contact's points.
#[derive(Clone, Copy, Debug, PartialEq, Eq)]
pub enum PointName {
    A,
    B,
}

/// Tables and list, row after row, as the call takes them. `add_..` answer the new row's number, or
/// [`Refusal::Sizes`] if the table has its largest size already, and then add nothing.
#[derive(Clone, Debug, Default)]
pub struct Night {
    bodies: Vec<f32>,
    numbers: Vec<u16>,
    floats: Vec<f32>,
    steps: Vec<u16>,
}

/// The number of a row that is added after `rows` others to a table of at most `largest`.
fn next(rows: usize, largest: usize) -> Result<u16, Refusal> {
    match u16::try_from(rows) {
        Ok(number) if rows < largest => Ok(number),
        _ => Err(Refusal::Sizes),
    }
}

/// Row `k` of a table, if it has it.
fn row<T: Copy, const WIDTH: usize>(table: &[T], k: u16) -> Option<[T; WIDTH]> {
    let from = usize::from(k) * WIDTH;
    table.get(from..from + WIDTH)?.try_into().ok()
}

impl Night {
    pub fn new() -> Self {
        Self::default()
    }

    pub fn add_body(&mut self, body: Body) -> Result<u16, Refusal> {
        let number = next(self.bodies.len() / BODY_WIDTH, LARGEST_BODIES)?;
        self.bodies.extend(body.row());
        Ok(number)
    }

    pub fn add_contact(&mut self, contact: Contact) -> Result<u16, Refusal> {
        let number = next(self.numbers.len() / NUMBERS_WIDTH, LARGEST_CONTACTS)?;
        self.numbers.extend(contact.numbers());
        self.floats.extend(contact.floats());
        Ok(number)
    }

    pub fn add_step(&mut self, contact: u16, kind: Kind) -> Result<u16, Refusal> {
        let number = next(self.steps.len() / STEP_WIDTH, LARGEST_STEPS)?;
        self.steps.extend([contact, kind as u16]);
        Ok(number)
    }

    /// Empties the list; the tables stay as they are.
    pub fn clear_steps(&mut self) {
        self.steps.clear();
    }

    /// Does the steps of the list, at most `budget`, on the tables. A refused call changes nothing.
    pub fn run(&mut self, budget: usize) -> Result<Report, Refusal> {
        let mut room = vec![0; self.steps.len() / STEP_WIDTH * ANSWER_WIDTH];
        let done = call(
            &mut self.bodies,
            &self.numbers,
            &mut self.floats,
            &self.steps,
            &mut room,
            budget,
        )?;
        let rows = room.chunks_exact(ANSWER_WIDTH).take(done.done);
        let answers = rows.map(|row| Answer {
            number: row[0],
            branch: row[1],
        });
        Ok(Report {
            answers: answers.collect(),
            refused: done.refused,
        })
    }

    pub fn body(&self, body: u16) -> Option<Body> {
        row(&self.bodies, body).map(Body::of_row)
    }

    pub fn contact(&self, contact: u16) -> Option<Contact> {
        let numbers = row::<_, NUMBERS_WIDTH>(&self.numbers, contact)?;
        let floats = row::<_, FLOATS_WIDTH>(&self.floats, contact)?;
        Some(Contact::of_rows(numbers, floats))
    }

    pub fn step(&self, step: u16) -> Option<Step> {
        let [contact, kind] = row(&self.steps, step)?;
        let kinds = [
            Kind::WarmStart,
            Kind::Normal,
            Kind::Friction,
            Kind::Restitution,
            Kind::Pair,
        ];
        let kind = kinds[usize::from(kind)]; // the list only has what `add_step` put there
        Some(Step { contact, kind })
    }

    /// The load of a point, its normal impulse, if the contact is there and has that point.
    pub fn load(&self, contact: u16, point: PointName) -> Option<f32> {
        Some(self.point(contact, point)?.normal.impulse)
    }

    /// What a point rubs, its tangent impulse, likewise.
    pub fn rub(&self, contact: u16, point: PointName) -> Option<f32> {
        Some(self.point(contact, point)?.tangent.impulse)
    }

    /// A contact whose count is not 1 or 2 has no points, as it has no I lines in the text form.
    fn point(&self, contact: u16, point: PointName) -> Option<Point> {
        let contact = self.contact(contact)?;
        match (point, contact.count) {
            (PointName::A, 1 | 2) => Some(contact.a),
            (PointName::B, 2) => Some(contact.b),
            _ => None,
        }
    }
}

//! A night from a slow pipe, in Rust: the text is read in portions as they come, then its steps are done and the loads printed.
//! A bad line is told at once, without waiting for the rest. host/c/pipe.c does and prints the same.
//!
//!     cargo run --offline --example pipe <../../examples/two-points.txt
use romaludiv::*;
use std::io::{self, Read};
use std::process::ExitCode;

/// As much as document 01's text program holds.
const BODIES: usize = 64;
const CONTACTS: usize = 64;
const STEPS: usize = 256;

/// The tables as the text fills them, floats as bits.
struct Bits {
    bodies: [u32; BODIES * BODY_WIDTH],
    numbers: [u16; CONTACTS * NUMBERS_WIDTH],
    floats: [u32; CONTACTS * FLOATS_WIDTH],
    steps: [u16; STEPS * STEP_WIDTH],
}

impl Bits {
    fn new() -> Self {
        Bits {
            bodies: [0; BODIES * BODY_WIDTH],
            numbers: [0; CONTACTS * NUMBERS_WIDTH],
            floats: [0; CONTACTS * FLOATS_WIDTH],
            steps: [0; STEPS * STEP_WIDTH],
        }
    }

    fn lent(&mut self) -> Tables<'_> {
        Tables {
            bodies: &mut self.bodies,
            numbers: &mut self.numbers,
            floats: &mut self.floats,
            steps: &mut self.steps,
        }
    }
}

/// Reads the text until it ends or a line is bad. `read` answers what has come; `read_to_end` would wait for all of it.
fn read_night(mut from: impl Read, bits: &mut Bits) -> io::Result<Result<Rows, BadLine>> {
    let mut reader = Reader::new();
    let mut came = [0; 512];
    loop {
        let len = from.read(&mut came)?;
        if len == 0 {
            return Ok(reader.end(&mut bits.lent()));
        }
        let answer = reader.portion(&came[..len], &mut bits.lent());
        if answer.is_err() {
            return Ok(answer);
        }
    }
}

fn both(x: f32) -> String {
    format!("{x:.6} ({:08x})", x.to_bits())
}

/// A contact whose count is not 1 or 2 has no points.
fn print_contact(k: usize, contact: Contact) {
    let points = match contact.count {
        1 => 1,
        2 => 2,
        _ => 0,
    };
    let both_points = [('a', contact.a), ('b', contact.b)];
    for (name, point) in both_points.into_iter().take(points) {
        let (load, rub) = (point.normal.impulse, point.tangent.impulse);
        println!(
            "contact {k}, point {name}: load {}, rub {}",
            both(load),
            both(rub)
        );
    }
}

/// Does the steps on what was read, and prints the loads.
fn run(rows: Rows, bits: &Bits) -> Result<(), Refusal> {
    let numbers = &bits.numbers[..rows.contacts * NUMBERS_WIDTH];
    let mut bodies = bits.bodies.map(f32::from_bits);
    let mut floats = bits.floats.map(f32::from_bits);
    let floats = &mut floats[..rows.contacts * FLOATS_WIDTH];
    let done = call(
        &mut bodies[..rows.bodies * BODY_WIDTH],
        numbers,
        floats,
        &bits.steps[..rows.steps * STEP_WIDTH],
        &mut [0; STEPS * ANSWER_WIDTH],
        STEPS,
    )?;
    let all = numbers
        .chunks_exact(NUMBERS_WIDTH)
        .zip(floats.chunks_exact(FLOATS_WIDTH));
    for (k, (numbers, floats)) in all.enumerate() {
        let numbers = numbers.try_into().expect("a row of numbers");
        let floats = floats.try_into().expect("a row of floats");
        print_contact(k, Contact::of_rows(numbers, floats));
    }
    println!("done {}, refused {}", done.done, done.refused);
    Ok(())
}

fn main() -> ExitCode {
    let mut bits = Bits::new();
    let rows = match read_night(io::stdin().lock(), &mut bits) {
        Err(_) => return ExitCode::from(2), // the pipe broke
        Ok(Err(BadLine { number, reason })) => {
            println!("line {number} is bad with {reason}");
            return ExitCode::FAILURE;
        }
        Ok(Ok(rows)) => rows,
    };
    let Rows {
        bodies,
        contacts,
        steps,
    } = rows;
    println!("read {bodies} bodies, {contacts} contacts, {steps} steps");
    if let Err(refusal) = run(rows, &bits) {
        println!("the list is refused with {}", refusal as u16);
        return ExitCode::FAILURE;
    }
    ExitCode::SUCCESS
}

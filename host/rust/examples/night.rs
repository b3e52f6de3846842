//! A night in Rust: one foot comes down on the floor with heel and toe. Its steps are a warm start, a pair and friction;
//! one more step is wrong by mistake, and is refused alone. host/c/night.c is the same night and prints the same.
//!
//!     cargo run --offline --example night
use romaludiv::{Body, Contact, Kind, Night, Point, PointName, Refusal, Vec2, FLOOR};

/// A point of inverse mass 0.012 and inverse inertia 20, whose arm is 0.1 to one side; `load` is last night's.
fn point(side: f32, load: f32) -> Point {
    let mut point = Point::default();
    point.normal.torque1 = side * 0.1;
    point.normal.ii1 = side * 2.0;
    point.normal.impulse = load;
    point.normal.r = 4.717;
    point.normal.cfm = 1.0;
    point.tangent.torque1 = 0.05;
    point.tangent.ii1 = 1.0;
    point.tangent.r = 16.13;
    point
}

/// The foot on the floor.
fn contact(foot: u16, count: u16) -> Contact {
    Contact {
        body1: foot,
        body2: FLOOR,
        count,
        dir: Vec2 { x: 0.0, y: 1.0 },
        im1: Vec2 { x: 0.012, y: 0.012 },
        friction: 0.6,
        k12: -0.188,
        flag: 1.0,
        a: point(-1.0, 1.0),
        b: point(1.0, 0.5),
        ..Contact::default()
    }
}

fn both(x: f32) -> String {
    format!("{x:.6} ({:08x})", x.to_bits())
}

/// Point a is the heel, b the toe.
fn print_point(night: &Night, name: &str, contact: u16, point: PointName) {
    if let (Some(load), Some(rub)) = (night.load(contact, point), night.rub(contact, point)) {
        println!("{name}: load {}, rub {}", both(load), both(rub));
    }
}

fn main() -> Result<(), Refusal> {
    let mut night = Night::new();
    let falls = Body {
        x: 0.03,
        y: -0.3,
        w: 0.5,
    };
    let foot = night.add_body(falls)?;
    let heel_and_toe = night.add_contact(contact(foot, 2))?;
    let heel_alone = night.add_contact(contact(foot, 1))?;
    night.add_step(heel_and_toe, Kind::WarmStart)?;
    night.add_step(heel_and_toe, Kind::Pair)?;
    night.add_step(heel_and_toe, Kind::Friction)?;
    night.add_step(heel_alone, Kind::Pair)?; // wrong: a pair needs two points

    let report = night.run(4)?;
    for (i, answer) in (0..).zip(&report.answers) {
        if let Some(step) = night.step(i) {
            print!(
                "step {i}: contact {}, kind {}: ",
                step.contact, step.kind as u16
            );
        }
        match answer.number {
            0 => println!("done, branch {}", answer.branch),
            number => println!("refused with {number}"),
        }
    }
    println!("done {}, refused {}", report.answers.len(), report.refused);
    if let Some(Body { x, y, w }) = night.body(foot) {
        println!("foot: x {}, y {}, w {}", both(x), both(y), both(w));
    }
    print_point(&night, "heel", heel_and_toe, PointName::A);
    print_point(&night, "toe", heel_and_toe, PointName::B);

    night.clear_steps();
    night.add_step(heel_and_toe, Kind::Normal)?;
    night.add_step(2, Kind::Normal)?; // no contact 2
    if let Err(refusal) = night.run(4) {
        println!(
            "a list that names contact 2: refused with {}",
            refusal as u16
        );
    }
    Ok(())
}

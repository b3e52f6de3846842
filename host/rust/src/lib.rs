//! Safe calls of the proved contact solver in libromaludiv.a.
//!
//! [`call`](call()) does a list of steps on slices, which lie as document 01, the exact rules, and `romaludiv.h` say.
//! [`Night`] holds the tables and the list, made of [`Body`], [`Contact`] and [`Step`], for a program that has none of
//! its own. [`Reader`] reads a night's text that arrives in portions. What the library's functions do is proved for every
//! input; this package is not proved, but tested.
//!
//! ```
//! use romaludiv::*;
//!
//! let mut contact = Contact { body2: FLOOR, count: 1, ..Contact::default() };
//! contact.dir.y = 1.0;
//! contact.im1 = Vec2 { x: 1.0, y: 1.0 };
//! contact.a.normal.r = 1.0;
//! contact.a.normal.cfm = 1.0;
//!
//! let mut night = Night::new();
//! contact.body1 = night.add_body(Body { x: 0.0, y: -2.0, w: 0.0 })?; // it falls
//! let heel = night.add_contact(contact)?;
//! night.add_step(heel, Kind::Normal)?;
//! let report = night.run(1)?; // an answer for each step, or why the whole list is refused
//! assert_eq!(report.answers[0].number, 0);
//! assert_eq!(night.load(heel, PointName::A), Some(2.0));
//! # Ok::<(), Refusal>(())
//! ```
mod call;
mod contact;
mod night;
mod reader;

pub use call::{call, Done, Refusal};
pub use contact::{Body, Contact, NormalPart, Point, TangentPart, Vec2};
pub use night::{Answer, Kind, Night, PointName, Report, Step};
pub use reader::{BadLine, Reader, Rows, Tables};

/// The body number that is the floor: it rests and is never written.
pub const FLOOR: u16 = 65535;

/// The largest tables; a larger one refuses the call with 1.
pub const LARGEST_BODIES: usize = 4096;
pub const LARGEST_CONTACTS: usize = 16384;
pub const LARGEST_STEPS: usize = 65536;

/// Elements in a row of each stretch.
pub const BODY_WIDTH: usize = 3;
pub const NUMBERS_WIDTH: usize = 3;
pub const FLOATS_WIDTH: usize = 45;
pub const STEP_WIDTH: usize = 2;
pub const ANSWER_WIDTH: usize = 2;

/// A reader is so many words, and the bytes of a line of at most so many.
pub const READER_WORDS: usize = 10;
pub const MOST_IN_LINE: usize = 160;

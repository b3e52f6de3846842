//! Measures the proved library beside the user's Rust, in one process and over the same tables:
//!     bench                              the tables of `report`
//!     bench text PROGRAM PLAIN FOLDER    the text program beside a plain reader and writer
//! It ends with a panic where the two sides do not agree.

mod clock;
mod contacts;
mod nights;
mod report;
#[allow(dead_code)]
#[path = "../../oracle/src/rng.rs"]
mod rng;
mod sides;
mod text;

fn main() {
    let words: Vec<String> = std::env::args().skip(1).collect();
    match &words.iter().map(String::as_str).collect::<Vec<_>>()[..] {
        [] => {
            report::kinds();
            report::floor();
            report::random();
            report::mixed();
            report::first_touch();
            report::shares();
        }
        ["text", program, plain, folder] => text::measure(program, plain, folder.as_ref()),
        _ => panic!("bench, or bench text PROGRAM PLAIN FOLDER"),
    }
}

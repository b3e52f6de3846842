//! A text that arrives in portions, as over a slow line, read into tables (request E8).
use crate::{call, BODY_WIDTH, FLOATS_WIDTH, MOST_IN_LINE, READER_WORDS, STEP_WIDTH};
use std::fmt;

/// The tables that a text is read into, lent for one portion. Rows lie end to end as in [`call`](crate::call()), but a float is
/// held as its bits, as in the text: `f32::from_bits` makes it one. The lengths are the room: a line for which there is none is
/// bad.
#[derive(Debug)]
pub struct Tables<'a> {
    pub bodies: &'a mut [u32],
    pub numbers: &'a mut [u16],
    pub floats: &'a mut [u32],
    pub steps: &'a mut [u16],
}

/// The first bad line of a text: its number, from 1, and document 01's reason.
#[derive(Clone, Copy, Debug, PartialEq, Eq)]
pub struct BadLine {
    pub number: usize,
    pub reason: u8,
}

impl fmt::Display for BadLine {
    fn fmt(&self, f: &mut fmt::Formatter) -> fmt::Result {
        let words = match self.reason {
            1 => "it is over 160 bytes long",
            2 => "it has no known letter",
            3 => "its letter is out of order, or a contact is cut short by the end",
            4 => "its fields are not as many as they should be, or not of their form",
            5 => "its table is full",
            _ => "for a reason that is none of document 01's",
        };
        let BadLine { number, reason } = self;
        write!(f, "line {number} is bad with {reason}: {words}")
    }
}

impl std::error::Error for BadLine {}

/// How many rows have been read: whole contacts, with all their five lines.
#[derive(Clone, Copy, Debug, Default, PartialEq, Eq)]
pub struct Rows {
    pub bodies: usize,
    pub contacts: usize,
    pub steps: usize,
}

/// Where the words stand, as `romaludiv.h` says.
const OVER: usize = 0;
const BAD: usize = 1;
const REASON: usize = 2;
const NUMBER: usize = 3;
const BODIES: usize = 5;
const FLOATS: usize = 7;
const STEPS: usize = 8;

/// Reads a text that arrives in portions of any length, cut anywhere: tables, bad line and line number are the same for every
/// way of cutting. It is lent the same tables each time.
///
/// [`portion`](Reader::portion) and [`end`](Reader::end) answer how many rows have been read, or the first bad line, as soon as
/// it is known. What the lines before it said stays in the tables; it and all that follows change nothing. Nor does a portion
/// after the end, and a second end gives the same answer.
///
/// Two readers are equal if all their words and bytes are; others may carry the same text, since no call looks at the bytes
/// past the line's length, or at the length of a bad line.
///
/// ```
/// use romaludiv::*;
///
/// let (mut bodies, mut steps) = ([0; BODY_WIDTH], [0; STEP_WIDTH]);
/// let mut tables = Tables { bodies: &mut bodies, numbers: &mut [], floats: &mut [], steps: &mut steps };
/// let mut reader = Reader::new();
/// reader.portion(b"B\t00000000\tc00", &mut tables)?;
/// reader.portion(b"00000\t3f800000\nS\t0", &mut tables)?;
/// reader.portion(b"\t1", &mut tables)?;
/// let rows = reader.end(&mut tables)?;
/// assert_eq!(rows, Rows { bodies: 1, contacts: 0, steps: 1 });
/// assert_eq!(bodies.map(f32::from_bits), [0.0, -2.0, 1.0]);
/// # Ok::<(), BadLine>(())
/// ```
#[derive(Clone, Debug, PartialEq, Eq)]
pub struct Reader {
    words: [usize; READER_WORDS],
    line: [u8; MOST_IN_LINE],
}

impl Default for Reader {
    fn default() -> Self {
        Self::new()
    }
}

impl Reader {
    /// Nothing has been read.
    pub fn new() -> Self {
        Reader {
            words: call::begin(),
            line: [0; MOST_IN_LINE],
        }
    }

    /// Takes the next bytes of the text; there may be none.
    pub fn portion(&mut self, text: &[u8], tables: &mut Tables) -> Result<Rows, BadLine> {
        call::portion(&mut self.words, &mut self.line, text, tables);
        self.answer()
    }

    /// The text has ended; its last line may lack byte 10.
    pub fn end(&mut self, tables: &mut Tables) -> Result<Rows, BadLine> {
        call::end(&mut self.words, &self.line, tables);
        self.answer()
    }

    /// What the last call answered.
    pub fn answer(&self) -> Result<Rows, BadLine> {
        let words = &self.words;
        if words[BAD] != 0 {
            return Err(BadLine {
                number: words[NUMBER],
                reason: u8::try_from(words[REASON]).unwrap_or(u8::MAX),
            });
        }
        Ok(Rows {
            bodies: words[BODIES] / BODY_WIDTH,
            contacts: words[FLOATS] / FLOATS_WIDTH,
            steps: words[STEPS] / STEP_WIDTH,
        })
    }

    /// The end has been announced.
    pub fn is_over(&self) -> bool {
        self.words[OVER] != 0
    }

    /// The reader's words, in the order of `romaludiv.h`, and the bytes of the line that has not ended: for a program that keeps
    /// a reader somewhere else.
    pub fn parts(&self) -> ([usize; READER_WORDS], [u8; MOST_IN_LINE]) {
        (self.words, self.line)
    }

    /// The reader of any words and bytes; none of them does harm.
    pub fn of_parts(words: [usize; READER_WORDS], line: [u8; MOST_IN_LINE]) -> Self {
        Reader { words, line }
    }
}

//! The library's functions, on slices. Here alone is `unsafe`.
use crate::{MOST_IN_LINE, READER_WORDS};
use std::fmt;

extern "C" {
    // As host/romaludiv.h declares them. No linker compares the two; tests/declarations.rs does, as texts.
    fn romaludiv_call(
        bodies: *mut f32,
        bodies_len: usize,
        numbers: *const u16,
        numbers_len: usize,
        floats: *mut f32,
        floats_len: usize,
        steps: *const u16,
        steps_len: usize,
        room: *mut u16,
        room_len: usize,
        budget: usize,
        done: *mut usize,
        refused: *mut usize,
    ) -> u16;

    fn romaludiv_begin(words: *mut usize);

    fn romaludiv_portion(
        words: *mut usize,
        line: *mut u8,
        text: *const u8,
        text_len: usize,
        bodies: *mut u32,
        bodies_len: usize,
        numbers: *mut u16,
        numbers_len: usize,
        floats: *mut u32,
        floats_len: usize,
        steps: *mut u16,
        steps_len: usize,
    );

    fn romaludiv_end(
        words: *mut usize,
        line: *const u8,
        bodies: *mut u32,
        bodies_len: usize,
        numbers: *mut u16,
        numbers_len: usize,
        floats: *mut u32,
        floats_len: usize,
        steps: *mut u16,
        steps_len: usize,
    );
}

/// A call that was not refused: how many steps were done, and how many of these were refused.
#[derive(Clone, Copy, Debug, PartialEq, Eq)]
pub struct Done {
    pub done: usize,
    pub refused: usize,
}

/// Why a whole call is refused; nothing was written then. `as u16` gives document 01's number.
#[derive(Clone, Copy, Debug, PartialEq, Eq)]
#[repr(u16)]
pub enum Refusal {
    /// A table is too large, a stretch is no whole number of rows, or a contact's stretches differ in rows.
    Sizes = 1,
    /// Some step names a contact that is not in the table.
    NoSuchContact = 2,
    /// Some kind is above 4.
    KindAbove4 = 3,
    /// The room has fewer rows than the list.
    Room = 4,
}

impl fmt::Display for Refusal {
    fn fmt(&self, f: &mut fmt::Formatter) -> fmt::Result {
        let words = match self {
            Refusal::Sizes => "a table's size is not allowed",
            Refusal::NoSuchContact => "a step names a contact that is not there",
            Refusal::KindAbove4 => "a kind is above 4",
            Refusal::Room => "there is less room for answers than there are steps",
        };
        write!(f, "refused with {}: {words}", *self as u16)
    }
}

impl std::error::Error for Refusal {}

/// Does the first steps of the list in order, at most `budget` of them, unless the whole call is refused.
///
/// Rows lie end to end: a body is 3 of `bodies`, a contact 3 of `numbers` and 45 of `floats`, a step 2 of `steps`, and
/// its answer 2 of `room`, which is not touched past the steps done.
pub fn call(
    bodies: &mut [f32],
    numbers: &[u16],
    floats: &mut [f32],
    steps: &[u16],
    room: &mut [u16],
    budget: usize,
) -> Result<Done, Refusal> {
    let (mut done, mut refused) = (0, 0);
    // SAFETY: what romaludiv.h asks holds of slices. Each pointer is valid for its length, aligned and not null, even
    // of an empty slice, and every element has a value. A slice that is lent by `&mut` overlaps none of the others, and
    // no other thread sees it; the two that are lent by `&` are only read, and nobody writes them as long as they are
    // lent. `done` and `refused` are two variables of this function. Rust's own arithmetic, too, stands on the default
    // rounding with subnormals kept, so a program that leaves these has broken Rust's rules before it comes here. A stack
    // that is too small ends the program at its guard page, as in any Rust function.
    let number = unsafe {
        romaludiv_call(
            bodies.as_mut_ptr(),
            bodies.len(),
            numbers.as_ptr(),
            numbers.len(),
            floats.as_mut_ptr(),
            floats.len(),
            steps.as_ptr(),
            steps.len(),
            room.as_mut_ptr(),
            room.len(),
            budget,
            &mut done,
            &mut refused,
        )
    };
    match number {
        0 => Ok(Done { done, refused }),
        1 => Err(Refusal::Sizes),
        2 => Err(Refusal::NoSuchContact),
        3 => Err(Refusal::KindAbove4),
        4 => Err(Refusal::Room),
        other => unreachable!("the library promises 0 to 4, and answered {other}"),
    }
}

/// The words of a reader that has read nothing.
pub(crate) fn begin() -> [usize; READER_WORDS] {
    let mut words = [0; READER_WORDS];
    // SAFETY: `words` is a variable of this function, of as many words as romaludiv.h says.
    unsafe { romaludiv_begin(words.as_mut_ptr()) };
    words
}

/// A portion, for any words and any line.
pub(crate) fn portion(
    words: &mut [usize; READER_WORDS],
    line: &mut [u8; MOST_IN_LINE],
    text: &[u8],
    tables: &mut crate::Tables,
) {
    // SAFETY: as in `call`. `words` and `line` are as long as romaludiv.h says, and every value of theirs is allowed.
    unsafe {
        romaludiv_portion(
            words.as_mut_ptr(),
            line.as_mut_ptr(),
            text.as_ptr(),
            text.len(),
            tables.bodies.as_mut_ptr(),
            tables.bodies.len(),
            tables.numbers.as_mut_ptr(),
            tables.numbers.len(),
            tables.floats.as_mut_ptr(),
            tables.floats.len(),
            tables.steps.as_mut_ptr(),
            tables.steps.len(),
        )
    }
}

/// The announced end, for any words and any line.
pub(crate) fn end(
    words: &mut [usize; READER_WORDS],
    line: &[u8; MOST_IN_LINE],
    tables: &mut crate::Tables,
) {
    // SAFETY: as in `portion`.
    unsafe {
        romaludiv_end(
            words.as_mut_ptr(),
            line.as_ptr(),
            tables.bodies.as_mut_ptr(),
            tables.bodies.len(),
            tables.numbers.as_mut_ptr(),
            tables.numbers.len(),
            tables.floats.as_mut_ptr(),
            tables.floats.len(),
            tables.steps.as_mut_ptr(),
            tables.steps.len(),
        )
    }
}

//! A text that arrives in portions (request E8): however it is cut, tables and answer are those of the whole text; a bad line,
//! the end and any words of a reader do no harm. Every cell of the tables is compared, past what was filled too.
use romaludiv::*;

const DOCUMENT: &[u8] = include_bytes!("../../../examples/document.txt");
const DOCUMENT_ROWS: Rows = Rows {
    bodies: 1,
    contacts: 1,
    steps: 1,
};

/// Tables with room for so many bodies, contacts and steps.
#[derive(Clone, Debug, PartialEq)]
struct Room {
    bodies: Vec<u32>,
    numbers: Vec<u16>,
    floats: Vec<u32>,
    steps: Vec<u16>,
}

impl Room {
    /// No two cells of a table hold the same, and none what a text below says.
    fn new(bodies: u16, contacts: u16, steps: u16) -> Self {
        let numbers = |cells| (0..cells).map(|i| 0xa500 + i).collect();
        let bits = |cells| (0..cells).map(|i| 0xa5a5_0000 + u32::from(i)).collect();
        Room {
            bodies: bits(3 * bodies),
            numbers: numbers(3 * contacts),
            floats: bits(45 * contacts),
            steps: numbers(2 * steps),
        }
    }

    fn lent(&mut self) -> Tables<'_> {
        Tables {
            bodies: &mut self.bodies,
            numbers: &mut self.numbers,
            floats: &mut self.floats,
            steps: &mut self.steps,
        }
    }

    /// The text in one portion, and the end.
    fn read(&mut self, text: &[u8]) -> (Reader, Result<Rows, BadLine>) {
        let mut reader = Reader::new();
        let _ = reader.portion(text, &mut self.lent());
        let answer = reader.end(&mut self.lent());
        (reader, answer)
    }

    fn lens(&self) -> [usize; 4] {
        [
            self.bodies.len(),
            self.numbers.len(),
            self.floats.len(),
            self.steps.len(),
        ]
    }
}

fn room() -> Room {
    Room::new(3, 2, 4)
}

fn bad(number: usize, reason: u8) -> Result<Rows, BadLine> {
    Err(BadLine { number, reason })
}

/// Document 01's night as it stands at the front of the tables, written out here and not read by the library.
fn document() -> Room {
    let mut room = room();
    let fields: Vec<&str> = std::str::from_utf8(DOCUMENT)
        .unwrap()
        .split_whitespace()
        .filter(|field| !"BCNTS".contains(field))
        .collect();
    let bits = |fields: &[&str], cells: &mut [u32]| {
        for (field, cell) in fields.iter().zip(cells) {
            *cell = u32::from_str_radix(field, 16).unwrap();
        }
    };
    bits(&fields[0..3], &mut room.bodies);
    bits(&fields[6..51], &mut room.floats);
    room.numbers[..3].copy_from_slice(&[0, FLOOR, 1]);
    room.steps[..2].copy_from_slice(&[0, 1]);
    room
}

#[test]
fn a_whole_night_stands_at_the_front() {
    let mut read = room();
    let (reader, answer) = read.read(DOCUMENT);
    assert_eq!(answer, Ok(DOCUMENT_ROWS));
    assert_eq!(read, document(), "every cell, past the night too");
    assert!(reader.is_over());
}

#[test]
fn zero_bytes() {
    let (mut tables, mut reader) = (room(), Reader::new());
    for _ in 0..3 {
        assert_eq!(reader.portion(b"", &mut tables.lent()), Ok(Rows::default()));
    }
    assert_eq!(reader, Reader::new());
    for part in DOCUMENT.chunks(17) {
        reader.portion(part, &mut tables.lent()).unwrap();
        let before = (reader.clone(), tables.clone());
        reader.portion(b"", &mut tables.lent()).unwrap();
        assert_eq!((&reader, &tables), (&before.0, &before.1));
    }
    assert_eq!(reader.end(&mut tables.lent()), Ok(DOCUMENT_ROWS));
    assert_eq!(tables, document());

    let mut empty = room();
    assert_eq!(empty.read(b"").1, Ok(Rows::default()));
    assert_eq!(empty, room(), "an empty text says nothing");
}

#[test]
fn one_byte_at_a_time() {
    let (mut tables, mut reader) = (room(), Reader::new());
    for byte in DOCUMENT {
        reader.portion(&[*byte], &mut tables.lent()).unwrap();
    }
    assert_eq!(reader.end(&mut tables.lent()), Ok(DOCUMENT_ROWS));
    assert_eq!(tables, document());
}

#[test]
fn every_cut_into_two_and_into_three() {
    let whole = room().read(DOCUMENT);
    for at in 0..=DOCUMENT.len() {
        for wide in [0, 1, 9, 200] {
            let until = DOCUMENT.len().min(at + wide);
            let (mut tables, mut reader) = (room(), Reader::new());
            for part in [&DOCUMENT[..at], &DOCUMENT[at..until], &DOCUMENT[until..]] {
                reader.portion(part, &mut tables.lent()).unwrap();
            }
            let answer = reader.end(&mut tables.lent());
            assert_eq!(answer, whole.1, "cut at {at} and {until}");
            assert_eq!(reader.parts().0, whole.0.parts().0, "cut at {at}, {until}");
            assert_eq!(tables, document(), "cut at {at} and {until}");
        }
    }
}

#[test]
fn a_reader_kept_elsewhere_goes_on() {
    let (mut tables, mut reader) = (room(), Reader::new());
    for part in DOCUMENT.chunks(7) {
        let (words, line) = reader.parts();
        reader = Reader::of_parts(words, line);
        reader.portion(part, &mut tables.lent()).unwrap();
    }
    assert_eq!(reader.end(&mut tables.lent()), Ok(DOCUMENT_ROWS));
    assert_eq!(tables, document());
}

#[test]
fn after_the_end_nothing_changes() {
    for text in [DOCUMENT, b"", b"B\t", b"C\t0\t1\t2\n", b"S\t1\t1\n\n"] {
        let mut tables = room();
        let (mut reader, answer) = tables.read(text);
        let before = (reader.clone(), tables.clone());
        for later in [&b"S\t0\t1\n"[..], b"", b"no line", DOCUMENT] {
            assert_eq!(reader.portion(later, &mut tables.lent()), answer);
            assert_eq!(reader.end(&mut tables.lent()), answer, "a second end");
            assert_eq!((&reader, &tables), (&before.0, &before.1));
        }
    }
}

#[test]
fn the_first_bad_line_and_what_follows_change_no_cell() {
    let good = b"B\t00000000\t00000000\t00000000\n";
    let long = [b'B'; 161];
    let lines: [(&[u8], u8); 6] = [
        (&long, 1),
        (b"\n", 2),
        (b"N\t00000000\n", 3),
        (b"B\t00000000\t00000000\n", 4),
        (b"B\t00000000\t00000000\t0000000g\n", 4),
        (b"B\t00000000\t00000000\t00000000\tmore\n", 4),
    ];
    for (line, reason) in lines {
        let (mut tables, mut reader) = (room(), Reader::new());
        reader.portion(good, &mut tables.lent()).unwrap();
        let before = tables.clone();
        let at_once = reader.portion(line, &mut tables.lent());
        assert_eq!(at_once, bad(2, reason), "told before the end");
        for later in [&good[..], b"\n\n", DOCUMENT] {
            assert_eq!(reader.portion(later, &mut tables.lent()), bad(2, reason));
            assert_eq!(tables, before);
        }
        assert_eq!(reader.end(&mut tables.lent()), bad(2, reason));
        assert_eq!(tables, before);
    }
}

#[test]
fn a_full_table_and_a_contact_cut_short() {
    let mut small = Room::new(1, 1, 1);
    let twice = [DOCUMENT, b"S\t0\t2\n"].concat();
    assert_eq!(small.read(&twice).1, bad(8, 5), "room for one step");
    assert_eq!(small.bodies, document().bodies[..3]);
    assert_eq!(small.steps, [0, 1]);
    let lines: Vec<_> = DOCUMENT.split_inclusive(|byte| *byte == b'\n').collect();
    let cut = lines[..5].concat();
    assert_eq!(room().read(&cut).1, bad(6, 3), "its last T is missing");
    assert_eq!(Room::new(0, 0, 0).read(b"").1, Ok(Rows::default()));
}

/// The numbers of xorshift64.
fn random(state: &mut u64) -> usize {
    *state ^= *state << 13;
    *state ^= *state >> 7;
    *state ^= *state << 17;
    *state as usize
}

/// Of any size: small, about the tables' lengths, or any word.
fn any_word(state: &mut u64) -> usize {
    let word = random(state);
    match random(state) % 4 {
        0 => word % 8,
        1 => word % 200,
        2 => usize::MAX - word % 3,
        _ => word,
    }
}

#[test]
fn any_words_do_no_harm() {
    let mut state = 1;
    for turn in 0..800 {
        let words = [(); READER_WORDS].map(|()| any_word(&mut state));
        let line = [(); MOST_IN_LINE].map(|()| b"\t0Sa1\nB"[random(&mut state) % 7]);
        let mut tables = room();
        let mut reader = Reader::of_parts(words, line);
        let lens = tables.lens();
        let _ = reader.portion(DOCUMENT, &mut tables.lent());
        let _ = reader.portion(b"S\t1\t1\n", &mut tables.lent());
        let _ = reader.end(&mut tables.lent());
        assert_eq!(tables.lens(), lens);
        let counts = &reader.parts().0[5..9];
        let within = counts.iter().zip(lens).all(|(count, len)| *count <= len);
        assert!(within, "turn {turn}: {counts:?} in {lens:?}");
        assert!(reader.is_over());
    }
}

/// A reader that has read nothing, but for one word.
fn with_word(place: usize, word: usize) -> Reader {
    let (mut words, line) = Reader::new().parts();
    words[place] = word;
    Reader::of_parts(words, line)
}

#[test]
fn a_place_of_77_counts_as_the_last() {
    for (text, answer) in [
        (&b"S\t0\t1\n"[..], Ok(1)),
        (b"B\t0\n", bad(1, 3).map(|_| 0)),
    ] {
        let (mut sixth, mut other) = (room(), room());
        let (mut a, mut b) = (with_word(4, 6), with_word(4, 77));
        let said = a.portion(text, &mut sixth.lent());
        assert_eq!(b.portion(text, &mut other.lent()), said);
        assert_eq!(said.map(|rows| rows.steps), answer);
        assert_eq!((a, sixth), (b, other));
    }
}

#[test]
fn words_that_say_yes_are_any_but_0() {
    for word in [1, 2, 256, usize::MAX] {
        let mut tables = room();
        let mut over = with_word(0, word);
        assert!(over.is_over());
        assert_eq!(
            over.portion(DOCUMENT, &mut tables.lent()),
            Ok(Rows::default())
        );
        assert_eq!(tables, room());
        let mut refused = with_word(1, word);
        assert_eq!(refused.portion(DOCUMENT, &mut tables.lent()), bad(1, 0));
        assert_eq!(tables, room());
    }
    let (mut words, line) = Reader::new().parts();
    (words[1], words[2]) = (1, 256 + 4);
    let mut high = Reader::of_parts(words, line);
    assert_eq!(high.end(&mut room().lent()), bad(1, 255));
}

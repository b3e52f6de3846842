//! romaludiv.h and this package say the same: every number that the header defines is looked up here, and each name of
//! a place is held against the record's field.
use romaludiv::*;
use std::collections::BTreeMap;

/// The header's numbers by name, without the prefix.
fn header() -> BTreeMap<&'static str, usize> {
    let numbers = include_str!("../../romaludiv.h")
        .lines()
        .filter_map(|line| {
            let mut words = line.strip_prefix("#define ROMALUDIV_")?.split_whitespace();
            Some((words.next()?, words.next()?.parse().ok()?))
        });
    numbers.collect()
}

#[test]
fn sizes_widths_and_kinds() {
    let said = header();
    let here = [
        ("LARGEST_BODIES", LARGEST_BODIES),
        ("LARGEST_CONTACTS", LARGEST_CONTACTS),
        ("LARGEST_STEPS", LARGEST_STEPS),
        ("FLOOR", usize::from(FLOOR)),
        ("BODY_WIDTH", BODY_WIDTH),
        ("NUMBERS_WIDTH", NUMBERS_WIDTH),
        ("FLOATS_WIDTH", FLOATS_WIDTH),
        ("STEP_WIDTH", STEP_WIDTH),
        ("ANSWER_WIDTH", ANSWER_WIDTH),
        ("WARM_START", Kind::WarmStart as usize),
        ("NORMAL_STEP", Kind::Normal as usize),
        ("FRICTION_STEP", Kind::Friction as usize),
        ("RESTITUTION", Kind::Restitution as usize),
        ("PAIR", Kind::Pair as usize),
        ("READER_WORDS", READER_WORDS),
        ("MOST_IN_LINE", MOST_IN_LINE),
    ];
    for (name, number) in here {
        assert_eq!(said.get(name), Some(&number), "{name}");
    }
    let places = 9 + 2 + 2 + 10 + READER_WORDS;
    assert_eq!(said.len(), here.len() + places, "none is left out here");
}

/// A contact whose every float is its own place in the row.
fn places() -> Contact {
    Contact::of_rows([0; 3], std::array::from_fn(|i| i as f32))
}

#[test]
fn places_in_the_head() {
    let (said, c) = (header(), places());
    let here = [
        ("DIR_X", c.dir.x),
        ("DIR_Y", c.dir.y),
        ("IM1_X", c.im1.x),
        ("IM1_Y", c.im1.y),
        ("IM2_X", c.im2.x),
        ("IM2_Y", c.im2.y),
        ("FRICTION", c.friction),
        ("K12", c.k12),
        ("FLAG", c.flag),
    ];
    for (name, place) in here {
        assert_eq!(said[name] as f32, place, "{name}");
    }
}

#[test]
fn places_in_the_points() {
    let (said, c) = (header(), places());
    for (point, name) in [(c.a, "POINT_A"), (c.b, "POINT_B")] {
        let (n, t) = (point.normal, point.tangent);
        let normal = (said[name] + said["NORMAL"]) as f32;
        let tangent = (said[name] + said["TANGENT"]) as f32;
        let both = [
            ("TORQUE1", n.torque1, t.torque1),
            ("TORQUE2", n.torque2, t.torque2),
            ("II1", n.ii1, t.ii1),
            ("II2", n.ii2, t.ii2),
            ("RHS", n.rhs, t.rhs),
            ("IMPULSE", n.impulse, t.impulse),
            ("ACCUMULATOR", n.accumulator, t.accumulator),
            ("R", n.r, t.r),
        ];
        for (name, in_normal, in_tangent) in both {
            assert_eq!(normal + said[name] as f32, in_normal, "{name}");
            assert_eq!(tangent + said[name] as f32, in_tangent, "{name}");
        }
        assert_eq!(normal + said["CFM"] as f32, n.cfm);
        assert_eq!(normal + said["SEED"] as f32, n.seed);
    }
}

/// After these lines and the beginning of one more, each word is what the header's name says.
#[test]
fn places_of_a_reader_s_words() {
    let said = header();
    let (mut bodies, mut numbers, mut floats, mut steps) = ([0; 6], [0; 3], [0; 45], [0; 2]);
    let mut tables = Tables {
        bodies: &mut bodies,
        numbers: &mut numbers,
        floats: &mut floats,
        steps: &mut steps,
    };
    let zeros = |many| "\t00000000".repeat(many);
    let contact = format!("C\t0\t1\t2{}\nN{}\n", zeros(9), zeros(10));
    let text = format!("B{0}\nB{0}\n{contact}T\t", zeros(3));
    let mut reader = Reader::new();
    assert!(reader.portion(text.as_bytes(), &mut tables).is_ok());
    let word = |reader: &Reader, name: &str| reader.parts().0[said[name]];
    let here = [
        ("READER_OVER", 0),
        ("READER_BAD", 0),
        ("READER_REASON", 0),
        ("READER_NUMBER", 5),
        ("READER_PLACE", 2),
        ("READER_BODIES", 6),
        ("READER_NUMBERS", 3),
        ("READER_FLOATS", 19),
        ("READER_STEPS", 0),
        ("READER_LEN", 2),
    ];
    for (name, number) in here {
        assert_eq!(word(&reader, name), number, "{name}");
    }
    assert!(reader.end(&mut tables).is_err(), "a T without its fields");
    for (name, number) in [("READER_OVER", 1), ("READER_BAD", 1), ("READER_REASON", 4)] {
        assert_eq!(word(&reader, name), number, "{name}");
    }
    let mut reader = Reader::new();
    assert!(reader.portion(b"S\t0\t1\n", &mut tables).is_ok());
    assert_eq!(word(&reader, "READER_STEPS"), 2);
    assert_eq!(word(&reader, "READER_PLACE"), 6);
}

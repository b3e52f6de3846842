//! No linker compares declarations. So the three of each function are compared here as texts: the proved crate's, from
//! which the two others follow, romaludiv.h's, and the one in src/call.rs.

/// What stands in the parentheses after the function's name, parameter by parameter, in single blanks.
fn parameters(text: &str, before: &str) -> Vec<String> {
    let (_, rest) = text.split_once(before).expect("it is declared");
    let (inside, _) = rest.split_once(')').expect("a list of parameters");
    let words = |parameter: &str| parameter.split_whitespace().collect::<Vec<_>>().join(" ");
    let all = inside.split(',').map(words);
    all.filter(|parameter| !parameter.is_empty()).collect()
}

/// A parameter of the proved crate as the ones that it becomes, written by `pointer` and `number`.
fn becomes(
    parameter: &str,
    pointer: fn(&str, &str, bool) -> String,
    number: fn(&str) -> String,
) -> Vec<String> {
    let (name, kind) = parameter.split_once(": ").expect("name: type");
    let (kind, written) = match kind.strip_prefix("&mut ") {
        Some(rest) => (rest, true),
        None => (kind.trim_start_matches('&'), false),
    };
    let inside = kind
        .strip_prefix('[')
        .map(|rest| rest.trim_end_matches(']'));
    match inside.map(|elements| elements.split_once("; ")) {
        // an array, whose length is known
        Some(Some((element, _))) => vec![pointer(name, element, written)],
        Some(None) => vec![
            pointer(name, inside.unwrap_or_default(), written),
            number(&format!("{name}_len")),
        ],
        None if written => vec![pointer(name, kind, true)],
        None => vec![number(name)],
    }
}

fn in_c(name: &str, kind: &str, written: bool) -> String {
    let kind = match kind {
        "f32" => "float",
        "u8" => "uint8_t",
        "u16" => "uint16_t",
        "u32" => "uint32_t",
        "usize" => "size_t",
        other => panic!("{other} in the proved crate"),
    };
    let constant = if written { "" } else { "const " };
    format!("{constant}{kind} *{name}")
}

fn in_rust(name: &str, kind: &str, written: bool) -> String {
    let pointer = if written { "*mut" } else { "*const" };
    format!("{name}: {pointer} {kind}")
}

/// The function's three declarations agree; it has so many parameters, and C's result.
fn agree(function: &str, result: &str, many: usize) {
    let proved = include_str!("../../../crates/romaludiv_c/src/lib.rt");
    let proved = parameters(proved, &format!("pub extern \"C\" fn {function}("));
    let expand = |pointer, number| {
        let all = proved.iter().map(|p| becomes(p, pointer, number));
        all.collect::<Vec<_>>().concat()
    };
    let c = expand(in_c, |name| format!("size_t {name}"));
    let header = include_str!("../../romaludiv.h");
    assert_eq!(parameters(header, &format!("{result} {function}(")), c);
    let rust = expand(in_rust, |name| format!("{name}: usize"));
    let wrapper = include_str!("../src/call.rs");
    assert_eq!(parameters(wrapper, &format!("fn {function}(")), rust);
    assert_eq!(rust.len(), many, "{function}");
}

#[test]
fn the_three_declarations_agree() {
    agree("romaludiv_call", "uint16_t", 13);
    agree("romaludiv_begin", "void", 1);
    agree("romaludiv_portion", "void", 12);
    agree("romaludiv_end", "void", 10);
}

/// An array's length stands in no declaration: in the proved crate it is a constant, in the header a number.
#[test]
fn a_reader_is_as_long_everywhere() {
    let proved = include_str!("../../../crates/romaludiv/src/lib.rt");
    let places = include_str!("../../../crates/base_places/src/lib.rt");
    let words = format!("const WORDS: usize = {};", romaludiv::READER_WORDS);
    let line = format!("const MOST_IN_LINE: usize = {};", romaludiv::MOST_IN_LINE);
    assert!(proved.contains(&words) && places.contains(&line));
    let exports = include_str!("../../../crates/romaludiv_c/src/lib.rt");
    assert!(exports.contains("use romaludiv::WORDS;"));
    assert!(exports.contains("use base_places::MOST_IN_LINE;"));
    assert_eq!(exports.matches("words: &mut [usize; WORDS]").count(), 3);
    assert_eq!(exports.matches("[u8; MOST_IN_LINE]").count(), 2);
}

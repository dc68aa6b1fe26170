//! The crate says what mosszephyr.h says: the same words, the same limits, the same version.

use mosszephyr::{At, Refusal, MOST_CELLS, MOST_LIST, MOST_PITCH, MOST_SIDE};

const HEADER: &str = include_str!("../../../mosszephyr.h");

const AT: At = At { record: 0, byte: 0 };

const ROOM: Refusal = Refusal::Room {
    at: AT,
    at_end: false,
};

/// Each refusal with its name in the header, in the header's order.
const REFUSALS: [(&str, Refusal); 14] = [
    ("MZ_SIZE", Refusal::Size),
    ("MZ_BAND", Refusal::Band),
    ("MZ_PITCH", Refusal::Pitch),
    ("MZ_MASK", Refusal::Mask),
    ("MZ_WORKSPACE", Refusal::Workspace),
    ("MZ_FLOAT", Refusal::Float),
    ("MZ_LIST", Refusal::List),
    ("MZ_CUT", Refusal::Cut(AT)),
    ("MZ_KIND", Refusal::Kind(AT)),
    ("MZ_LENGTH", Refusal::Length(AT)),
    ("MZ_START", Refusal::Start(AT)),
    ("MZ_POINT", Refusal::Point(Some(AT))),
    ("MZ_ROOM", ROOM),
    ("MZ_AFTER_CLOSE", Refusal::AfterClose(AT)),
];

/// Neither has a number that the other has not.
#[test]
fn refusals_have_the_headers_numbers() {
    let (_, behind) = HEADER.split_once("    MZ_ACCEPTED = 0,\n").unwrap();
    let (lines, _) = behind.split_once("};").unwrap();
    let named = REFUSALS.map(|(name, refusal)| format!("    {name} = {}", refusal.number()));
    assert_eq!(lines.trim_end(), named.join(",\n"));
    let numbers = REFUSALS.iter().map(|(_, refusal)| refusal.number());
    assert!(numbers.eq((1..=13).chain([18])));
}

#[test]
fn refusals_have_the_headers_words() {
    for (name, refusal) in REFUSALS {
        let case = format!("case {name}:");
        let (_, behind) = HEADER
            .split_once(&case)
            .expect("mz_words has a case for each");
        let (statement, _) = behind.split_once(';').unwrap();
        let expected = format!("return \"{}\"", refusal.words());
        assert_eq!(statement.trim(), expected, "{name}");
    }
}

#[test]
fn limits_are_the_headers() {
    let limits = [
        ("SIDE", MOST_SIDE),
        ("PITCH", MOST_PITCH),
        ("LIST", MOST_LIST),
        ("CELLS", MOST_CELLS),
    ];
    for (name, number) in limits {
        let line = format!("#define MZ_MOST_{name} {number}\n");
        assert!(HEADER.contains(&line), "{line}");
    }
}

#[test]
fn version_is_the_headers() {
    let line = format!("#define MZ_VERSION \"{}\"\n", env!("CARGO_PKG_VERSION"));
    assert!(HEADER.contains(&line), "{line}");
}

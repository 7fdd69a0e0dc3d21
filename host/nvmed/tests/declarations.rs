//! Whether this crate declares what `nvmed.h` declares: each function by the types of its parameters, each struct by its members, and the numbers.

#![allow(clippy::unwrap_used)]

use std::collections::BTreeMap;

const HEADER: &str = include_str!("../../../include/nvmed.h");
const SYS: &str = include_str!("../src/sys.rs");
const STUB: &str = include_str!("../src/stub/calls.rs");
const ERRORS: &str = include_str!("../src/error.rs");

/// The text between two others, the first time they are there.
fn between<'a>(text: &'a str, from: &str, to: &str) -> Option<&'a str> {
    let rest = text.split_once(from)?.1;
    rest.split_once(to).map(|(inside, _)| inside)
}

/// A type of C in Rust's words.
fn in_rust(c: &str) -> String {
    let stars = c.matches('*').count();
    let words = c.replace('*', " ");
    let mut words: Vec<&str> = words.split_whitespace().collect();
    let shared = words.first() == Some(&"const");
    if shared {
        words.remove(0);
    }
    let name = match words[0] {
        "uint8_t" => "u8",
        "uint16_t" => "u16",
        "uint32_t" => "u32",
        "uint64_t" => "u64",
        "size_t" => "usize",
        "void" => "c_void",
        "nvmed_handle" => "Handle",
        "nvmed_sizes" => "Sizes",
        "nvmed_region" => "Region",
        "nvmed_extent" => "Extent",
        "nvmed_event" => "Event",
        "nvmed_lane_rings" => "LaneRings",
        "nvmed_standing" => "Standing",
        other => other,
    };
    match (stars, shared) {
        (0, _) => name.to_string(),
        (1, true) => format!("*const {name}"),
        (1, false) => format!("*mut {name}"),
        _ => format!("*mut *const {name}"),
    }
}

/// The functions that the header declares, with the types of their parameters.
fn of_header() -> BTreeMap<String, Vec<String>> {
    let declared = HEADER.split("\nuint32_t nvmed_raw_").skip(1);
    let typed = |text: &str| {
        let (name, rest) = text.split_once('(').unwrap();
        let list = rest.split_once(");").unwrap().0;
        let types = list
            .split(',')
            .map(str::trim)
            .filter(|word| *word != "void")
            .map(in_rust);
        (name.to_string(), types.collect())
    };
    declared.map(typed).collect()
}

/// The functions of a file of this crate, with the types of their parameters.
fn of_rust(text: &str, begin: &str) -> BTreeMap<String, Vec<String>> {
    let typed = |text: &str| {
        let (name, rest) = text.split_once('(').unwrap();
        let list = rest.split_once(')').unwrap().0;
        let of = |word: &str| word.split_once(": ").map(|(_, kind)| kind.trim().to_string());
        (name.to_string(), list.split(',').filter_map(of).collect())
    };
    text.split(begin).skip(1).map(typed).collect()
}

#[test]
fn functions_have_the_parameters_of_the_header() {
    let header = of_header();
    assert!(header.len() >= 20, "the header was not read: {header:?}");
    let ours = of_rust(SYS, "pub(crate) fn nvmed_raw_");
    assert!(ours.len() >= 14, "sys.rs was not read: {ours:?}");
    for (name, types) in &ours {
        assert_eq!(header.get(name), Some(types), "nvmed_raw_{name}");
    }
    assert_eq!(of_rust(STUB, "pub(crate) unsafe fn nvmed_raw_"), ours, "the stub's");
}

/// The members of a struct of the header, with their types.
fn of_c(text: &str) -> Vec<(String, String)> {
    let lines = text
        .lines()
        .map(|line| line.split("/*").next().unwrap_or_default().trim());
    let typed = |line: &str| {
        let (kind, names) = line.strip_suffix(';')?.split_once(' ')?;
        let of = |name: &str| {
            let stars = name.matches('*').count();
            let kind = in_rust(&format!("{kind} {}", "*".repeat(stars)));
            (name.trim_matches([' ', '*']).to_string(), kind)
        };
        Some(names.split(',').map(of).collect::<Vec<_>>())
    };
    lines.filter_map(typed).flatten().collect()
}

/// The members of a struct of this crate, with their types.
fn of_ours(text: &str) -> Vec<(String, String)> {
    let typed = |line: &str| {
        let (name, kind) = line
            .trim()
            .strip_prefix("pub(crate) ")?
            .strip_suffix(',')?
            .split_once(": ")?;
        Some((name.to_string(), kind.to_string()))
    };
    text.lines().filter_map(typed).collect()
}

#[test]
fn structs_have_the_members_of_the_header() {
    let structs = [
        ("nvmed_handle", "Handle", 1),
        ("nvmed_sizes", "Sizes", 4),
        ("nvmed_region", "Region", 4),
        ("nvmed_extent", "Extent", 3),
        ("nvmed_event", "Event", 11),
        ("nvmed_lane_rings", "LaneRings", 6),
        ("nvmed_standing", "Standing", 4),
    ];
    for (c, rust, count) in structs {
        let wanted = between(HEADER, &format!("typedef struct {c} {{\n"), "\n}").unwrap();
        let own = between(SYS, &format!("pub(crate) struct {rust} {{\n"), "\n}").unwrap();
        assert_eq!(of_ours(own), of_c(wanted), "{c}");
        assert_eq!(of_ours(own).len(), count, "{c}");
    }
}

/// The number that the header gives a name in an enum or a macro.
fn number(name: &str) -> Option<u64> {
    let line = HEADER.lines().find(|line| {
        let mut words = line
            .trim()
            .trim_start_matches("#define ")
            .split([' ', '='])
            .map(str::trim);
        words.next() == Some(name)
    })?;
    let rest = line.split_once(name)?.1.trim_start_matches([' ', '=']);
    rest.split(|c: char| !c.is_ascii_digit()).next()?.parse().ok()
}

#[test]
fn each_status_of_the_header_is_an_error_or_ruled_out() {
    let statuses = between(HEADER, "typedef enum nvmed_status {", "}").unwrap();
    let named: Vec<&str> = statuses
        .lines()
        .filter_map(|line| line.trim().strip_prefix("NVMED_")?.split(' ').next())
        .collect();
    assert!(named.len() >= 22);
    for name in named {
        let value = number(&format!("NVMED_{name}")).unwrap();
        let ours = format!("pub(crate) const {name}: u32 = {value};");
        let ruled_out = ["NO_MEDIATOR", "IN_USE", "NULL"].contains(&name);
        assert_ne!(ERRORS.contains(&ours), ruled_out, "{name} = {value}");
    }
}

#[test]
fn numbers_are_those_of_the_header() {
    assert!(HEADER.contains(&format!("NVMED_VECTORS = {} ", nvmed::VECTORS)));
    let area = nvmed::AREA_BYTES_PER_LANE.to_string();
    assert!(HEADER
        .replace(',', "")
        .contains(&format!("it has {area} bytes for each lane")));
    let (major, minor) = (
        number("NVMED_VERSION_MAJOR").unwrap(),
        number("NVMED_VERSION_MINOR").unwrap(),
    );
    let wanted = nvmed::Version::WANTED;
    assert_eq!((u64::from(wanted.major), u64::from(wanted.minor)), (major, minor));
}

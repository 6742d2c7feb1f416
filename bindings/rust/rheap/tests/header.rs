//! Compares the declarations of the crate with the header of the library: each call by its name and
//! the types and names of what it takes, each struct by its fields, each constant by its number.

use std::collections::BTreeSet;
use std::fs;
use std::path::Path;

const RUST: &str = include_str!("../src/raw.rs");

/// The header: the one that `RHEAP_HEADER` names, or that of the repository or the installation that
/// the crate is in.
fn header() -> String {
    let path = match std::env::var_os("RHEAP_HEADER") {
        Some(path) => path.into(),
        None => Path::new(env!("CARGO_MANIFEST_DIR")).join("../../../include/rheap.h"),
    };
    fs::read_to_string(&path)
        .unwrap_or_else(|e| panic!("{}: {e}: set RHEAP_HEADER to the header", path.display()))
}

/// The text without comments, with single blanks.
fn plain(text: &str) -> String {
    let mut kept = String::new();
    let mut rest = text;
    while let Some(at) = rest.find("/*") {
        kept.push_str(&rest[..at]);
        let end = rest[at..].find("*/").expect("a comment ends");
        rest = &rest[at + end + 2..];
    }
    kept.push_str(rest);
    let lines = kept
        .lines()
        .map(|line| line.split("//").next().unwrap_or_default());
    lines
        .flat_map(str::split_whitespace)
        .collect::<Vec<_>>()
        .join(" ")
}

/// What stands between the two, each time that both are there.
fn between<'t>(text: &'t str, begin: &str, end: &str) -> Vec<&'t str> {
    let pieces = text.split(begin).skip(1);
    pieces
        .filter_map(|piece| piece.split_once(end).map(|(inside, _)| inside))
        .collect()
}

/// A type of C as Rust writes it.
fn rust_type(c: &str) -> String {
    let c = c.trim();
    if let Some(inside) = c.strip_suffix('*') {
        let inside = inside.trim();
        return match inside.strip_prefix("const ") {
            Some(inside) => format!("*const {}", rust_type(inside)),
            None => format!("*mut {}", rust_type(inside)),
        };
    }
    match c {
        "void" => "c_void".into(),
        "uint8_t" => "u8".into(),
        "uint32_t" => "u32".into(),
        "uint64_t" => "u64".into(),
        "int64_t" => "i64".into(),
        "size_t" => "usize".into(),
        name if name.starts_with("rheap") => camel(name),
        other => panic!("the header has a type that the test doesn't know: {other}"),
    }
}

/// `rheap_root_id` as `RheapRootId`.
fn camel(name: &str) -> String {
    let words = name.split('_').map(|word| {
        let (first, rest) = word.split_at(1);
        first.to_uppercase() + rest
    });
    words.collect()
}

/// `uint32_t owner` as `owner: u32`.
fn declared(c: &str) -> String {
    let c = c.trim();
    let at = c.rfind([' ', '*']).expect("a type and a name") + 1;
    format!("{}: {}", &c[at..], rust_type(&c[..at]))
}

/// The items of the header, each as Rust writes it.
fn of_header(text: &str) -> BTreeSet<String> {
    let mut items = BTreeSet::new();
    // Defined lines come first, since they end with the line.
    for line in text.lines() {
        let mut words = line.split_whitespace();
        if words.next() != Some("#define") {
            continue;
        }
        let (Some(name), value) = (words.next(), words.collect::<String>()) else {
            continue;
        };
        if let Some(name) = name.strip_prefix("RHEAP_M") {
            let value = value
                .trim_start_matches("INT64_C(")
                .trim_end_matches([')', 'u']);
            items.insert(format!("const M{name} = {}", value.trim_start_matches('(')));
        }
    }
    let text = plain(text);
    for constants in between(&text, "enum {", "}") {
        for constant in constants
            .split(',')
            .filter(|constant| !constant.trim().is_empty())
        {
            let constant = constant.trim().strip_prefix("RHEAP_").expect("a prefix");
            items.insert(format!("const {constant}"));
        }
    }
    for named in between(&text, "typedef struct ", "} ") {
        let (name, fields) = named.split_once(" {").expect("a struct has fields");
        // The scope is of the header alone: no call takes it.
        if name == "rheap_scope" {
            continue;
        }
        let fields = fields.split(';').filter(|field| !field.trim().is_empty());
        let fields: Vec<_> = fields.map(declared).collect();
        items.insert(format!(
            "struct {} {{ {} }}",
            camel(name),
            fields.join(", ")
        ));
    }
    // A call ends with a semicolon; what is written out in the header has a body.
    let calls = text
        .match_indices("uint8_t rheap_")
        .map(|(at, _)| &text[at + 8..]);
    for call in calls {
        let (name, rest) = call.split_once('(').expect("a call takes something");
        let (takes, after) = rest.split_once(')').expect("a list ends");
        if after.starts_with(';') && name.chars().all(|c| c.is_ascii_lowercase() || c == '_') {
            let takes: Vec<_> = takes.split(',').map(declared).collect();
            items.insert(format!("fn {name}({}) -> u8", takes.join(", ")));
        }
    }
    items
}

/// The items of the crate, in the same form.
fn of_rust(text: &str) -> BTreeSet<String> {
    let mut items = BTreeSet::new();
    let text = plain(text);
    for constant in between(&text, "pub const ", ";") {
        let (name, value) = constant.split_once(": ").expect("a constant has a type");
        let (_, value) = value.split_once(" = ").expect("a constant has a value");
        let value = value.replace('_', "");
        let value = match value.strip_prefix("-MAXINT") {
            Some(rest) => format!("-RHEAP_MAX_INT{}", rest.replace(' ', "")),
            None => value,
        };
        items.insert(format!("const {name} = {value}"));
    }
    for named in between(&text, "pub struct ", "}") {
        let (name, fields) = named.split_once(" {").expect("a struct has fields");
        let fields = fields
            .split(',')
            .map(|field| field.trim().trim_start_matches("pub "));
        let fields: Vec<_> = fields.filter(|field| !field.is_empty()).collect();
        items.insert(format!("struct {name} {{ {} }}", fields.join(", ")));
    }
    for call in between(&text, "pub fn ", ";") {
        let (name, rest) = call.split_once('(').expect("a call takes something");
        let (takes, result) = rest.split_once(')').expect("a list ends");
        let takes: Vec<_> = takes
            .split(',')
            .map(str::trim)
            .filter(|one| !one.is_empty())
            .collect();
        items.insert(format!("fn {name}({}){result}", takes.join(", ")));
    }
    items
}

#[test]
fn the_declarations_are_those_of_the_header() {
    let header = of_header(&header());
    let rust = of_rust(RUST);
    let of = |items: &BTreeSet<String>, kind: &str| {
        items.iter().filter(|item| item.starts_with(kind)).count()
    };
    // What was looked for was found.
    assert!(of(&header, "fn ") >= 32, "{header:#?}");
    assert!(of(&header, "struct ") >= 7, "{header:#?}");
    assert!(of(&header, "const ") >= 27, "{header:#?}");
    let missing: Vec<_> = header.difference(&rust).collect();
    let added: Vec<_> = rust.difference(&header).collect();
    assert!(
        missing.is_empty() && added.is_empty(),
        "only in the header: {missing:#?}\nonly in the crate: {added:#?}"
    );
}

#[test]
fn a_difference_is_found() {
    let header = header();
    let items = of_header(&header);
    for (from, to) in [
        (
            "uint32_t live, uint32_t biggest",
            "uint32_t biggest, uint32_t live",
        ),
        ("RHEAP_NOT_YOURS = 2", "RHEAP_NOT_YOURS = 12"),
        ("RHEAP_MAX_FIELDS 4095u", "RHEAP_MAX_FIELDS 4094u"),
        ("uint32_t shaded;", "uint64_t shaded;"),
        ("uint8_t *same)", "uint8_t *same, uint8_t *more)"),
        ("RHEAP_RUN_NO_ROOM = 5", "RHEAP_RUN_NO_ROOM = 4"),
        (
            "size_t trace_length, uint32_t mark",
            "uint32_t mark, size_t trace_length",
        ),
    ] {
        assert!(header.contains(from), "the header has no longer: {from}");
        assert_ne!(of_header(&header.replace(from, to)), items, "{from}");
    }
}

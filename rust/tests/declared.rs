//! The functions that this crate declares are those of include/fanring.h, parameter by parameter, and it lends as many
//! words for an answer. tests/header of the repository holds that file to crates `c_checked` and `c_inner`.

use std::collections::BTreeMap;
use std::fs;
use std::path::Path;

fn read(path: &str) -> String {
    let path = Path::new(env!("CARGO_MANIFEST_DIR")).join(path);
    fs::read_to_string(&path).unwrap_or_else(|error| panic!("{}: {error}", path.display()))
}

/// With one space wherever there is space.
fn on_one_line(text: &str) -> String {
    text.split_whitespace().collect::<Vec<_>>().join(" ")
}

/// Function to parameters, of all that stands as `NAME(PARAMETERS` before such an end.
fn functions(text: &str, end: &str) -> BTreeMap<String, Vec<String>> {
    on_one_line(text)
        .split(end)
        .filter_map(|piece| piece.rsplit_once('('))
        .filter_map(|(before, parameters)| Some((before.split_whitespace().last()?, parameters)))
        .filter(|(name, _)| name.starts_with("fanring_"))
        .map(|(name, parameters)| (name.to_string(), items(parameters)))
        .collect()
}

fn items(parameters: &str) -> Vec<String> {
    parameters.split(',').map(on_one_line).filter(|item| !item.is_empty()).collect()
}

/// A parameter of C as Rust has it.
fn in_rust(parameter: &str) -> String {
    let (kind, name) = parameter.rsplit_once(' ').expect("a type and a name");
    match (kind, name.strip_prefix('*'), name.strip_suffix("[FANRING_WORDS]")) {
        ("const uint64_t", Some(name), None) => format!("{name}: *const u64"),
        ("uint64_t", Some(name), None) => format!("{name}: *mut u64"),
        ("uint64_t", None, Some(name)) => format!("{name}: *mut Words"),
        ("uint64_t", None, None) => format!("{name}: u64"),
        ("size_t", None, None) => format!("{name}: usize"),
        _ => panic!("no such parameter: {parameter}"),
    }
}

#[test]
fn as_in_the_header() {
    let header = functions(&read("../include/fanring.h"), ");");
    let mut declared = functions(&read("src/calls/library.rs"), ") -> u64;");
    declared.append(&mut functions(&read("src/calls/tests.rs"), ") -> u64;"));
    assert_eq!(declared.len(), 18);
    for (name, parameters) in declared {
        let expected: Vec<String> = header[&name].iter().map(|parameter| in_rust(parameter)).collect();
        assert_eq!(parameters, expected, "of {name}");
    }
}

#[test]
fn as_many_words() {
    let lent = |path: &str, before: &str, after: &str| {
        let text = read(path);
        let (_, rest) = text.split_once(before).expect("the number is there");
        rest.split_once(after).expect("it ends").0.to_string()
    };
    let header = lent("../include/fanring.h", "#define FANRING_WORDS ", "\n");
    assert_eq!(lent("src/calls/library.rs", "type Words = [u64; ", "]"), header);
}

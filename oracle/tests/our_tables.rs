//! The constant tables of our definitions and of our code, read from their sources, are the Rust's.

use oracle::door::tables;
use std::path::Path;

fn source(path: &str) -> String {
    let root = Path::new(env!("CARGO_MANIFEST_DIR")).join("..");
    std::fs::read_to_string(root.join(path)).unwrap_or_else(|e| panic!("{path}: {e}"))
}

/// The text of a definition: from `start` to `end`, comments left out.
fn part<'a>(text: &'a str, start: &str, end: &str) -> &'a str {
    let from = text.find(start).unwrap_or_else(|| panic!("no {start:?}")) + start.len();
    let upto = text[from..]
        .find(end)
        .unwrap_or_else(|| panic!("no {end:?}"));
    &text[from..from + upto]
}

/// The signed numbers of a definition: `pos n` is n, `negsuc n` is -(n + 1).
fn signed(text: &str) -> Vec<i32> {
    let words: Vec<&str> = text.split(|c: char| !c.is_alphanumeric()).collect();
    let number = |w: &[&str]| w[1].parse::<i32>().ok();
    words
        .windows(2)
        .filter_map(|w| match w[0] {
            "pos" => number(w),
            "negsuc" => number(w).map(|n| -(n + 1)),
            _ => None,
        })
        .collect()
}

/// The numbers of a list of a definition, or of a constant of the code.
fn plain(text: &str) -> Vec<i32> {
    text.split(|c: char| !(c.is_ascii_digit() || c == '-'))
        .filter_map(|w| w.parse().ok())
        .collect()
}

/// A constant of the code: what stands between its `=` and its `;`.
fn constant(path: &str, name: &str) -> Vec<i32> {
    let text = source(path);
    let from = &text[text.find(&format!("const {name}:")).expect(name)..];
    plain(part(from, "= [", ";"))
}

#[test]
fn block_sizes() {
    let specs = source("crates/clamping/specs/Sizes.antt");
    assert_eq!(
        signed(part(&specs, "highs =", "abbrev")),
        tables::block_heights()
    );
    assert_eq!(
        signed(part(&specs, "wides =", "-- rows")),
        tables::block_widths()
    );
    assert_eq!(
        constant("crates/clamping/src/partition.rt", "HIGH"),
        tables::block_heights()
    );
    assert_eq!(
        constant("crates/clamping/src/partition.rt", "WIDE"),
        tables::block_widths()
    );
}

#[test]
fn search_places() {
    let specs = source("crates/places/specs/Places.antt");
    assert_eq!(
        signed(part(&specs, "places =", "-- row (part 0)")),
        tables::place_offsets()
    );
}

#[test]
fn mode_counters_and_contexts() {
    let specs = source("crates/places/specs/Places.antt");
    assert_eq!(
        plain(part(&specs, "counters =", "--")),
        tables::mode_counters()
    );
    assert_eq!(
        plain(part(&specs, "contexts =", "--")),
        tables::counter_contexts()
    );
    assert_eq!(
        plain(&specs[specs.find("columns =").unwrap()..]),
        tables::sub_block_columns()
    );
}

#[test]
fn taps() {
    let specs = source("crates/taps/specs/Taps.antt");
    assert_eq!(
        signed(part(&specs, "regular =", "unfoldable pub filters")),
        tables::taps()
    );
    assert_eq!(
        constant("crates/taps/src/taps.rt", "SUBPEL_FILTERS"),
        tables::taps()
    );
}

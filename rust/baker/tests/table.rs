//! The table of refusals, the sizes and the version are the same in `include/baker.h`, in
//! `docs/RULES.md` and here.

use baker::Refusal;
use std::collections::BTreeMap;

fn read(path: &str) -> String {
    let path = format!("{}/../../{path}", env!("CARGO_MANIFEST_DIR"));
    std::fs::read_to_string(&path).unwrap_or_else(|error| panic!("{path}: {error}"))
}

/// A refusal's text as the documents have it.
fn in_documents(refusal: Refusal) -> String {
    refusal.text().replace("{axis}", "x or y").replace("{a}", "a").replace("{b}", "b")
}

/// `NotANumber` as `NOT_A_NUMBER`.
fn shouted(refusal: Refusal) -> String {
    let mut name = String::new();
    for c in format!("{refusal:?}").chars() {
        if c.is_uppercase() && !name.is_empty() {
            name.push('_');
        }
        name.push(c.to_ascii_uppercase());
    }
    name
}

#[test]
fn the_header_has_the_table() {
    let header = read("include/baker.h");
    let lines: Vec<&str> = header.lines().filter(|line| line.starts_with("#define BAKER_REFUSAL_")).collect();
    let due: Vec<String> = Refusal::ALL
        .iter()
        .map(|&r| format!("#define BAKER_REFUSAL_{} {} /* {} */", shouted(r), r.number(), in_documents(r)))
        .collect();
    assert_eq!(lines, due);
}

#[test]
fn the_rules_have_the_table() {
    let rules = read("docs/RULES.md");
    // number, name and text, without the places
    let rows: Vec<[&str; 3]> = rules
        .lines()
        .skip_while(|line| !line.starts_with("| No. | name | text |"))
        .skip(2)
        .map_while(|line| {
            let mut cells = line.split('|').map(str::trim).skip(1);
            Some([cells.next()?, cells.next()?, cells.next()?])
        })
        .collect();
    let due: Vec<[String; 3]> =
        Refusal::ALL.iter().map(|&r| [r.number().to_string(), format!("`{r:?}`"), in_documents(r)]).collect();
    assert_eq!(rows, due);
}

/// The numbers that the header names, refusals apart.
fn named() -> BTreeMap<String, u64> {
    let header = read("include/baker.h");
    let mut named = BTreeMap::new();
    for line in header.lines() {
        let Some(rest) = line.strip_prefix("#define BAKER_") else { continue };
        let mut words = rest.split_whitespace();
        let (Some(name), Some(number)) = (words.next(), words.next()) else { continue };
        if let (false, Ok(number)) = (name.starts_with("REFUSAL_"), number.parse()) {
            named.insert(name.to_string(), number);
        }
    }
    named
}

#[test]
fn the_header_has_the_sizes_and_the_version() {
    let [major, minor, patch] =
        [env!("CARGO_PKG_VERSION_MAJOR"), env!("CARGO_PKG_VERSION_MINOR"), env!("CARGO_PKG_VERSION_PATCH")]
            .map(|part| part.parse::<u64>().unwrap());
    let due = [
        ("VERSION", 10_000 * major + 100 * minor + patch),
        ("OUTSIDE", 0),
        ("INSIDE", 1),
        ("ON", 2),
        ("END", 0),
        ("TAKEN_GRID", 0),
        ("TAKEN_OFF_GRID", 1),
        ("TAKEN_NOT_A_NUMBER", 2),
        ("TAKEN_OUT_OF_REACH", 3),
        ("BLOCK_SIZE", baker::BLOCK_SIZE as u64),
        ("MOST_PIECES", baker::MOST_PIECES as u64),
        ("MOST_SLOTS", baker::MOST_SLOTS as u64),
        ("LONGEST_FILE", baker::LONGEST_FILE as u64),
        ("LEAST_CORNERS", baker::LEAST_CORNERS as u64),
        ("MOST_CORNERS", baker::MOST_CORNERS as u64),
        ("RUN_NUMBERS", baker::RUN_NUMBERS as u64),
        ("PIECE_NUMBERS", baker::PIECE_NUMBERS as u64),
        ("CORNER_NUMBERS", baker::CORNER_NUMBERS as u64),
        ("MOST_REACH", baker::MOST_REACH as u64),
        ("MOST_SPEED", baker::MOST_SPEED as u64),
        ("MOST_TICKS", u64::from(baker::MOST_TICKS)),
        ("TICK_MARKS", u64::from(baker::TICK_MARKS)),
        ("EXPORT_UNIT", baker::EXPORT_UNIT as u64),
    ];
    assert_eq!(named(), due.map(|(name, number)| (name.to_string(), number)).into());
}

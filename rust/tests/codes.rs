//! The one table of codes is `Refusal`; every other place that names a code is held to it here.
#![cfg(fulcrumnest_lib)]

use std::collections::BTreeSet;

use fulcrumnest::Refusal;

const HEADER: &str = include_str!("../../include/slp.h");

/// Codes and their words.
type Codes = Vec<(u16, String)>;

/// The table, by rising code.
fn table() -> Codes {
    let row = |refusal: &Refusal| (refusal.code(), refusal.word().to_string());
    Refusal::ALL.iter().map(row).collect()
}

/// The same behind code 0, which is no refusal.
fn with_done() -> Codes {
    [vec![(0, "DONE".to_string())], table()].concat()
}

/// The part of a text between two marks.
fn between<'a>(text: &'a str, from: &str, to: &str) -> &'a str {
    let (_, behind) = text.split_once(from).expect(from);
    behind.split_once(to).expect(to).0
}

/// The texts in quotes.
fn quoted(text: &str) -> Vec<&str> {
    text.split('"').skip(1).step_by(2).collect()
}

/// Words in order, the first with code 0.
fn counted(words: Vec<&str>) -> Codes {
    let words = words.into_iter().map(|word| word.trim().to_string());
    (0..).zip(words).collect()
}

/// A code and its word, of a word and then the code with a mark between.
fn pair(text: &str, mark: &str) -> (u16, String) {
    let (word, code) = text.split_once(mark).expect(text);
    (number(code), word.trim().to_string())
}

fn number(text: &str) -> u16 {
    text.trim().parse().expect(text)
}

fn capital(word: &str) -> bool {
    word.bytes().all(|letter| letter.is_ascii_uppercase())
}

/// The word of a variant in the proved code, where the one of code 11 is named WireList.
fn capitals((code, variant): (u16, String)) -> (u16, String) {
    let name = variant.strip_prefix("Wire").unwrap_or(&variant);
    (code, name.to_uppercase())
}

/// Codes go from 1 on without a gap, and a word is its variant's name.
#[test]
fn rows() {
    for (code, refusal) in (1..).zip(Refusal::ALL) {
        assert_eq!(refusal.code(), code);
        assert_eq!(refusal.word(), format!("{refusal:?}").to_uppercase());
    }
}

#[test]
fn header() {
    let mut wanted = vec![(0, "DONE".to_string(), "done".to_string())];
    for refusal in Refusal::ALL {
        // The header says besides which calls give it.
        let calls = match refusal {
            Refusal::Torn => "any other call that has a pool: ",
            _ => "",
        };
        let meaning = format!("{calls}{}", refusal.meaning());
        wanted.push((refusal.code(), refusal.word().to_string(), meaning));
    }
    let mut said = Vec::new();
    for line in between(HEADER, "enum slp_code {\n", "\n};").lines() {
        let (row, text) = line.split_once("/*").expect(line);
        let row = row.trim().trim_end_matches(',');
        let (code, word) = pair(row.strip_prefix("SLP_").expect(row), " = ");
        let text = text.strip_suffix("*/").expect(text);
        said.push((code, word, text.trim().to_string()));
    }
    assert_eq!(said, wanted);
}

/// A code in the header's comments stands before its own word, and each is named there.
#[test]
fn header_calls() {
    let words = HEADER.split(|letter: char| !letter.is_ascii_alphanumeric());
    let words: Vec<&str> = words.filter(|word| !word.is_empty()).collect();
    let mut said = BTreeSet::new();
    for two in words.windows(2) {
        let code = two[0].bytes().all(|letter| letter.is_ascii_digit());
        if code && capital(two[1]) && two[1] != "SLP" {
            said.insert((number(two[0]), two[1].to_string()));
        }
    }
    assert_eq!(Vec::from_iter(said), table());
}

/// What the walk-through writes behind a code, and the definition of that text.
#[test]
fn reply() {
    let source = include_str!("../../crates/reply/src/lib.rt");
    let arms = between(source, "match code {\n", "_ => b\"\",")
        .trim()
        .lines();
    let arm = |line: &str| {
        let (code, call) = line.split_once(" => ").expect(line);
        let word = call.strip_prefix("b\" ");
        let word = word.and_then(|word| word.strip_suffix("\","));
        (number(code), word.expect(line).to_string())
    };
    assert_eq!(arms.map(arm).collect::<Codes>(), table());

    let specs = include_str!("../../crates/reply/specs/Text.antt");
    let names = counted(quoted(between(specs, "\nnames = ", "[]")));
    assert_eq!(names[0].1, "");
    assert_eq!(names[1..], table());
}

/// The codes of the refusals in the proved code, and in the definition behind it.
#[test]
fn kinds() {
    let source = include_str!("../../crates/kinds/src/lib.rt");
    // A variant without a number of its own has the one behind that of the variant before it.
    let mut last = 0;
    let variants = between(source, "pub enum Refusal {\n", "\n}").lines();
    let row = |line: &str| {
        let line = line.trim().trim_end_matches(',');
        let (variant, code) = line.split_once(" = ").unwrap_or((line, ""));
        last = code.parse().unwrap_or(last + 1);
        capitals((last, variant.to_string()))
    };
    assert_eq!(variants.map(row).collect::<Codes>(), table());

    let specs = include_str!("../../crates/kinds/specs/Refusal.antt");
    let rows = specs.lines().filter(|line| line.contains(" = "));
    let rows = rows.map(|line| line.strip_prefix("refusal_code ").expect(line));
    let said: Codes = rows.map(|row| capitals(pair(row, " = "))).collect();
    assert_eq!(said, table());
}

/// The last column of the table of calls names each code, and no other.
#[test]
fn readme() {
    let readme = include_str!("../../README.md");
    let calls = between(readme, "| It refuses with |\n|---|---|---|\n", "\n\n");
    let mut said = BTreeSet::new();
    for line in calls.lines() {
        let (_, codes) = line.trim_end_matches(" |").rsplit_once(" | ").expect(line);
        // A code stands first, or behind a comma; a text may follow it, with commas of its own.
        let first = codes.split(", ").map(|code| code.split(' ').next());
        said.extend(first.flatten().filter_map(|word| word.parse::<u16>().ok()));
    }
    let codes = table().into_iter().map(|(code, _)| code);
    assert!(said.into_iter().eq(codes));
}

/// The words of the example in C, what the tests in C expect, and the model's own constants.
#[test]
fn examples_and_tests() {
    let relay = include_str!("../../examples/relay.c");
    let words = quoted(between(relay, "word[] = {", "};"));
    assert_eq!(counted(words), with_done());

    let rows = include_str!("../../tests/c/rows.c");
    let codes = rows
        .split("SLP_")
        .filter_map(|text| text.split_once(" == "));
    let codes = codes.filter(|(word, _)| capital(word));
    let code = |text: &str| number(text.split([' ', ',']).next().unwrap_or(text));
    let said: Codes = codes
        .map(|(word, text)| (code(text), word.to_string()))
        .collect();
    assert_eq!(said, with_done());

    let model = include_str!("common/model.rs");
    let start = model.find("pub const DONE: u16").expect("DONE");
    let lines = model[start..]
        .lines()
        .map(|line| line.strip_prefix("pub const "));
    let lines = lines.map_while(|line| line?.strip_suffix(';'));
    let said: Codes = lines.map(|line| pair(line, ": u16 = ")).collect();
    assert_eq!(said, with_done());
}

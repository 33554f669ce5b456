//! The documents cite what is there: every definition and statement that docs/PROMISES.md names is declared in the file that it names, every
//! idea of a must-fail edit in its crate, and every path of the documents in the repository.

use std::fs;
use std::path::{Path, PathBuf};

fn root() -> PathBuf {
    Path::new(env!("CARGO_MANIFEST_DIR")).join("..")
}

fn read(path: &str) -> String {
    fs::read_to_string(root().join(path)).unwrap_or_default()
}

/// What stands between backquotes in a text.
fn quoted(text: &str) -> impl Iterator<Item = &str> {
    text.lines()
        .flat_map(|line| line.split('`').skip(1).step_by(2))
}

/// The text of the files that a citation's place leads to: `crate src`, `crate File`, or `File` of the rules.
fn text_at(place: &str) -> String {
    let (owner, file) = place.split_once(' ').unwrap_or(("rules", place));
    if file == "src" {
        return read(&format!("crates/{owner}/src/lib.rt"));
    }
    ["specs", "proofs"]
        .map(|folder| read(&format!("crates/{owner}/{folder}/{file}.antt")))
        .concat()
}

/// Whether a line declares a name: after words of declaration it has the name and then, unless one of them tells a kind, its type.
fn declares(line: &str, name: &str) -> bool {
    const PLAIN: [&str; 5] = ["pub ", "abbrev ", "unfoldable ", "extern \"C\" ", "final "];
    const TELLING: [&str; 9] = [
        "record ", "data ", "ruleset ", "fn ", "struct ", "enum ", "const ", "type ", "impl ",
    ];
    let (mut rest, mut told) = (line.trim_start(), false);
    loop {
        let after = |words: &[&str]| words.iter().find_map(|word| rest.strip_prefix(word));
        match (after(&PLAIN), after(&TELLING)) {
            (Some(next), _) => rest = next,
            (None, Some(next)) => (rest, told) = (next, true),
            (None, None) => break,
        }
    }
    let inside = |c: char| c.is_alphanumeric() || c == '-' || c == '_' || c == '\'';
    rest.strip_prefix(name).is_some_and(|after| {
        !after.starts_with(inside) && (told || after.trim_start().starts_with(": "))
    })
}

/// Whether a text declares a name: a definition, a law or one of a record's fields in a file of definitions or proofs, an item of code.
fn declared_in(text: &str, name: &str) -> bool {
    text.lines().any(|line| declares(line, name))
}

/// The promises from their first table on, without the page's own explanations.
fn promises() -> String {
    let text = read("docs/PROMISES.md");
    let start = text.find("\n## ").expect("the page has headings");
    text[start..].to_string()
}

/// The ideas of all must-fail edits, each as `crate/idea`.
fn ideas() -> Vec<String> {
    let crates = fs::read_dir(root().join("crates")).expect("the crates stand beside rust/");
    let of_crate = |folder: fs::DirEntry| {
        let owner = folder.file_name().to_str().unwrap_or_default().to_string();
        let edits = fs::read_dir(folder.path().join("must-fail")).ok();
        let texts = edits.into_iter().flatten().flatten();
        let text: String = texts
            .map(|edit| fs::read_to_string(edit.path()).unwrap_or_default())
            .collect();
        let named = text.lines().filter_map(|line| line.strip_prefix("idea: "));
        named
            .map(|idea| format!("{owner}/{idea}"))
            .collect::<Vec<_>>()
    };
    crates.flatten().flat_map(of_crate).collect()
}

/// The ideas that a row of the table of calls cites, each as `crate/idea`: its second cell is `crate: ideas; crate: ideas`.
fn cited_by_call(row: &str) -> Vec<String> {
    let cell = row.split('|').nth(2).unwrap_or_default();
    let of_crate = |part: &'_ str| {
        let (owner, ideas) = part.split_once(": ").unwrap_or(("", part));
        let owner = owner.trim().to_string();
        quoted(ideas)
            .map(|idea| format!("{owner}/{idea}"))
            .collect::<Vec<_>>()
    };
    cell.split(';').flat_map(of_crate).collect()
}

/// The rows of the table of calls, in the order of the page.
fn rows_by_call(promises: &str) -> impl Iterator<Item = &str> {
    promises
        .lines()
        .filter(|line| line.starts_with("| `slp_") && line.matches('|').count() == 3)
}

#[test]
fn a_mention_is_no_declaration() {
    for line in [
        "pub step : Call → Lent → Result",
        "  pub code : ℕ",
        "unfoldable pub step : Call → Lent → Result",
        "pub fn step(pool: &[u8]) -> u16",
        "pub record step (c : Call) : Type 0 where",
        "    pub const step: u16 = 64;",
    ] {
        let name = if line.contains("code") {
            "code"
        } else {
            "step"
        };
        assert!(declares(line, name), "{line}");
    }
    for line in [
        "-- step : what a call does",
        "use Rattle.rules.specs.Step.{step}",
        "step (Do o) m = if sound m then perform o m else refused",
        "    step(pool, shape);",
        "pub steps : List Call → Lent",
        "pub step-keeps : Call → Lent",
    ] {
        assert!(!declares(line, "step"), "{line}");
    }
}

#[test]
fn names_are_declared_in_the_files_that_are_cited() {
    let promises = promises();
    let mut checked = 0;
    for cited in quoted(&promises) {
        let Some((place, names)) = cited.split_once(": ") else {
            continue;
        };
        let text = text_at(place);
        assert!(!text.is_empty(), "no file for `{cited}`");
        for name in names.split([',', '(', ')']).map(str::trim) {
            if !name.is_empty() {
                assert!(declared_in(&text, name), "{place} declares no {name}");
                checked += 1;
            }
        }
    }
    assert!(checked > 500, "only {checked} names were found to check");
}

#[test]
fn ideas_stand_in_the_edits_of_their_crates() {
    let (promises, ideas) = (promises(), ideas());
    let crates = read("crates.txt");
    let of_crate = |cited: &&str| {
        let owner = cited.split_once('/').map(|(owner, _)| owner);
        let named = |line: &str| line.split([' ', ':']).next() == owner;
        owner.is_some() && crates.lines().any(named)
    };
    let in_tables = quoted(&promises).filter(of_crate).map(str::to_string);
    let by_call = rows_by_call(&promises).flat_map(cited_by_call);
    let cited: Vec<String> = in_tables.chain(by_call).collect();
    for idea in &cited {
        assert!(ideas.contains(idea), "no idea {idea}");
    }
    assert!(
        cited.len() > 80,
        "only {} ideas were found to check",
        cited.len()
    );
}

/// The names of the functions that the C header declares.
fn declared() -> Vec<String> {
    let header = read("include/slp.h");
    let call = |line: &str| {
        let (before, _) = line.split_once('(')?;
        let (answer, name) = before.split_once(' ')?;
        let both = answer.starts_with("slp_") && name.starts_with("slp_");
        both.then(|| name.to_string())
    };
    header.lines().filter_map(call).collect()
}

#[test]
fn every_call_has_two_ideas() {
    let (promises, mut declared) = (promises(), declared());
    let mut named: Vec<&str> = rows_by_call(&promises)
        .filter_map(|row| quoted(row).next())
        .collect();
    declared.sort_unstable();
    named.sort_unstable();
    assert_eq!(named, declared);
    for row in rows_by_call(&promises) {
        assert!(cited_by_call(row).len() > 1, "{row}");
    }
}

/// Where a document's path leads: those below `specs/` and `proofs/` may leave out `crates/`.
fn path_of(cited: &str) -> Option<PathBuf> {
    let (top, rest) = cited.split_once('/')?;
    let listed = [
        "crates", "rust", "docs", "tools", "tests", "include", "examples",
    ];
    let pattern = cited.contains(['*', ' ']) || cited.contains("NAME") || cited.contains("File");
    if pattern {
        None
    } else if listed.contains(&top) {
        Some(root().join(cited))
    } else if rest.starts_with("specs/") || rest.starts_with("proofs/") {
        Some(root().join("crates").join(cited))
    } else {
        None
    }
}

#[test]
fn paths_lead_somewhere() {
    let docs = ["ARCHITECTURE", "DECISIONS", "PERFORMANCE", "PROMISES"];
    let pages = docs.map(|page| format!("docs/{page}.md"));
    let mut checked = 0;
    for page in pages.iter().map(String::as_str).chain(["README.md"]) {
        let text = read(page);
        assert!(!text.is_empty(), "no page {page}");
        for path in quoted(&text).filter_map(path_of) {
            assert!(path.exists(), "{page}: no {}", path.display());
            checked += 1;
        }
    }
    assert!(checked > 30, "only {checked} paths were found to check");
}

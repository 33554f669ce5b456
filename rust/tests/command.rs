//! The command `slp`: what it prints, where and what it says of bad input, and its exit status.
#![cfg(fulcrumnest_lib)]

mod common;

use std::fs::{self, Permissions};
use std::io::Write;
use std::os::unix::fs::{chown, symlink, FileTypeExt, MetadataExt, PermissionsExt};
use std::path::{Path, PathBuf};
use std::process::{Command, Stdio};

use common::desk::data;
use common::xml::{self, Element};
use fulcrumnest::{pool_length, storage_length, Pool, Refusal, Shape};

/// What a run of the command left.
struct Left {
    out: String,
    err: String,
    status: i32,
}

/// Runs the command in the package's directory with this standard input.
fn slp(arguments: &[&str], input: &[u8]) -> Left {
    slp_in(Path::new(env!("CARGO_MANIFEST_DIR")), arguments, input)
}

/// The same in any directory.
fn slp_in(place: &Path, arguments: &[&str], input: &[u8]) -> Left {
    let mut child = Command::new(env!("CARGO_BIN_EXE_slp"))
        .args(arguments)
        .current_dir(place)
        .stdin(Stdio::piped())
        .stdout(Stdio::piped())
        .stderr(Stdio::piped())
        .spawn()
        .expect("the command starts");
    // A command that stops early has closed its input, and that is no failure of this test.
    let _ = child.stdin.take().expect("piped").write_all(input);
    let left = child.wait_with_output().expect("the command ends");
    Left {
        out: String::from_utf8(left.stdout).expect("text"),
        err: String::from_utf8(left.stderr).expect("text"),
        status: left.status.code().expect("an exit status"),
    }
}

/// Runs calls from standard input, all of which are answered.
fn answers(calls: &str) -> String {
    let left = slp(&["run", "-"], calls.as_bytes());
    assert_eq!((left.err.as_str(), left.status), ("", 0), "{calls}");
    left.out
}

/// An empty directory of this test's own.
fn directory(name: &str) -> PathBuf {
    let place = PathBuf::from(env!("CARGO_TARGET_TMPDIR")).join(name);
    let _ = fs::remove_dir_all(&place);
    fs::create_dir_all(&place).expect("a directory");
    place
}

fn named(place: &Path, file: &str) -> String {
    let path = place.join(file);
    path.to_str().expect("a path in UTF-8").to_string()
}

const MORNING: &str = include_str!("morning.out");

#[test]
fn morning() {
    for arguments in [
        ["run", "tests/morning.slp", "--draw"],
        ["run", "--draw", "tests/morning.slp"],
    ] {
        let left = slp(&arguments, b"");
        assert_eq!(left.out, MORNING);
        assert_eq!((left.err.as_str(), left.status), ("", 0));
    }
}

/// What the proved walk-through prints.
const WALKED: &str = include_str!("../../crates/walkthrough/stdout");

/// Rows without the spaces that align what stands behind a slip.
fn unaligned(rows: &str) -> String {
    let line = |line: &str| match line.strip_prefix("  slip ") {
        Some(slip) => {
            let (name, holds) = slip.split_once(' ').expect("what it holds");
            format!("  slip {name} {}\n", holds.trim_start())
        }
        None => format!("{line}\n"),
    };
    rows.lines().map(line).collect()
}

/// The proved walk-through prints the same rows, drawn the same but for alignment: its first call is named open, and it shows where the morning reads.
#[test]
fn walkthrough() {
    let rows = MORNING.split_inclusive("\n\n");
    let rows: String = rows.filter(|row| !row.starts_with("read ")).collect();
    let rows = rows.replacen("pool ", "open ", 1);
    let walked = WALKED.split_inclusive("\n\n");
    let walked: String = walked.filter(|row| !row.starts_with("show ")).collect();
    assert_eq!(unaligned(&rows), unaligned(&walked));
}

/// Its shows see the bytes that the interface for Rust shows after the same calls, and where: in the scratch before the pullup, in storage after it.
#[test]
fn walkthrough_shows() {
    let mut calls = String::new();
    let mut places = Vec::new();
    for row in WALKED.split_inclusive("\n\n") {
        let (call, _) = row.split_once(" -> ").expect("an answer");
        let call = call.replace("open ", "pool ");
        calls += &format!("{call}\n");
        if !call.starts_with("show ") {
            continue;
        }
        let out = answers(&calls);
        let (_, shown) = out.rsplit_once(" in ").expect("a place");
        let mut lines = shown.lines();
        let place = lines.next().expect("a place");
        let hex = lines.flat_map(|line| line[6..53].split_whitespace());
        let bytes: Vec<u8> = hex
            .map(|byte| u8::from_str_radix(byte, 16).expect("hexadecimal"))
            .collect();
        let mut words = row.lines().nth(1).expect("the bytes").split_whitespace();
        let word = words.next().expect("a place");
        let seen: Vec<u8> = words.map(|byte| byte.parse().expect("a byte")).collect();
        assert_eq!(seen, bytes, "{call}");
        assert!(place.starts_with(word), "{place}");
        assert_eq!(seen, data(520)[500..], "{call}");
        places.push(word);
    }
    assert_eq!(places, ["scratch", "storage"]);
}

/// Without the drawings there is one line a call, and the bytes under a read.
#[test]
fn morning_without_drawings() {
    let left = slp(&["run", "tests/morning.slp"], b"");
    let answer = |line: &&str| {
        let words = ["slip", "buffers", "pieces"];
        let indented = line.strip_prefix("  ");
        let drawing = |line: &str| words.iter().any(|word| line.starts_with(word));
        !line.is_empty() && !indented.is_some_and(drawing)
    };
    let wanted: Vec<&str> = MORNING.lines().filter(answer).collect();
    let got: Vec<&str> = left.out.lines().collect();
    assert_eq!(got, wanted);
    assert_eq!(got.len(), 12 + 3);
    let read = "  32  1E 1F 20 21 22 23 24 25                          .. !\"#$%";
    assert_eq!(got[13], read);
}

/// The edges of document 01, each in a fresh pool; refusals are answers.
#[test]
fn edges() {
    let calls = "\
pool 4 6 4
put 512
put 513
pool 4 6 4
put 2048
pool 4 6 4
put 2049
pool 4 6 4
put 600
cut 0 600 0
cut 0 601 0
pool 4 6 4
put 10
pullup 0 513
append 0 0
append 1 1
pool 0 6 4
pool 4 2049 4
length 0
pool 1024 2048 256
put 524288
put 1
length 0
pool 1025 2048 256
pool 1024 2048 257
";
    let wanted = "\
pool 4 6 4 -> done
put 512 -> slip 0
put 513 -> slip 1
pool 4 6 4 -> done
put 2048 -> slip 0
pool 4 6 4 -> done
put 2049 -> 10 BUFFERS
pool 4 6 4 -> done
put 600 -> slip 0
cut 0 600 0 -> slip 1
cut 0 601 0 -> 6 RANGE
pool 4 6 4 -> done
put 10 -> slip 0
pullup 0 513 -> 5 LONG
append 0 0 -> 4 SAME
append 1 1 -> 3 SLIP
pool 0 6 4 -> 1 COUNTS
pool 4 2049 4 -> 1 COUNTS
length 0 -> 10
pool 1024 2048 256 -> done
put 524288 -> slip 0
put 1 -> 10 BUFFERS
length 0 -> 524288
pool 1025 2048 256 -> 1 COUNTS
pool 1024 2048 257 -> 1 COUNTS
";
    assert_eq!(answers(calls), wanted);
}

/// Every call once, with spaces, comments and texts as they may be written.
#[test]
fn every_call() {
    let calls = "
# a comment, and a blank line before it
  pool\t4 6 4   # behind a call
put \"pay # 7\"   # a text may have a mark
put \"\\\"\\\\\\n\\r\\t\\0\\x41\u{e9}\"
put \"\"
put 3
free 03
append 0 1
length 0
read 0 4 11
show 0 7
show 0 9
show 2 0
list 0
list 2
list 3
dup 0
cut 0 1 2
keep 0 8
drop 0 6
pullup 0 2
pack 0
read 0 0 2
audit
free 9
read 0 0 4294967295";
    let wanted = "\
pool 4 6 4 -> done
put \"pay # 7\" -> slip 0
put \"\\\"\\\\\\n\\r\\t\\0\\x41\u{e9}\" -> slip 1
put \"\" -> slip 2
put 3 -> slip 3
free 3 -> done
append 0 1 -> done
length 0 -> 16
read 0 4 11 -> 11
   0  23 20 37 22 5C 0A 0D 09 00 41 C3                 # 7\"\\....A.
show 0 7 -> 7 in storage from 0
  0  70 61 79 20 23 20 37                             pay # 7
show 0 9 -> 9 in scratch
  0  70 61 79 20 23 20 37 22 5C                       pay # 7\"\\
show 2 0 -> 0 in storage from 0
list 0 -> 2
  0 7
  512 9
list 2 -> 0
list 3 -> 3 SLIP
dup 0 -> slip 1.1
cut 0 1 2 -> slip 3.1
keep 0 8 -> done
drop 0 6 -> done
pullup 0 2 -> done
pack 0 -> done
read 0 0 2 -> 2
  0  37 22                                            7\"
audit -> done
free 9 -> 3 SLIP
read 0 0 4294967295 -> 6 RANGE
";
    assert_eq!(answers(calls), wanted);
    let windows = calls.replace('\n', "\r\n");
    assert_eq!(answers(&windows), wanted);
}

/// Slips are written and read by number and serial; once one is given up, its old name is refused.
#[test]
fn serials() {
    let wanted = "\
pool 4 6 4 -> done
put 600 -> slip 0
dup 0 -> slip 1
free 0 -> done
length 0 -> 3 SLIP
length 0.1 -> 3 SLIP
cut 1 500 50 -> slip 0.1
length 0 -> 3 SLIP
length 0.1 -> 50
append 0.1 0 -> 3 SLIP
append 0 0 -> 3 SLIP
append 0.1 0.1 -> 4 SAME
append 1 0.1 -> done
free 0.1 -> 3 SLIP
put \"again\" -> slip 0.2
free 0.1 -> 3 SLIP
free 0.2 -> done
put 10 -> slip 0.3
free 1.65535 -> 3 SLIP
length 1 -> 650
pool 4 6 4 -> done
put 10 -> slip 0
";
    let call = |line: &str| line.split_once(" -> ").expect("an answer").0.to_string() + "\n";
    let calls: String = wanted.lines().map(call).collect();
    assert_eq!(answers(&calls), wanted);
    // The same in other digits.
    let longer = calls.replace("length 1\n", "length 001.0  # in full\n");
    assert_eq!(answers(&longer), wanted);
}

/// A saved pool keeps its serials: they are drawn, and a list is asked by them. A spent slip is drawn as such.
#[test]
fn saved_serials() {
    let place = directory("saved-serials");
    let (pool, storage) = (named(&place, "pool"), named(&place, "storage"));
    let calls = b"pool 4 6 4\nput 600\ndup 0\nfree 0\ncut 1 500 50\n";
    let left = slp(&["save", "-", &pool, &storage], calls);
    assert_eq!((left.err.as_str(), left.status), ("", 0));
    let left = slp(&["list", &pool, &storage, "0.1"], b"");
    assert_eq!((left.out.as_str(), left.status), ("500 12\n512 38\n", 0));
    let left = slp(&["list", &pool, &storage, "0"], b"");
    assert!(left.err.contains("list 0: 3 SLIP"), "{}", left.err);
    assert_eq!((left.out.as_str(), left.status), ("", 2));

    // Slip 3 comes to its last serial.
    let mut bytes = fs::read(&pool).unwrap();
    bytes[11 + 4 * 3 + 2..][..2].copy_from_slice(&[255, 255]);
    fs::write(&pool, bytes).unwrap();
    let left = slp(&["audit", &pool, &storage], b"");
    assert_eq!((left.out.as_str(), left.status), ("audit -> done\n", 0));
    let drawing = "\
slip 0.1       50 bytes  p0[b0 500+12] > p3[b1 0+38]
slip 1        600 bytes  p2[b0 0+512] > p1[b1 0+88]
slip 2        vacant
slip 3.65535  vacant and spent: not given again until an open
buffers  b0 x2  b1 x2  b2 free  b3 free
pieces   4 in use, 2 free
";
    let left = slp(&["draw", &pool, &storage], b"");
    assert_eq!((left.out.as_str(), left.status), (drawing, 0));
    let left = slp(&["draw", &pool, &storage, "--svg"], b"");
    xml::elements(&left.out).expect("well-formed");
    assert!(left.out.contains(">serial 1<") && left.out.contains(">serial 65535<"));
}

/// Each bad line, and what is said of it: the place, then what is wrong.
#[test]
fn bad_lines() {
    for (line, what) in [
        ("pit 600", "'pit' is no call; 'slp help' lists them"),
        ("Put 600", "'Put' is no call; 'slp help' lists them"),
        ("put", "put takes BYTES or a \"text\", 0 given"),
        ("put 1 2", "put takes BYTES or a \"text\", 2 given"),
        ("pool 4 6", "pool takes BUFFERS PIECES SLIPS, 2 given"),
        ("audit 0", "audit takes nothing, 1 given"),
        ("cut 0 500", "cut takes SLIP OFFSET LENGTH, 2 given"),
        ("append 1", "append takes SLIP SLIP, 1 given"),
        ("list", "list takes SLIP, 0 given"),
        ("list 0 1", "list takes SLIP, 2 given"),
        (
            "free x",
            "free: SLIP 'x' is not a slip: NUMBER or NUMBER.SERIAL, each 0 to 65535",
        ),
        (
            "free -1",
            "free: SLIP '-1' is not a slip: NUMBER or NUMBER.SERIAL, each 0 to 65535",
        ),
        (
            "free +1",
            "free: SLIP '+1' is not a slip: NUMBER or NUMBER.SERIAL, each 0 to 65535",
        ),
        ("drop 0 5.5", "drop: N '5.5' is not a whole number"),
        (
            "free 65536",
            "free: SLIP '65536' is not a slip: NUMBER or NUMBER.SERIAL, each 0 to 65535",
        ),
        (
            "free 2.65536",
            "free: SLIP '2.65536' is not a slip: NUMBER or NUMBER.SERIAL, each 0 to 65535",
        ),
        (
            "free 2.",
            "free: SLIP '2.' is not a slip: NUMBER or NUMBER.SERIAL, each 0 to 65535",
        ),
        (
            "free .1",
            "free: SLIP '.1' is not a slip: NUMBER or NUMBER.SERIAL, each 0 to 65535",
        ),
        (
            "cut 2.1.0 0 1",
            "cut: SLIP '2.1.0' is not a slip: NUMBER or NUMBER.SERIAL, each 0 to 65535",
        ),
        (
            "append 0 2.x",
            "append: SLIP '2.x' is not a slip: NUMBER or NUMBER.SERIAL, each 0 to 65535",
        ),
        (
            "show 0.-1 1",
            "show: SLIP '0.-1' is not a slip: NUMBER or NUMBER.SERIAL, each 0 to 65535",
        ),
        ("pool 65536 1 1", "pool: BUFFERS '65536' is above 65535"),
        (
            "cut 0 4294967296 1",
            "cut: OFFSET '4294967296' is above 4294967295",
        ),
        (
            "read 0 0 99999999999999999999999",
            "read: LENGTH '99999999999999999999999' is above 4294967295",
        ),
        ("put 16777217", "put: BYTES '16777217' is above 16777216"),
        ("put \"open", "put: the text has no closing quote"),
        ("put \"open\\", "put: the text has no closing quote"),
        ("put \"a\" b", "put: 'b' stands behind the text"),
        ("put \"\\q\"", "put: '\\q' stands for nothing"),
        ("put \"\\x4\"", "put: '\\x4\"' wants two hexadecimal digits"),
        ("put \"\\x+4\"", "put: '\\x+4' wants two hexadecimal digits"),
    ] {
        let calls = format!("pool 4 6 4\n\nput 600\n{line}\nfree 0\n");
        let left = slp(&["run", "-"], calls.as_bytes());
        assert_eq!(left.err, format!("-:4: {what}\n"), "{line}");
        assert_eq!(left.status, 2, "{line}");
        // What was answered before is there, and nothing behind.
        assert_eq!(left.out, "pool 4 6 4 -> done\nput 600 -> slip 0\n");
    }
}

#[test]
fn bad_files() {
    let place = directory("bad-files");
    let file = named(&place, "calls.slp");
    fs::write(&file, "# nothing is open yet\nput 600\n").unwrap();
    let left = slp(&["run", &file, "--draw"], b"");
    let what = "no pool is open; 'pool BUFFERS PIECES SLIPS' opens one";
    assert_eq!(left.err, format!("{file}:2: {what}\n"));
    assert_eq!((left.out.as_str(), left.status), ("", 2));

    // A refused pool is an answer, and leaves none open.
    let left = slp(&["run", "-"], b"pool 0 1 1\naudit\n");
    assert_eq!(left.err, format!("-:2: {what}\n"));
    assert_eq!(
        (left.out.as_str(), left.status),
        ("pool 0 1 1 -> 1 COUNTS\n", 2)
    );

    fs::write(&file, b"pool 4 6 4\nput \"\xFF\"\n").unwrap();
    let left = slp(&["run", &file], b"");
    assert_eq!(left.err, format!("{file}:2: the line is not UTF-8 text\n"));
    assert_eq!(
        (left.out.as_str(), left.status),
        ("pool 4 6 4 -> done\n", 2)
    );

    let none = named(&place, "none");
    for arguments in [
        &["run", &none][..],
        &["save", &none, &file, &none],
        &["audit", &none, &file],
        &["audit", &file, &none],
        &["draw", &none, &file],
        &["draw", "--svg", &file, &none],
        &["list", &none, &file, "0"],
        &["list", &file, &none, "0"],
    ] {
        let left = slp(arguments, b"");
        let start = format!("{none}: can't be read: ");
        assert!(left.err.starts_with(&start), "{}", left.err);
        assert_eq!(left.err.lines().count(), 1);
        assert_eq!((left.out.as_str(), left.status), ("", 2));
    }
    let here = named(&place, "");
    let left = slp(&["run", &here], b"");
    assert!(left.err.starts_with(&format!("{here}: can't be read: ")));
    assert_eq!(left.status, 2);
}

#[test]
fn bad_arguments() {
    let run = "it is 'slp run FILE [--draw]'";
    let save = "it is 'slp save FILE POOL STORAGE [--draw]'";
    let audit = "it is 'slp audit POOL STORAGE'";
    let draw = "it is 'slp draw POOL STORAGE [--svg]'";
    let list = "it is 'slp list POOL STORAGE SLIP'";
    for (arguments, what) in [
        (&[][..], "no command; 'slp help' lists them".to_string()),
        (
            &["walk"],
            "'walk' is no command; 'slp help' lists them".to_string(),
        ),
        (&["run"], format!("too few names; {run}")),
        (&["run", "a", "b"], format!("too many names; {run}")),
        (
            &["run", "a", "--svg"],
            format!("'--svg' is no flag here; {run}"),
        ),
        (&["save", "a", "b"], format!("too few names; {save}")),
        (&["audit", "a"], format!("too few names; {audit}")),
        (
            &["audit", "a", "b", "--draw"],
            format!("'--draw' is no flag here; {audit}"),
        ),
        (&["draw", "a"], format!("too few names; {draw}")),
        (
            &["draw", "a", "b", "--"],
            format!("'--' is no flag here; {draw}"),
        ),
        (&["list", "a", "b"], format!("too few names; {list}")),
        (
            &["list", "a", "b", "1", "2"],
            format!("too many names; {list}"),
        ),
        (
            &["list", "a", "b", "1", "--draw"],
            format!("'--draw' is no flag here; {list}"),
        ),
        (
            &["list", "a", "b", "x"],
            "list: SLIP 'x' is not a slip: NUMBER or NUMBER.SERIAL, each 0 to 65535".to_string(),
        ),
        (
            &["list", "a", "b", "65536"],
            "list: SLIP '65536' is not a slip: NUMBER or NUMBER.SERIAL, each 0 to 65535"
                .to_string(),
        ),
        (
            &["list", "a", "b", "1."],
            "list: SLIP '1.' is not a slip: NUMBER or NUMBER.SERIAL, each 0 to 65535".to_string(),
        ),
    ] {
        let left = slp(arguments, b"");
        assert_eq!(left.err, format!("slp: {what}\n"));
        assert_eq!((left.out.as_str(), left.status), ("", 2));
    }
}

#[test]
fn help() {
    let left = slp(&["help"], b"");
    assert_eq!((left.err.as_str(), left.status), ("", 0));
    for name in [
        "pool", "audit", "put", "free", "dup", "cut", "append", "drop", "keep", "pullup", "pack",
        "length", "read", "show", "list",
    ] {
        let call = |line: &str| line.split_whitespace().next() == Some(name);
        assert!(left.out.lines().any(call), "{name}");
    }
    for refusal in Refusal::ALL {
        assert!(left.out.contains(refusal.word()));
        assert!(left.out.contains(refusal.meaning()));
    }
    assert!(left.out.lines().all(|line| line.len() <= 84));
    assert_eq!(slp(&["--help"], b"").out, left.out);
}

/// A run saved, audited and drawn again.
#[test]
fn save_audit_draw() {
    let place = directory("save-audit-draw");
    let (pool, storage) = (named(&place, "pool"), named(&place, "storage"));
    let calls = b"pool 4 6 4\nput 600\ncut 0 500 50\ndup 0\n";
    let left = slp(&["save", "-", &pool, &storage, "--draw"], calls);
    assert_eq!((left.err.as_str(), left.status), ("", 0));
    // The first four blocks of the morning.
    assert!(MORNING.starts_with(&left.out));
    assert_eq!(left.out.matches("\n\n").count(), 4);
    assert_eq!(fs::read(&pool).unwrap().len(), 95);
    assert_eq!(fs::read(&storage).unwrap().len(), 2048);

    let left = slp(&["audit", &pool, &storage], b"");
    assert_eq!((left.out.as_str(), left.status), ("audit -> done\n", 0));
    let drawing = "\
slip 0  600 bytes  p0[b0 0+512] > p1[b1 0+88]x2
slip 1   50 bytes  p2[b0 500+12] > p3[b1 0+38]
slip 2  600 bytes  p4[b0 0+512] > p1[b1 0+88]x2
slip 3  vacant
buffers  b0 x3  b1 x2  b2 free  b3 free
pieces   5 in use, 1 free
";
    let left = slp(&["draw", &pool, &storage], b"");
    assert_eq!((left.out.as_str(), left.status), (drawing, 0));

    // Piece 1 loses a reference that it counts.
    let mut bytes = fs::read(&pool).unwrap();
    bytes[11 + 16 + 10] = 1;
    fs::write(&pool, bytes).unwrap();
    let left = slp(&["audit", &pool, &storage], b"");
    let torn = "audit -> 2 TORN\n  piece 1 has count 1, references 2\n";
    assert_eq!((left.out.as_str(), left.err.as_str()), (torn, ""));
    assert_eq!(left.status, 1);
    let left = slp(&["draw", &pool, &storage], b"");
    let last = "pieces   5 in use, 1 free\ntorn     piece 1 has count 1, references 2\n";
    assert!(left.out.ends_with(last), "{}", left.out);
    assert_eq!(left.status, 0);
    // The two files taken for each other.
    let left = slp(&["audit", &storage, &pool], b"");
    let torn = "audit -> 2 TORN\n  the pool doesn't begin with the mark SLP\n";
    assert_eq!((left.out.as_str(), left.status), (torn, 1));
}

/// The wire lists of a saved pool, and what is said where there is none.
#[test]
fn list() {
    let place = directory("list");
    let (pool, storage) = (named(&place, "pool"), named(&place, "storage"));
    let calls = b"pool 4 6 4\nput 600\ncut 0 500 50\ndup 0\ncut 0 600 0\nfree 2\n";
    let left = slp(&["save", "-", &pool, &storage], calls);
    assert_eq!((left.err.as_str(), left.status), ("", 0));
    let before = (fs::read(&pool).unwrap(), fs::read(&storage).unwrap());
    // Slip 3 is empty.
    for (slip, records) in [
        ("0", "0 512\n512 88\n"),
        ("1", "500 12\n512 38\n"),
        ("3", ""),
    ] {
        let left = slp(&["list", &pool, &storage, slip], b"");
        assert_eq!((left.out.as_str(), left.err.as_str()), (records, ""));
        assert_eq!(left.status, 0);
    }
    // Slip 2 is vacant, slip 4 is none, slip 0 is held at serial 0.
    for slip in ["2", "2.1", "4", "65535", "0.1", "65535.65535"] {
        let left = slp(&["list", &pool, &storage, slip], b"");
        let what = "3 SLIP: a named slip is S or more, or vacant, or its serial is another";
        assert_eq!(left.err, format!("{pool}: list {slip}: {what}\n"));
        assert_eq!((left.out.as_str(), left.status), ("", 2));
    }
    assert_eq!(fs::read(&pool).unwrap(), before.0);
    assert_eq!(fs::read(&storage).unwrap(), before.1);

    // Torn, with what was found, also where the slip is none.
    fs::write(&pool, [&before.0[..94], &[7]].concat()).unwrap();
    for slip in ["0", "9"] {
        let left = slp(&["list", &pool, &storage, slip], b"");
        let what = "2 TORN: the pool isn't sound; buffer 3 has count 1792, pieces 0";
        assert_eq!(left.err, format!("{pool}: list {slip}: {what}\n"));
        assert_eq!((left.out.as_str(), left.status), ("", 2));
    }
    let left = slp(&["list", &storage, &pool, "0"], b"");
    let what = "2 TORN: the pool isn't sound; the pool doesn't begin with the mark SLP";
    assert_eq!(left.err, format!("{storage}: list 0: {what}\n"));
    assert_eq!((left.out.as_str(), left.status), ("", 2));
}

#[test]
fn save_refused() {
    let place = directory("save-refused");
    let (pool, storage) = (named(&place, "pool"), named(&place, "storage"));
    // Nothing is saved of a run that stops.
    let left = slp(&["save", "-", &pool, &storage], b"pool 4 6 4\npit\n");
    assert!(left.err.starts_with("-:2: "));
    assert_eq!(
        (left.out.as_str(), left.status),
        ("pool 4 6 4 -> done\n", 2)
    );
    let left = slp(&["save", "-", &pool, &storage], b"# nothing\n");
    assert_eq!(left.err, "-: no pool was opened, so none is saved\n");
    assert_eq!(left.status, 2);
    assert_eq!(files(&place), [""; 0]);
    let nowhere = named(&place, "none/pool");
    let left = slp(&["save", "-", &nowhere, &storage], b"pool 4 6 4\n");
    assert!(left
        .err
        .starts_with(&format!("{nowhere}: can't be written: ")));
    assert_eq!(
        (left.out.as_str(), left.status),
        ("pool 4 6 4 -> done\n", 2)
    );
}

/// Calls whose pool and storage are saved, and the bytes that they come to.
const SAVED: &[u8] = b"pool 4 6 4\nput 600\ncut 0 500 50\n";

fn saved() -> (Vec<u8>, Vec<u8>) {
    let shape = Shape {
        buffers: 4,
        pieces: 6,
        slips: 4,
    };
    let mut pool = vec![0; pool_length(shape)];
    let mut storage = vec![0; storage_length(shape.buffers)];
    let mut open = Pool::open(&mut pool, &mut storage, shape).expect("the lengths that it asks");
    let slip = open.put(&data(600)).expect("room");
    open.cut(slip, 500, 50).expect("room");
    (pool, storage)
}

/// The names in a directory, in order.
fn files(place: &Path) -> Vec<String> {
    let entries = fs::read_dir(place).expect("a directory");
    let name = |entry: std::io::Result<fs::DirEntry>| entry.unwrap().file_name();
    let mut names: Vec<_> = entries
        .map(|entry| name(entry).into_string().unwrap())
        .collect();
    names.sort();
    names
}

/// Both files are replaced and keep permissions and owner; nothing is left beside them.
#[test]
fn save_replaces() {
    let place = directory("save-replaces");
    let (pool, storage) = (named(&place, "pool"), named(&place, "storage"));
    let of = |file: &str| {
        let file = fs::metadata(file).unwrap();
        (file.mode(), file.uid(), file.gid())
    };
    let left = slp(&["save", "-", &pool, &storage], SAVED);
    assert_eq!((left.err.as_str(), left.status), ("", 0));
    assert_eq!(fs::read(&pool).unwrap(), saved().0);
    assert_eq!(fs::read(&storage).unwrap(), saved().1);
    assert_eq!(files(&place), ["pool", "storage"]);
    let plain = named(&place, "plain");
    fs::write(&plain, "").unwrap();
    assert_eq!(of(&pool), of(&plain));

    for (file, mode) in [(&pool, 0o640), (&storage, 0o777)] {
        fs::write(file, "old").unwrap();
        // Only root may give a file away; others keep it, and it stays theirs.
        let _ = chown(file, Some(1), Some(1));
        fs::set_permissions(file, Permissions::from_mode(mode)).unwrap();
    }
    let before = (of(&pool), of(&storage));
    let left = slp(&["save", "-", &pool, &storage], SAVED);
    assert_eq!((left.err.as_str(), left.status), ("", 0));
    assert_eq!(fs::read(&pool).unwrap(), saved().0);
    assert_eq!(fs::read(&storage).unwrap(), saved().1);
    assert_eq!((of(&pool), of(&storage)), before);
    assert_eq!(files(&place), ["plain", "pool", "storage"]);
}

/// The storage that is saved holds no byte of what was given back, and every byte of what is held.
#[test]
fn save_cleaned() {
    let place = directory("save-cleaned");
    let (pool, storage) = (named(&place, "pool"), named(&place, "storage"));
    let filled = |bytes: &[u8]| [bytes, &vec![0; 512 - bytes.len()]].concat();
    let bytes = data(1_100);
    let (first, second) = (filled(&bytes[..512]), filled(&bytes[512..1_024]));
    let clean = filled(b"");
    let put = "pool 4 6 4\nput 1100\n";
    for (calls, buffers) in [
        ("free 0", [&clean; 4]),
        (
            "drop 0 600",
            [&clean, &second, &filled(&bytes[1_024..]), &clean],
        ),
        ("keep 0 600", [&first, &second, &clean, &clean]),
        (
            "keep 0 600\npack 0",
            [&clean, &clean, &first, &filled(&bytes[512..600])],
        ),
        (
            "keep 0 600\ndrop 0 500\npullup 0 100",
            [&clean, &clean, &filled(&bytes[500..600]), &clean],
        ),
        ("cut 0 0 5\nfree 0", [&first, &clean, &clean, &clean]),
    ] {
        let calls = format!("{put}{calls}\n");
        let left = slp(&["save", "-", &pool, &storage], calls.as_bytes());
        assert_eq!((left.err.as_str(), left.status), ("", 0));
        assert_eq!(
            fs::read(&storage).unwrap(),
            buffers.map(|b| b.clone()).concat(),
            "{calls}"
        );
        let left = slp(&["audit", &pool, &storage], b"");
        assert_eq!((left.out.as_str(), left.status), ("audit -> done\n", 0));
    }
}

/// A link stays a link, to a file replaced or made; another name of that file keeps the old bytes.
#[test]
fn save_by_links() {
    let place = directory("save-by-links");
    fs::create_dir(place.join("far")).unwrap();
    fs::write(place.join("far/pool"), "old").unwrap();
    fs::hard_link(place.join("far/pool"), place.join("other")).unwrap();
    symlink("second", place.join("first")).unwrap();
    symlink("far/pool", place.join("second")).unwrap();
    symlink(place.join("far/storage"), place.join("none")).unwrap();
    let (pool, storage) = (named(&place, "first"), named(&place, "none"));
    let left = slp(&["save", "-", &pool, &storage], SAVED);
    assert_eq!((left.err.as_str(), left.status), ("", 0));
    assert_eq!(fs::read(place.join("far/pool")).unwrap(), saved().0);
    assert_eq!(fs::read(place.join("far/storage")).unwrap(), saved().1);
    assert_eq!(fs::read(place.join("other")).unwrap(), b"old");
    assert_eq!(fs::read_link(&pool).unwrap(), Path::new("second"));
    assert!(fs::symlink_metadata(&storage).unwrap().is_symlink());
    assert_eq!(files(&place), ["far", "first", "none", "other", "second"]);
    assert_eq!(files(&place.join("far")), ["pool", "storage"]);
}

/// Where one of the two files can't be written, the other is as it was, or not there.
#[test]
fn save_both_or_neither() {
    let place = directory("save-both-or-neither");
    fs::write(place.join("old"), "old").unwrap();
    fs::create_dir(place.join("directory")).unwrap();
    symlink("ring", place.join("ring")).unwrap();
    let before = files(&place);
    let directories = [".", "directory", "directory/..", "file/", "file/."];
    for bad in ["", "none/file", "old/file", "ring"]
        .iter()
        .chain(&directories)
    {
        for names in [["old", bad], [bad, "old"], ["new", bad], [bad, "new"]] {
            let left = slp_in(&place, &["save", "-", names[0], names[1]], SAVED);
            let start = format!("{bad}: can't be written: ");
            assert!(left.err.starts_with(&start), "{}", left.err);
            assert_eq!((left.err.lines().count(), left.status), (1, 2));
            assert_eq!(fs::read(place.join("old")).unwrap(), b"old");
            assert_eq!(files(&place), before);
            assert_eq!(files(&place.join("directory")), [""; 0]);
        }
    }
}

/// What is no regular file is not replaced.
#[test]
fn save_to_a_pipe() {
    let place = directory("save-to-a-pipe");
    let pipe = named(&place, "pipe");
    let made = Command::new("mkfifo").arg(&pipe).status();
    assert!(made.expect("mkfifo runs").success());
    // With both ends open, nobody who opens the pipe has to wait.
    let _ends = fs::File::options().read(true).write(true).open(&pipe);
    for names in [["file", "pipe"], ["pipe", "file"]] {
        let left = slp_in(&place, &["save", "-", names[0], names[1]], SAVED);
        let what = "pipe: can't be written: it is no regular file\n";
        assert_eq!((left.err.as_str(), left.status), (what, 2));
        assert!(fs::metadata(&pipe).unwrap().file_type().is_fifo());
        assert_eq!(files(&place), ["pipe"]);
    }
}

/// A storage that breaks off while it is written, since no file may grow so long.
#[test]
fn save_broken_off() {
    let place = directory("save-broken-off");
    let (pool, storage) = (named(&place, "pool"), named(&place, "storage"));
    fs::write(place.join("calls.slp"), SAVED).unwrap();
    fs::write(&pool, "old pool").unwrap();
    fs::write(&storage, "old storage").unwrap();
    let left = Command::new("sh")
        .args(["-c", "trap '' XFSZ; ulimit -f 1; exec \"$@\"", "sh"])
        .args([env!("CARGO_BIN_EXE_slp"), "save"])
        .args([&named(&place, "calls.slp"), &pool, &storage])
        .output()
        .expect("the command ends");
    let err = String::from_utf8(left.stderr).expect("text");
    let start = format!("{storage}: can't be written: ");
    assert!(err.starts_with(&start), "{err}");
    assert_eq!(left.status.code(), Some(2));
    assert_eq!(fs::read(&pool).unwrap(), b"old pool");
    assert_eq!(fs::read(&storage).unwrap(), b"old storage");
    assert_eq!(files(&place), ["calls.slp", "pool", "storage"]);
}

/// Two targets, and what is said of them where two of the three names are one file.
const ONE_FILE: [(&str, &str, &str); 13] = [
    ("file", "file", "file: STORAGE and POOL 'file'"),
    ("file", "./file", "./file: STORAGE and POOL 'file'"),
    ("file", "file-hard", "file-hard: STORAGE and POOL 'file'"),
    ("file-link", "file", "file: STORAGE and POOL 'file-link'"),
    (
        "file-hard",
        "here/file-link",
        "here/file-link: STORAGE and POOL 'file-hard'",
    ),
    ("new", "new", "new: STORAGE and POOL 'new'"),
    ("here/new", "new", "new: STORAGE and POOL 'here/new'"),
    ("new", "new-link", "new-link: STORAGE and POOL 'new'"),
    (
        "none/new",
        "none/new",
        "none/new: STORAGE and POOL 'none/new'",
    ),
    ("calls", "new", "calls: POOL and FILE 'calls'"),
    ("calls-hard", "new", "calls-hard: POOL and FILE 'calls'"),
    ("new", "calls", "calls: STORAGE and FILE 'calls'"),
    (
        "file",
        "here/calls-link",
        "here/calls-link: STORAGE and FILE 'calls'",
    ),
];

/// Two names of one file are refused before a call is made, whichever way they lead there.
#[test]
fn save_to_one_file() {
    let place = directory("save-to-one-file");
    fs::write(place.join("calls"), SAVED).unwrap();
    fs::write(place.join("file"), "old").unwrap();
    fs::hard_link(place.join("calls"), place.join("calls-hard")).unwrap();
    fs::hard_link(place.join("file"), place.join("file-hard")).unwrap();
    symlink("calls", place.join("calls-link")).unwrap();
    symlink("file", place.join("file-link")).unwrap();
    symlink("new", place.join("new-link")).unwrap();
    symlink(".", place.join("here")).unwrap();
    let before = files(&place);
    for (pool, storage, what) in ONE_FILE {
        let left = slp_in(&place, &["save", "calls", pool, storage], b"");
        assert_eq!(left.err, format!("{what} are one file\n"));
        assert_eq!((left.out.as_str(), left.status), ("", 2));
        assert_eq!(fs::read(place.join("calls")).unwrap(), SAVED);
        assert_eq!(fs::read(place.join("file")).unwrap(), b"old");
        assert_eq!(files(&place), before);
    }
    // Two names of two files are none of this.
    let left = slp_in(&place, &["save", "calls", "new", "file"], b"");
    assert_eq!((left.err.as_str(), left.status), ("", 0));
    assert_eq!(fs::read(place.join("new")).unwrap(), saved().0);
    assert_eq!(fs::read(place.join("file")).unwrap(), saved().1);
}

/// Standard input is a file too, where it comes from one.
#[test]
fn save_over_input() {
    let place = directory("save-over-input");
    let (calls, storage) = (named(&place, "calls"), named(&place, "storage"));
    fs::write(&calls, SAVED).unwrap();
    let left = Command::new(env!("CARGO_BIN_EXE_slp"))
        .args(["save", "-", &calls, &storage])
        .stdin(fs::File::open(&calls).unwrap())
        .output()
        .expect("the command ends");
    let what = format!("{calls}: POOL and FILE '-' are one file\n");
    assert_eq!(String::from_utf8(left.stderr).unwrap(), what);
    assert_eq!((left.stdout.len(), left.status.code()), (0, Some(2)));
    assert_eq!(fs::read(&calls).unwrap(), SAVED);
    assert_eq!(files(&place), ["calls"]);
}

/// The drawing is well-formed, has one box for each piece in use and an arrow for each reference.
#[test]
fn svg() {
    let place = directory("svg");
    let (pool, storage) = (named(&place, "pool"), named(&place, "storage"));
    let calls = b"pool 4 6 4\nput 600\ncut 0 500 50\ndup 0\n";
    slp(&["save", "-", &pool, &storage], calls);
    for arguments in [
        ["draw", "--svg", &pool, &storage],
        ["draw", &pool, &storage, "--svg"],
    ] {
        let left = slp(&arguments, b"");
        assert_eq!((left.err.as_str(), left.status), ("", 0));
        // The README shows this very picture.
        assert_eq!(left.out, include_str!("../../docs/sharing.svg"));
        let elements = xml::elements(&left.out).expect("well-formed");
        let count = |name: &str, class: &str| {
            let of = |e: &&Element| e.name == name && e.is(class);
            elements.iter().filter(of).count()
        };
        assert_eq!(elements[0].name, "svg");
        let space = elements[0].attribute("xmlns");
        assert_eq!(space, Some("http://www.w3.org/2000/svg"));
        assert_eq!(count("rect", "piece"), 5);
        assert_eq!(count("rect", "shared"), 1);
        assert_eq!(count("rect", "slip"), 3);
        assert_eq!(count("rect", "vacant"), 1 + 2);
        assert_eq!(count("rect", "bar"), 2);
        assert_eq!(count("rect", "stretch"), 5);
        // Three heads, and the next of pieces 0, 2 and 4.
        assert_eq!(count("path", "arrow"), 6);
        assert_eq!(count("script", ""), 0);
    }
    // Bytes that are no pool: a drawing all the same, which says so.
    let left = slp(&["draw", "--svg", &storage, &pool], b"");
    let elements = xml::elements(&left.out).expect("well-formed");
    assert!(elements.iter().any(|e| e.is("torn")));
    assert_eq!(left.status, 0);
}

//! Calls as they are written, one a line.

use std::fmt;

use fulcrumnest::{Shape, Slip};

/// The most bytes of one put: more than any pool holds, and little enough to be made.
const MOST_BYTES: u32 = 1 << 24;

/// Every call that can be written, with the names of its arguments, in the order of the paper.
pub const FORMS: [(&str, &str); 15] = [
    ("pool", "BUFFERS PIECES SLIPS"),
    ("audit", ""),
    ("put", "BYTES"),
    ("free", "SLIP"),
    ("dup", "SLIP"),
    ("cut", "SLIP OFFSET LENGTH"),
    ("append", "SLIP SLIP"),
    ("drop", "SLIP N"),
    ("keep", "SLIP N"),
    ("pullup", "SLIP N"),
    ("pack", "SLIP"),
    ("length", "SLIP"),
    ("read", "SLIP OFFSET LENGTH"),
    ("show", "SLIP N"),
    ("list", "SLIP"),
];

/// What is put: so many bytes that count up, or a text.
#[derive(Clone, Debug, PartialEq, Eq)]
pub enum Data {
    Counting(u32),
    Text { written: String, bytes: Vec<u8> },
}

impl Data {
    /// The bytes; where they count up, byte i is i mod 251.
    pub fn bytes(&self) -> Vec<u8> {
        match self {
            Data::Counting(n) => (0..*n).map(|i| (i % 251) as u8).collect(),
            Data::Text { bytes, .. } => bytes.clone(),
        }
    }
}

/// One call.
#[derive(Clone, Debug, PartialEq, Eq)]
pub enum Call {
    Pool(Shape),
    Audit,
    Put(Data),
    Free(Slip),
    Dup(Slip),
    Cut(Slip, u32, u32),
    Append(Slip, Slip),
    Drop(Slip, u32),
    Keep(Slip, u32),
    Pullup(Slip, u32),
    Pack(Slip),
    Length(Slip),
    Read(Slip, u32, u32),
    Show(Slip, u32),
    List(Slip),
}

impl fmt::Display for Call {
    fn fmt(&self, f: &mut fmt::Formatter<'_>) -> fmt::Result {
        match self {
            Call::Pool(s) => write!(f, "pool {} {} {}", s.buffers, s.pieces, s.slips),
            Call::Audit => write!(f, "audit"),
            Call::Put(Data::Counting(n)) => write!(f, "put {n}"),
            Call::Put(Data::Text { written, .. }) => write!(f, "put \"{written}\""),
            Call::Free(slip) => write!(f, "free {slip}"),
            Call::Dup(slip) => write!(f, "dup {slip}"),
            Call::Cut(slip, offset, length) => write!(f, "cut {slip} {offset} {length}"),
            Call::Append(a, b) => write!(f, "append {a} {b}"),
            Call::Drop(slip, n) => write!(f, "drop {slip} {n}"),
            Call::Keep(slip, n) => write!(f, "keep {slip} {n}"),
            Call::Pullup(slip, n) => write!(f, "pullup {slip} {n}"),
            Call::Pack(slip) => write!(f, "pack {slip}"),
            Call::Length(slip) => write!(f, "length {slip}"),
            Call::Read(slip, offset, length) => write!(f, "read {slip} {offset} {length}"),
            Call::Show(slip, n) => write!(f, "show {slip} {n}"),
            Call::List(slip) => write!(f, "list {slip}"),
        }
    }
}

/// The call of a line, none where the line is blank or a comment, or what is wrong with it.
pub fn parse(line: &str) -> Result<Option<Call>, String> {
    let line = line.trim();
    if let Some(rest) = line.strip_prefix("put") {
        let text = rest.trim_start();
        if text.len() < rest.len() && text.starts_with('"') {
            return quoted(&text[1..]).map(|data| Some(Call::Put(data)));
        }
    }
    let before = line.split('#').next().unwrap_or_default();
    let mut words = before.split_whitespace();
    let Some(name) = words.next() else {
        return Ok(None);
    };
    let given: Vec<&str> = words.collect();
    let Some((name, form)) = FORMS.iter().find(|form| form.0 == name) else {
        return Err(format!("'{name}' is no call; 'slp help' lists them"));
    };
    let numbers = numbers(name, form, &given)?;
    Ok(Some(call(name, &numbers)))
}

/// The arguments of a call as numbers, each within the bits that it is lent in, slips as they are
/// answered.
fn numbers(name: &str, form: &str, given: &[&str]) -> Result<Vec<u32>, String> {
    let wanted: Vec<&str> = form.split_whitespace().collect();
    if given.len() != wanted.len() {
        let takes = match (wanted.is_empty(), name) {
            (true, _) => "nothing",
            (false, "put") => "BYTES or a \"text\"",
            _ => form,
        };
        return Err(format!("{name} takes {takes}, {} given", given.len()));
    }
    let number = |(word, what): (&&str, &&str)| {
        let read = match *what {
            "SLIP" => named(word),
            "BYTES" => number(word, MOST_BYTES),
            "OFFSET" | "LENGTH" | "N" => number(word, u32::MAX),
            _ => number(word, u32::from(u16::MAX)),
        };
        read.map_err(|wrong| format!("{name}: {what} '{word}' {wrong}"))
    };
    given.iter().zip(&wanted).map(number).collect()
}

/// The slip that a word names, for a call of this name.
pub fn slip(name: &str, word: &str) -> Result<Slip, String> {
    let numbers = numbers(name, "SLIP", &[word])?;
    Ok(Slip::from_answer(numbers[0]))
}

/// A slip, as the number that is answered for it.
fn named(word: &str) -> Result<u32, String> {
    let slip = word.parse::<Slip>();
    slip.map(Slip::answer)
        .map_err(|wrong| format!("is {wrong}"))
}

/// A whole number from 0 to the most.
fn number(word: &str, most: u32) -> Result<u32, String> {
    if word.is_empty() || !word.bytes().all(|byte| byte.is_ascii_digit()) {
        return Err("is not a whole number".to_string());
    }
    match word.parse() {
        Ok(number) if number <= most => Ok(number),
        _ => Err(format!("is above {most}")),
    }
}

/// The call of this name; counts have been held to 16 bits.
fn call(name: &str, numbers: &[u32]) -> Call {
    let slip = |k: usize| Slip::from_answer(numbers[k]);
    match name {
        "pool" => Call::Pool(Shape {
            buffers: numbers[0] as u16,
            pieces: numbers[1] as u16,
            slips: numbers[2] as u16,
        }),
        "put" => Call::Put(Data::Counting(numbers[0])),
        "free" => Call::Free(slip(0)),
        "dup" => Call::Dup(slip(0)),
        "cut" => Call::Cut(slip(0), numbers[1], numbers[2]),
        "append" => Call::Append(slip(0), slip(1)),
        "drop" => Call::Drop(slip(0), numbers[1]),
        "keep" => Call::Keep(slip(0), numbers[1]),
        "pullup" => Call::Pullup(slip(0), numbers[1]),
        "pack" => Call::Pack(slip(0)),
        "length" => Call::Length(slip(0)),
        "read" => Call::Read(slip(0), numbers[1], numbers[2]),
        "show" => Call::Show(slip(0), numbers[1]),
        "list" => Call::List(slip(0)),
        _ => Call::Audit,
    }
}

/// The text up to the closing quote, behind which only a comment may stand.
fn quoted(text: &str) -> Result<Data, String> {
    let mut bytes = Vec::new();
    let mut rest = text.char_indices();
    while let Some((at, letter)) = rest.next() {
        match letter {
            '"' => {
                let behind = rest.as_str().trim_start();
                if !behind.is_empty() && !behind.starts_with('#') {
                    return Err(format!("put: '{behind}' stands behind the text"));
                }
                let written = text[..at].to_string();
                return Ok(Data::Text { written, bytes });
            }
            '\\' => bytes.push(escaped(&mut rest)?),
            _ => bytes.extend(letter.encode_utf8(&mut [0; 4]).bytes()),
        }
    }
    Err("put: the text has no closing quote".to_string())
}

/// The byte that stands for what follows a backslash.
fn escaped(rest: &mut std::str::CharIndices<'_>) -> Result<u8, String> {
    let letter = rest.next().map(|(_, letter)| letter);
    match letter {
        Some('n') => Ok(b'\n'),
        Some('r') => Ok(b'\r'),
        Some('t') => Ok(b'\t'),
        Some('0') => Ok(0),
        Some('"') => Ok(b'"'),
        Some('\\') => Ok(b'\\'),
        Some('x') => {
            let digits: String = rest.by_ref().take(2).map(|(_, digit)| digit).collect();
            let hexadecimal = digits.len() == 2 && !digits.starts_with('+');
            u8::from_str_radix(&digits, 16)
                .ok()
                .filter(|_| hexadecimal)
                .ok_or_else(|| format!("put: '\\x{digits}' wants two hexadecimal digits"))
        }
        Some(other) => Err(format!("put: '\\{other}' stands for nothing")),
        None => Err("put: the text has no closing quote".to_string()),
    }
}

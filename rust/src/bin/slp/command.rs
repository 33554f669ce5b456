//! The commands: what the arguments ask, and doing it.

use std::ffi::OsString;
use std::fmt::{self, Display};
use std::fs::{self, File};
use std::io::{self, BufRead, BufReader, Write};
use std::path::Path;
use std::process::ExitCode;

use fulcrumnest::{calls, Picture, Refusal};

use crate::save;
use crate::script::{self, FORMS};
use crate::trial::{listed, record, Answer, Trial};

const USAGE: &str = "\
slp run FILE [--draw]
    makes the calls of FILE, one a line, and prints each answer; with --draw
    the pool after each
slp save FILE POOL STORAGE [--draw]
    the same, and then writes pool and storage to these two files, both or
    neither; no two of the three names may be one file
slp audit POOL STORAGE
    whether the pool in these files is sound
slp draw POOL STORAGE [--svg]
    draws the pool in these files, as text or as a picture in SVG
slp list POOL STORAGE SLIP
    prints the wire list of a slip of the pool in these files, one record a
    line: position in storage and length
slp help
    prints this

Exit status: 0 done, also where calls of FILE were refused; 1 'slp audit' found
the pool torn; 2 bad input, with a line on standard error that says where and
what: also where 'slp list' is refused.

FILE may be '-', standard input. Its calls, with '#' before a comment:
";

const DATA: &str = "
put BYTES puts so many bytes that count up: 0, 1, .. 250, 0, 1 and so on.
put \"TEXT\" puts the text; in it \\\" \\\\ \\n \\r \\t \\0 and \\x41 are one byte each.
list SLIP answers how many records there are, and prints each: position, length.
A SLIP is written as it is answered: its number, and where its serial is not 0 a
point and the serial, as 2 or 2.1. Once it is given up, its old name is refused.
";

/// What stops a command: where and what, to be printed as one line.
pub struct Trouble {
    place: String,
    what: String,
}

impl Trouble {
    pub fn new(place: impl Display, what: impl Display) -> Trouble {
        Trouble {
            place: place.to_string(),
            what: what.to_string(),
        }
    }
}

impl Display for Trouble {
    fn fmt(&self, f: &mut fmt::Formatter<'_>) -> fmt::Result {
        write!(f, "{}: {}", self.place, self.what)
    }
}

impl From<io::Error> for Trouble {
    /// Files name themselves; what has no other name is standard output.
    fn from(error: io::Error) -> Trouble {
        Trouble::new("standard output", error)
    }
}

/// Does what the arguments ask.
pub fn run(arguments: Vec<OsString>) -> ExitCode {
    let done = command(&arguments);
    // What was answered stands before what went wrong.
    let flushed = io::stdout().flush().map_err(Trouble::from);
    match done.and_then(|status| flushed.map(|()| status)) {
        Ok(status) => status,
        Err(trouble) => {
            // With standard error closed there is nobody left to tell.
            let _ = writeln!(io::stderr(), "{trouble}");
            ExitCode::from(2)
        }
    }
}

/// Does the command that the first argument names.
fn command(arguments: &[OsString]) -> Result<ExitCode, Trouble> {
    let Some(name) = arguments.first() else {
        return Err(Trouble::new("slp", "no command; 'slp help' lists them"));
    };
    let rest = &arguments[1..];
    match name.to_str() {
        Some("run") => {
            let (names, draw) = names(rest, "run FILE [--draw]", "--draw")?;
            let [file] = names;
            trial(file, draw)?;
            Ok(ExitCode::SUCCESS)
        }
        Some("save") => {
            let (names, draw) = names(rest, "save FILE POOL STORAGE [--draw]", "--draw")?;
            let [file, pool, storage] = names;
            save(file, pool, storage, draw)
        }
        Some("audit") => {
            let (names, _) = names(rest, "audit POOL STORAGE", "")?;
            let [pool, storage] = names;
            audit(&read(pool)?, &read(storage)?)
        }
        Some("draw") => {
            let (names, svg) = names(rest, "draw POOL STORAGE [--svg]", "--svg")?;
            let [pool, storage] = names;
            draw(&read(pool)?, &read(storage)?, svg)
        }
        Some("list") => list(names(rest, "list POOL STORAGE SLIP", "")?.0),
        Some("help" | "--help" | "-h") => help(),
        _ => Err(Trouble::new(
            "slp",
            format!(
                "'{}' is no command; 'slp help' lists them",
                name.to_string_lossy()
            ),
        )),
    }
}

/// The names among the arguments, exactly as many as wanted, and whether the flag stands anywhere.
fn names<'a, const N: usize>(
    arguments: &'a [OsString],
    form: &str,
    flag: &str,
) -> Result<([&'a OsString; N], bool), Trouble> {
    let takes = |what: String| Trouble::new("slp", format!("{what}; it is 'slp {form}'"));
    let mut flagged = false;
    let mut names = Vec::new();
    for argument in arguments {
        let text = argument.to_string_lossy();
        match text.starts_with("--") {
            true if text == flag => flagged = true,
            true => return Err(takes(format!("'{text}' is no flag here"))),
            false => names.push(argument),
        }
    }
    let few = names.len() < N;
    let names = <[&OsString; N]>::try_from(names);
    let names =
        names.map_err(|_| takes(format!("too {} names", if few { "few" } else { "many" })))?;
    Ok((names, flagged))
}

fn help() -> Result<ExitCode, Trouble> {
    let mut out = io::stdout().lock();
    write!(out, "{USAGE}")?;
    for (name, form) in FORMS {
        writeln!(out, "  {}", format!("{name} {form}").trim_end())?;
    }
    writeln!(out, "{DATA}\nA call that is refused changes nothing:")?;
    for refusal in Refusal::ALL {
        writeln!(
            out,
            "  {:>2} {:<8} {}",
            refusal.code(),
            refusal.word(),
            refusal.meaning()
        )?;
    }
    Ok(ExitCode::SUCCESS)
}

/// The bytes of a file.
fn read(name: &OsString) -> Result<Vec<u8>, Trouble> {
    let place = Path::new(name).display();
    fs::read(name).map_err(|error| Trouble::new(place, format!("can't be read: {error}")))
}

/// The lines of a file, or of standard input for `-`.
fn open(name: &OsString) -> Result<Box<dyn BufRead>, Trouble> {
    if name == "-" {
        return Ok(Box::new(io::stdin().lock()));
    }
    let place = Path::new(name).display();
    match File::open(name) {
        Ok(file) => Ok(Box::new(BufReader::new(file))),
        Err(error) => Err(Trouble::new(place, format!("can't be read: {error}"))),
    }
}

/// Makes the calls of a file in order, and prints each answer as it comes.
fn trial(name: &OsString, draw: bool) -> Result<Trial, Trouble> {
    let mut file = open(name)?;
    let place = Path::new(name).display();
    let mut trial = Trial::default();
    let mut line = Vec::new();
    for number in 1u64.. {
        line.clear();
        let got = file.read_until(b'\n', &mut line);
        match got.map_err(|error| Trouble::new(&place, format!("can't be read: {error}")))? {
            0 => break,
            _ => answer(&mut trial, &line, draw, &format!("{place}:{number}"))?,
        }
    }
    Ok(trial)
}

/// Makes the call of one line, if it has one, and prints the answer.
fn answer(trial: &mut Trial, line: &[u8], draw: bool, place: &str) -> Result<(), Trouble> {
    let wrong = |what: &str| Trouble::new(place, what);
    let line = std::str::from_utf8(line).map_err(|_| wrong("the line is not UTF-8 text"))?;
    let Some(call) = script::parse(line).map_err(|what| wrong(&what))? else {
        return Ok(());
    };
    let Some(answer) = trial.answer(&call) else {
        return Err(wrong(
            "no pool is open; 'pool BUFFERS PIECES SLIPS' opens one",
        ));
    };
    let mut out = io::stdout().lock();
    writeln!(out, "{call} -> {answer}")?;
    if draw {
        if let Some(picture) = trial.picture() {
            for line in picture.to_string().lines() {
                writeln!(out, "  {line}")?;
            }
        }
        writeln!(out)?;
    }
    Ok(())
}

/// Makes the calls of a file and writes what pool and storage then hold.
fn save(
    file: &OsString,
    pool: &OsString,
    storage: &OsString,
    draw: bool,
) -> Result<ExitCode, Trouble> {
    save::apart(file, pool, storage)?;
    let trial = trial(file, draw)?;
    let Some((tables, buffers)) = trial.bytes() else {
        let place = Path::new(file).display();
        return Err(Trouble::new(place, "no pool was opened, so none is saved"));
    };
    // While the calls were made, the names may have come to lead elsewhere.
    save::apart(file, pool, storage)?;
    save::write([(pool, tables), (storage, buffers)])?;
    Ok(ExitCode::SUCCESS)
}

/// The library's verdict on a pool and, where it is torn, what was found.
fn audit(pool: &[u8], storage: &[u8]) -> Result<ExitCode, Trouble> {
    let mut out = io::stdout().lock();
    let Err(refusal) = calls::audit(pool, storage).result() else {
        writeln!(out, "audit -> {}", Answer::Done)?;
        return Ok(ExitCode::SUCCESS);
    };
    writeln!(out, "audit -> {}", Answer::Refused(refusal))?;
    if let Some(fault) = Picture::new(pool, storage).fault() {
        writeln!(out, "  {fault}")?;
    }
    Ok(ExitCode::from(1))
}

/// The wire list of a slip; a refusal is bad input, since there are no records to print.
fn list([pool, storage, slip]: [&OsString; 3]) -> Result<ExitCode, Trouble> {
    let slip = script::slip("list", &slip.to_string_lossy());
    let slip = slip.map_err(|what| Trouble::new("slp", what))?;
    let (tables, buffers) = (read(pool)?, read(storage)?);
    let records = listed(&tables, &buffers, slip).map_err(|refusal| {
        let fault = Picture::new(&tables, &buffers).fault();
        let fault = fault.map_or(String::new(), |fault| format!("; {fault}"));
        Trouble::new(
            Path::new(pool).display(),
            format!("list {slip}: {refusal}{fault}"),
        )
    })?;
    let mut out = io::stdout().lock();
    for stretch in &records {
        writeln!(out, "{}", record(stretch))?;
    }
    Ok(ExitCode::SUCCESS)
}

fn draw(pool: &[u8], storage: &[u8], svg: bool) -> Result<ExitCode, Trouble> {
    let picture = Picture::new(pool, storage);
    let mut out = io::stdout().lock();
    match svg {
        true => write!(out, "{}", picture.svg())?,
        false => writeln!(out, "{picture}")?,
    }
    Ok(ExitCode::SUCCESS)
}

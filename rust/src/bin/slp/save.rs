//! Writes pool and storage to two files: both, or neither.

use std::ffi::OsStr;
use std::fs::{self, File, Metadata, OpenOptions};
use std::io::{self, ErrorKind, Write};
use std::os::fd::AsFd;
use std::os::unix::ffi::OsStrExt;
use std::os::unix::fs::{fchown, MetadataExt, OpenOptionsExt};
use std::path::{Path, PathBuf};

use crate::command::Trouble;

/// The most links that are followed to a file that is not there yet, as the system does.
const MOST_LINKS: usize = 40;

/// What a name stands for: a file, by device and inode, or the place of one that is not there yet.
#[derive(PartialEq)]
enum Named {
    File(u64, u64),
    Place(PathBuf),
}

impl From<Metadata> for Named {
    fn from(file: Metadata) -> Named {
        Named::File(file.dev(), file.ino())
    }
}

/// What FILE stands for, `-` for standard input; none where it can't be read, which is told later.
fn script(name: &OsStr) -> Option<Named> {
    let file = if name == "-" {
        File::from(io::stdin().as_fd().try_clone_to_owned().ok()?).metadata()
    } else {
        fs::metadata(name)
    };
    file.ok().map(Named::from)
}

/// What a target stands for; a name that leads nowhere stands for itself.
fn target(name: &OsStr) -> Option<Named> {
    let place = place(Path::new(name)).unwrap_or_else(|_| PathBuf::from(name));
    let file = fs::metadata(&place).map(Named::from);
    Some(file.unwrap_or(Named::Place(place)))
}

/// Refuses three names of which two stand for one file: one would be written over the other.
pub fn apart(file: &OsStr, pool: &OsStr, storage: &OsStr) -> Result<(), Trouble> {
    let names = [
        ("FILE", file, script(file)),
        ("POOL", pool, target(pool)),
        ("STORAGE", storage, target(storage)),
    ];
    for (k, (what, name, named)) in names.iter().enumerate() {
        let same = |before: &&(_, _, _)| named.is_some() && before.2 == *named;
        if let Some((other, other_name, _)) = names[..k].iter().find(same) {
            let other_name = Path::new(other_name).display();
            return Err(Trouble::new(
                Path::new(name).display(),
                format!("{what} and {other} '{other_name}' are one file"),
            ));
        }
    }
    Ok(())
}

/// Writes the bytes to the files of these names, both or neither.
pub fn write(files: [(&OsStr, &[u8]); 2]) -> Result<(), Trouble> {
    let failed = |name: &OsStr, error: io::Error| {
        let place = Path::new(name).display();
        Trouble::new(place, format!("can't be written: {error}"))
    };
    let mut whole = Vec::new();
    for (name, bytes) in files {
        let file = Temporary::written(Path::new(name), bytes);
        whole.push((name, file.map_err(|error| failed(name, error))?));
    }
    // A failure between the two renames leaves the first file new and the second old.
    for (name, file) in whole {
        file.rename().map_err(|error| failed(name, error))?;
    }
    Ok(())
}

/// A whole file beside the target that it is to replace; removed where it doesn't come to that.
struct Temporary {
    path: PathBuf,
    target: PathBuf,
    renamed: bool,
}

impl Temporary {
    /// Writes the bytes beside the file that the name leads to, whose permissions are kept.
    fn written(name: &Path, bytes: &[u8]) -> io::Result<Temporary> {
        let target = place(name)?;
        let old = replaceable(&target)?;
        let (temporary, mut file) = Temporary::beside(target, old.is_some())?;
        file.write_all(bytes)?;
        if let Some(old) = old {
            // Owner and group stay where the system lets them.
            let _ = fchown(&file, None, Some(old.gid()));
            let _ = fchown(&file, Some(old.uid()), None);
            file.set_permissions(old.permissions())?;
        }
        file.sync_all()?;
        Ok(temporary)
    }

    /// An empty file in the target's directory, under a name that no other file has.
    fn beside(target: PathBuf, replaces: bool) -> io::Result<(Temporary, File)> {
        // What replaces a file has no wider permissions than it, not even while it is written.
        let mode = if replaces { 0o600 } else { 0o666 };
        for number in 0..=u16::MAX {
            let name = format!(".slp-{}-{number}.tmp", std::process::id());
            let path = target.with_file_name(name);
            let mut options = OpenOptions::new();
            match options.write(true).create_new(true).mode(mode).open(&path) {
                Err(error) if error.kind() == ErrorKind::AlreadyExists => (),
                Err(error) => return Err(error),
                Ok(file) => {
                    let temporary = Temporary {
                        path,
                        target,
                        renamed: false,
                    };
                    return Ok((temporary, file));
                }
            }
        }
        Err(ErrorKind::AlreadyExists.into())
    }

    /// Puts the file in the target's place.
    fn rename(mut self) -> io::Result<()> {
        fs::rename(&self.path, &self.target)?;
        self.renamed = true;
        Ok(())
    }
}

impl Drop for Temporary {
    fn drop(&mut self) {
        if !self.renamed {
            // What stopped the save is told; that this failed too would not help.
            let _ = fs::remove_file(&self.path);
        }
    }
}

/// The file that a name leads to, links followed, by its true directory; it need not be there yet.
fn place(name: &Path) -> io::Result<PathBuf> {
    let mut path = name.to_path_buf();
    for _ in 0..MOST_LINKS {
        match fs::canonicalize(&path) {
            Err(error) if error.kind() == ErrorKind::NotFound => (),
            found => return found,
        }
        let directory = match path.parent() {
            Some(parent) if parent.as_os_str().is_empty() => Path::new("."),
            Some(parent) => parent,
            None => return Err(ErrorKind::NotFound.into()),
        };
        match fs::read_link(&path) {
            Ok(link) => path = directory.join(link),
            Err(_) => return Ok(fs::canonicalize(directory)?.join(last(&path)?)),
        }
    }
    Err(io::Error::other("too many links"))
}

/// The last name of a path; one that ends in `/`, `.` or `..` has none.
fn last(path: &Path) -> io::Result<&OsStr> {
    let whole = path.as_os_str().as_bytes();
    let name = path.file_name();
    let name = name.filter(|name| whole.ends_with(name.as_bytes()));
    name.ok_or_else(|| io::Error::other("it names a directory"))
}

/// The file at a place, if there is one; it must be one that could be written without a rename.
fn replaceable(place: &Path) -> io::Result<Option<Metadata>> {
    let old = match fs::metadata(place) {
        Err(error) if error.kind() == ErrorKind::NotFound => return Ok(None),
        old => old?,
    };
    if !old.is_file() {
        return Err(io::Error::other("it is no regular file"));
    }
    OpenOptions::new().write(true).open(place)?;
    Ok(Some(old))
}

//! Files, and standard input and output in the place of files.

use super::failure::Failure;
use std::ffi::OsString;
use std::fmt;
use std::fs::{self, File, Permissions};
use std::io::{self, Read, Write};
use std::path::{Path, PathBuf};
use std::process;
use std::time::{SystemTime, UNIX_EPOCH};

/// More is neither a sheet nor a table that somebody wrote.
const MOST: u64 = 1 << 20;

/// A file by its name, or standard input or output by `-`.
#[derive(Debug)]
pub enum Place {
    Standard,
    File(PathBuf),
}

impl From<OsString> for Place {
    fn from(name: OsString) -> Place {
        if name == "-" {
            Place::Standard
        } else {
            Place::File(name.into())
        }
    }
}

impl fmt::Display for Place {
    fn fmt(&self, f: &mut fmt::Formatter<'_>) -> fmt::Result {
        match self {
            Place::Standard => f.write_str("standard input"),
            Place::File(path) => path.display().fmt(f),
        }
    }
}

impl Place {
    pub fn read(&self) -> Result<Vec<u8>, Failure> {
        let mut bytes = Vec::new();
        let read = match self {
            Place::Standard => io::stdin().take(MOST + 1).read_to_end(&mut bytes),
            Place::File(path) => {
                File::open(path).and_then(|file| file.take(MOST + 1).read_to_end(&mut bytes))
            }
        };
        read.map_err(|error| Failure::file(self, error))?;
        if bytes.len() as u64 > MOST {
            return Err(Failure::Wrong(format!(
                "{self}: over {MOST} bytes, too long for a sheet or a table"
            )));
        }
        Ok(bytes)
    }

    pub fn write(&self, bytes: &[u8]) -> Result<(), Failure> {
        match self {
            Place::Standard => put(bytes),
            Place::File(path) => save(path, bytes).map_err(|error| Failure::file(self, error)),
        }
    }

    /// Writing here would be the end of the file `read`. A terminal or another device may be both.
    pub fn overwrites(&self, read: &Place) -> bool {
        let (Place::File(to), Place::File(from)) = (self, read) else {
            return false;
        };
        let real = |path: &Path| path.canonicalize().unwrap_or_else(|_| path.into());
        real(to) == real(from) && (from.is_file() || !from.exists())
    }

    pub fn is_standard(&self) -> bool {
        matches!(self, Place::Standard)
    }
}

fn save(path: &Path, bytes: &[u8]) -> io::Result<()> {
    match replaceable(path) {
        Some(file) => replace(&file, bytes),
        None => fs::write(path, bytes),
    }
}

/// The plain file of this name, behind its links if it has any, or a name that is free. None of what is written directly: devices, pipes, links
/// to nowhere, and names like /dev/stdout, whose file others go on writing.
fn replaceable(path: &Path) -> Option<PathBuf> {
    if path.starts_with("/dev") || path.starts_with("/proc") {
        return None;
    }
    match path.canonicalize() {
        Ok(real) => real.is_file().then_some(real),
        Err(_) => (!path.is_symlink()).then(|| path.into()),
    }
}

/// The old file stays until the new one is whole: a full disk must not take both.
fn replace(file: &Path, bytes: &[u8]) -> io::Result<()> {
    let fresh = file.with_file_name(passing_name());
    let written = write_fresh(&fresh, file, bytes).and_then(|()| fs::rename(&fresh, file));
    if written.is_err() {
        let _ = fs::remove_file(&fresh);
    }
    written
}

/// For the time of writing: nobody else's name, and short, so that it fits wherever another does.
fn passing_name() -> String {
    let now = SystemTime::now().duration_since(UNIX_EPOCH);
    let nanos = now.map_or(0, |time| time.as_nanos());
    format!(".canal-{}-{nanos}.tmp", process::id())
}

/// Of a file, if it is there. One that may not be written is not to be replaced either, so it is opened for that.
fn permissions_of(old: &Path) -> io::Result<Option<Permissions>> {
    if !old.exists() {
        return Ok(None);
    }
    let old = File::options().write(true).open(old)?;
    Ok(Some(old.metadata()?.permissions()))
}

/// Writes `fresh` with the permissions of `old`.
fn write_fresh(fresh: &Path, old: &Path, bytes: &[u8]) -> io::Result<()> {
    let permissions = permissions_of(old)?;
    let mut file = File::create_new(fresh)?;
    if let Some(permissions) = permissions {
        file.set_permissions(permissions)?;
    }
    file.write_all(bytes)?;
    // some disks tell that they are full only here
    file.sync_all()
}

/// To standard output.
pub fn say(words: &str) -> Result<(), Failure> {
    put(words.as_bytes())
}

fn put(bytes: &[u8]) -> Result<(), Failure> {
    let mut out = io::stdout().lock();
    let put = out.write_all(bytes).and_then(|()| out.flush());
    put.map_err(|error| match error.kind() {
        io::ErrorKind::BrokenPipe => Failure::Closed,
        _ => Failure::file("standard output", error),
    })
}

//! A file written whole or not at all: under a temporary name beside it, then renamed.
//!
//! It is begun before anything is judged, so that a folder that is missing or closed is told at once. What was begun and
//! not finished is removed, by whichever way the program ends.

use crate::files::{reason, shown};
use std::fs::{self, File, OpenOptions};
use std::io::{self, Write};
use std::os::fd::AsFd;
use std::os::unix::fs::MetadataExt;
use std::path::{Path, PathBuf};
use std::process;
use std::sync::atomic::{AtomicUsize, Ordering};
use std::sync::{Mutex, MutexGuard, PoisonError};

/// The temporary files that are there now.
static BEGUN: Mutex<Vec<PathBuf>> = Mutex::new(Vec::new());

/// Numbers the temporary names of this process.
static COUNT: AtomicUsize = AtomicUsize::new(0);

/// A file that is to be written. Dropped unfinished, it leaves what was there before.
#[derive(Debug)]
pub struct Begun {
    /// The name that messages have.
    name: String,
    place: Place,
}

#[derive(Debug)]
enum Place {
    /// Written beside `target` and then renamed to it.
    Beside {
        target: PathBuf,
        temporary: PathBuf,
        file: File,
    },
    /// A device or a pipe, which cannot be replaced: it is written as it is.
    Stream(File),
}

impl Begun {
    /// Begins a file. The message of an error says why that cannot be.
    pub fn at(path: &Path) -> Result<Begun, String> {
        let name = shown(path.as_os_str());
        place_of(path)
            .map(|place| Begun {
                name: name.clone(),
                place,
            })
            .map_err(|error| cannot_write(&name, &error))
    }

    /// Writes all of the file, and gives it its name.
    pub fn finish(mut self, content: &[u8]) -> Result<(), String> {
        self.place
            .write(content)
            .map_err(|error| cannot_write(&self.name, &error))
    }

    /// The name that messages have.
    pub fn name(&self) -> &str {
        &self.name
    }
}

impl Place {
    fn write(&mut self, content: &[u8]) -> io::Result<()> {
        match self {
            Place::Stream(file) => file.write_all(content),
            Place::Beside {
                target,
                temporary,
                file,
            } => {
                file.write_all(content)?;
                file.sync_all()?;
                fs::rename(temporary, target)
            }
        }
    }
}

impl Drop for Place {
    fn drop(&mut self) {
        if let Place::Beside { temporary, .. } = self {
            // After a rename there is nothing of that name.
            let _ = fs::remove_file(&*temporary);
            begun().retain(|path| path != temporary);
        }
    }
}

/// Where a path is written. A link is followed: what it points to is replaced, and not the link.
fn place_of(path: &Path) -> io::Result<Place> {
    let there = match fs::metadata(path) {
        Ok(there) => there,
        Err(error) if error.kind() == io::ErrorKind::NotFound => return beside(path, None),
        Err(error) => return Err(error),
    };
    if there.is_dir() {
        return Err(io::ErrorKind::IsADirectory.into());
    }
    if !there.is_file() {
        return OpenOptions::new().write(true).open(path).map(Place::Stream);
    }
    if is_printed_to(&there) {
        return Err(io::Error::other("it is what this program prints to"));
    }
    // A file that may not be written must not be replaced either.
    OpenOptions::new().write(true).open(path)?;
    beside(&path.canonicalize()?, Some(there.permissions()))
}

/// Whether a file is standard output or standard error (`/dev/stdout` may lead to one): replaced, it would lose what is printed.
fn is_printed_to(there: &fs::Metadata) -> bool {
    let streams = [
        io::stdout().as_fd().try_clone_to_owned(),
        io::stderr().as_fd().try_clone_to_owned(),
    ];
    let same = |file: File| {
        file.metadata()
            .is_ok_and(|printed| (printed.dev(), printed.ino()) == (there.dev(), there.ino()))
    };
    streams.into_iter().flatten().map(File::from).any(same)
}

/// A temporary file in the folder of the target, with the permissions of what it replaces.
fn beside(target: &Path, permissions: Option<fs::Permissions>) -> io::Result<Place> {
    let Some(name) = target.file_name() else {
        return Err(io::ErrorKind::IsADirectory.into());
    };
    let count = COUNT.fetch_add(1, Ordering::Relaxed);
    let mut hidden = std::ffi::OsString::from(".");
    hidden.push(name);
    hidden.push(format!(".{}-{count}", process::id()));
    let temporary = target.with_file_name(hidden);
    // Held until it is noted: what ends the program must not miss it.
    let mut begun = begun();
    let file = OpenOptions::new()
        .write(true)
        .create_new(true)
        .open(&temporary)?;
    begun.push(temporary.clone());
    drop(begun);
    let place = Place::Beside {
        target: target.to_owned(),
        temporary,
        file,
    };
    if let (Place::Beside { file, .. }, Some(permissions)) = (&place, permissions) {
        file.set_permissions(permissions)?;
    }
    Ok(place)
}

/// Removes every temporary file, and lets none be begun or forgotten until `then` has ended the program.
pub fn remove_all_and(then: impl FnOnce()) {
    let begun = begun();
    for temporary in begun.iter() {
        let _ = fs::remove_file(temporary);
    }
    then();
}

/// A thread that failed while it held the list left it whole.
fn begun() -> MutexGuard<'static, Vec<PathBuf>> {
    BEGUN.lock().unwrap_or_else(PoisonError::into_inner)
}

fn cannot_write(name: &str, error: &io::Error) -> String {
    let why = match error.kind() {
        io::ErrorKind::NotFound => "its folder is not there".into(),
        _ => reason(error),
    };
    format!(
        "cannot write '{name}': {why}; name a file in a folder that is there and may be written"
    )
}

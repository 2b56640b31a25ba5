//! Files read as far as a netlist or an order can need them, and names as they are shown.

use crate::escaping::visible;
use std::ffi::OsStr;
use std::fs::File;
use std::io::{self, ErrorKind, Read};
use std::path::Path;

/// No file is read further. The longest netlist text has some 16,000 bytes, so what stands behind this many changes no
/// refusal: the reader stops before it.
pub const BYTES_MOST: usize = 4 << 20;

/// What a file has.
#[derive(Clone, Debug, PartialEq, Eq)]
pub struct Content {
    /// The first `BYTES_MOST` bytes.
    pub bytes: Vec<u8>,
    /// The size of the whole file as far as it is known; of a stream that goes on, the bytes read.
    pub size: u64,
    /// Whether `bytes` has all of it.
    pub is_whole: bool,
}

/// Reads a file; `-` is standard input. The message of an error has the file's name and what is wrong with it.
pub fn read(name: &OsStr) -> Result<Content, String> {
    let content = if name == "-" {
        content_of(&mut io::stdin().lock(), 0)
    } else {
        File::open(Path::new(name)).and_then(|mut file| {
            let size = file.metadata()?.len();
            content_of(&mut file, size)
        })
    };
    content.map_err(|error| format!("cannot read '{}': {}", shown(name), reason(&error)))
}

/// What a source has whose size is said to be this.
fn content_of(source: &mut dyn Read, size: u64) -> io::Result<Content> {
    let mut bytes = Vec::new();
    source.take(BYTES_MOST as u64 + 1).read_to_end(&mut bytes)?;
    let is_whole = bytes.len() <= BYTES_MOST;
    let read = bytes.len() as u64;
    bytes.truncate(BYTES_MOST);
    Ok(Content {
        bytes,
        size: if is_whole { read } else { size.max(read) },
        is_whole,
    })
}

/// What went wrong with a file, in plain words where there are some.
pub fn reason(error: &io::Error) -> String {
    match error.kind() {
        ErrorKind::NotFound => "there is no such file or folder".into(),
        ErrorKind::IsADirectory => "it is a folder".into(),
        ErrorKind::PermissionDenied => "there is no permission for that".into(),
        _ => error.to_string(),
    }
}

/// A name or word on one line: characters that are not seen are shown as their numbers, bytes that are no text as marks. A long
/// one is cut.
pub fn shown(name: &OsStr) -> String {
    const LONGEST: usize = 4096;
    let text: String = name.to_string_lossy().chars().take(LONGEST).collect();
    visible(&text)
}

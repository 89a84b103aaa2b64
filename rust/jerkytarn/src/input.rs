//! Where a job text comes from: a file, or standard input.

use crate::fault::Fault;
use crate::visible::visible_path;
use layerplan::TEXT_MOST;
use std::ffi::OsStr;
use std::fs::File;
use std::io::{self, Read};
use std::path::{Path, PathBuf};

/// A source of a job text.
#[derive(Clone, PartialEq, Eq, Debug)]
pub enum Source {
    Standard,
    File(PathBuf),
}

impl Source {
    /// `-` is standard input, anything else a file.
    pub fn new(argument: &OsStr) -> Source {
        match argument.to_str() {
            Some("-") => Source::Standard,
            _ => Source::File(PathBuf::from(argument)),
        }
    }

    pub fn path(&self) -> Option<&Path> {
        match self {
            Source::Standard => None,
            Source::File(path) => Some(path),
        }
    }

    /// The name for messages.
    pub fn name(&self) -> String {
        match self {
            Source::Standard => "standard input".into(),
            Source::File(path) => visible_path(path),
        }
    }

    /// The text. Of one above the limit only the first byte too many is read, so that the library refuses it.
    pub fn read(&self) -> Result<Vec<u8>, Fault> {
        let read = match self {
            Source::Standard => read_limited(io::stdin().lock()),
            Source::File(path) => open(path).and_then(read_limited),
        };
        read.map_err(|fault| Fault::of(&self.name(), &fault))
    }
}

/// Opens a file; a folder is refused here, where the system would first refuse to read it.
fn open(path: &Path) -> io::Result<File> {
    let file = File::open(path)?;
    match file.metadata()?.is_dir() {
        true => Err(io::ErrorKind::IsADirectory.into()),
        false => Ok(file),
    }
}

fn read_limited(from: impl Read) -> io::Result<Vec<u8>> {
    let mut text = Vec::new();
    from.take(TEXT_MOST as u64 + 1).read_to_end(&mut text)?;
    Ok(text)
}

#[cfg(test)]
mod tests {
    use super::*;

    #[test]
    fn an_endless_text_is_read_to_one_byte_above_the_limit() {
        assert_eq!(read_limited(io::repeat(b'x')).unwrap().len(), TEXT_MOST + 1);
    }

    #[test]
    fn a_folder_is_no_file() {
        let fault = Source::new(OsStr::new(env!("CARGO_MANIFEST_DIR"))).read().unwrap_err();
        assert!(fault.to_string().ends_with("is a folder, not a file"), "{fault}");
    }
}

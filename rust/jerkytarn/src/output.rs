//! Writing results: to standard output, or to a file that is whole or not there at all.

use crate::fault::Fault;
use crate::visible::visible_path;
use std::ffi::{OsStr, OsString};
use std::fs::{self, File, OpenOptions};
use std::io::{self, Write};
use std::os::unix::ffi::OsStrExt;
use std::path::{Path, PathBuf};
use std::sync::atomic::{AtomicU32, Ordering};

/// How the names end of files that are being written.
const UNFINISHED: &str = ".part";

/// Writes to standard output, to the last byte.
pub fn write_standard(bytes: &[u8]) -> Result<(), Fault> {
    let mut out = io::stdout().lock();
    let written = out.write_all(bytes).and_then(|()| out.flush());
    written.map_err(|fault| Fault::of("standard output", &fault))
}

/// Writes a message to standard error. Where that cannot be written either, nobody is left to be told.
pub fn say(message: &str) {
    let _ = io::stderr().lock().write_all(message.as_bytes());
}

/// Writes a file: beside it first, then renamed, so that under its name there is never a part of it. What is there
/// already and is no file, a device or a pipe, is written as it stands.
pub fn write_file(path: &Path, bytes: &[u8]) -> Result<(), Fault> {
    write_whole(path, bytes).map_err(|fault| Fault::of(&visible_path(path), &fault))
}

fn write_whole(path: &Path, bytes: &[u8]) -> io::Result<()> {
    match fs::metadata(path) {
        Ok(there) if there.is_dir() => Err(io::ErrorKind::IsADirectory.into()),
        // a link stays a link: what it points to is replaced
        Ok(there) if there.is_file() => write_beside(&fs::canonicalize(path)?, bytes, Some(there.permissions())),
        Ok(_) => OpenOptions::new().write(true).open(path)?.write_all(bytes),
        Err(_) => write_beside(path, bytes, None),
    }
}

fn write_beside(path: &Path, bytes: &[u8], permissions: Option<fs::Permissions>) -> io::Result<()> {
    let name = path.file_name().ok_or(io::ErrorKind::InvalidInput)?;
    let beside = path.with_file_name(unfinished_name(name));
    let written = write_new(&beside, bytes, permissions).and_then(|()| fs::rename(&beside, path));
    if written.is_err() {
        let _ = fs::remove_file(&beside);
    }
    written
}

/// Some file systems tell of a full disk only when the bytes are on it, so that is waited for.
fn write_new(path: &Path, bytes: &[u8], permissions: Option<fs::Permissions>) -> io::Result<()> {
    let mut file = File::options().write(true).create_new(true).open(path)?;
    if let Some(permissions) = permissions {
        file.set_permissions(permissions)?;
    }
    file.write_all(bytes)?;
    file.sync_all()
}

/// A name that no other file has: hidden, with the number of this process and one that counts on.
fn unfinished_name(name: &OsStr) -> OsString {
    static COUNT: AtomicU32 = AtomicU32::new(0);
    let mut beside = OsString::from(".");
    beside.push(name);
    beside.push(format!(".{}-{}{UNFINISHED}", std::process::id(), COUNT.fetch_add(1, Ordering::Relaxed)));
    beside
}

/// The name of the file that an unfinished one would have become.
fn finished_name(unfinished: &OsStr) -> Option<&OsStr> {
    let name = unfinished.as_bytes().strip_prefix(b".")?.strip_suffix(UNFINISHED.as_bytes())?;
    let dot = name.iter().rposition(|byte| *byte == b'.')?;
    let numbers = name[dot + 1..].iter().all(|byte| byte.is_ascii_digit() || *byte == b'-');
    (dot > 0 && numbers).then(|| OsStr::from_bytes(&name[..dot]))
}

/// Removes what a killed run left of files whose names are wanted.
pub fn remove_unfinished(folder: &Path, wanted: impl Fn(&OsStr) -> bool) -> Result<(), Fault> {
    let of_folder = |fault: io::Error| Fault::of(&visible_path(folder), &fault);
    for entry in fs::read_dir(folder).map_err(of_folder)? {
        let entry = entry.map_err(of_folder)?;
        if finished_name(&entry.file_name()).is_some_and(&wanted) {
            fs::remove_file(entry.path()).map_err(|fault| Fault::of(&visible_path(&entry.path()), &fault))?;
        }
    }
    Ok(())
}

/// Whether both paths lead to the same file.
pub fn same_file(one: &Path, other: &Path) -> bool {
    let whole = |path: &Path| -> Option<PathBuf> { fs::canonicalize(path).ok() };
    whole(one).is_some_and(|path| whole(other) == Some(path))
}

#[cfg(test)]
mod tests {
    use super::*;

    fn folder(name: &str) -> PathBuf {
        let folder = std::env::temp_dir().join(format!("jerkytarn-output-{}-{name}", std::process::id()));
        fs::create_dir_all(&folder).unwrap();
        folder
    }

    #[test]
    fn a_file_is_replaced_and_nothing_else_is_left() {
        let folder = folder("replace");
        let (file, link) = (folder.join("a.plan"), folder.join("link"));
        write_file(&file, b"one").unwrap();
        std::os::unix::fs::symlink(&file, &link).unwrap();
        write_file(&link, b"two").unwrap();
        assert_eq!(fs::read(&file).unwrap(), b"two");
        assert!(fs::symlink_metadata(&link).unwrap().is_symlink());
        assert_eq!(fs::read_dir(&folder).unwrap().count(), 2);
        assert!(same_file(&file, &link) && !same_file(&file, &folder.join("none")));
        fs::remove_dir_all(folder).unwrap();
    }

    #[test]
    fn faults_are_told_with_the_name() {
        let folder = folder("faults");
        let told = |path: &Path| write_file(path, b"x").unwrap_err().to_string();
        assert!(told(&folder).ends_with("is a folder, not a file"));
        assert!(told(&folder.join("none/a")).ends_with("there is no such file or folder"));
        assert!(told(Path::new("/dev/full")).starts_with("/dev/full: no space left"));
        fs::remove_dir_all(folder).unwrap();
    }

    #[test]
    fn unfinished_files_are_known_by_their_names() {
        let name = unfinished_name(OsStr::new("a.b.plan"));
        assert_eq!(finished_name(&name), Some(OsStr::new("a.b.plan")));
        for other in ["a.plan", ".a.plan", ".part", "..part", ".x.part", ".a.plan.12x.part"] {
            assert_eq!(finished_name(OsStr::new(other)), None, "{other}");
        }
        let folder = folder("unfinished");
        for name in [&name, &unfinished_name(OsStr::new("other")), &OsString::from("a.b.plan")] {
            fs::write(folder.join(name), b"").unwrap();
        }
        remove_unfinished(&folder, |name| name == "a.b.plan").unwrap();
        assert!(!folder.join(&name).exists());
        assert_eq!(fs::read_dir(&folder).unwrap().count(), 2);
        fs::remove_dir_all(folder).unwrap();
    }
}

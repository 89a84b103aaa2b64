//! What goes wrong outside a job: a file that cannot be read or written, wrong usage. It ends the command with status 2.

use std::fmt;
use std::io;

/// A message for a person, without the name of the program.
#[derive(Clone, PartialEq, Eq, Debug)]
pub struct Fault(String);

impl Fault {
    pub fn new(message: impl Into<String>) -> Fault {
        Fault(message.into())
    }

    /// A fault of reading or writing what `name` names.
    pub fn of(name: &str, fault: &io::Error) -> Fault {
        Fault(format!("{name}: {}", in_words(fault)))
    }
}

impl fmt::Display for Fault {
    fn fmt(&self, out: &mut fmt::Formatter) -> fmt::Result {
        out.write_str(&self.0)
    }
}

impl std::error::Error for Fault {}

/// The faults that people meet, in words of their own; the system's words for the others.
fn in_words(fault: &io::Error) -> String {
    match fault.kind() {
        io::ErrorKind::NotFound => "there is no such file or folder".into(),
        io::ErrorKind::PermissionDenied => "not permitted".into(),
        io::ErrorKind::BrokenPipe => "closed by its reader before all was written".into(),
        io::ErrorKind::StorageFull => "no space left on the disk; nothing was kept".into(),
        io::ErrorKind::IsADirectory => "is a folder, not a file".into(),
        io::ErrorKind::NotADirectory => "leads through something that is no folder".into(),
        io::ErrorKind::AlreadyExists => "is there already and is no folder".into(),
        _ => fault.to_string(),
    }
}

//! Bytes of a text or of a file's name as a person sees them: printable ASCII as it is, every other byte as an escape,
//! so that nothing that stands in a job reaches the terminal as a command.

use std::os::unix::ffi::OsStrExt;
use std::path::Path;

/// One byte as printable ASCII.
fn push(out: &mut String, byte: u8) {
    match byte {
        b'\\' => out.push_str("\\\\"),
        b' '..=b'~' => out.push(byte as char),
        b'\r' => out.push_str("\\r"),
        b'\t' => out.push_str("\\t"),
        b'\n' => out.push_str("\\n"),
        0 => out.push_str("\\0"),
        _ => out.push_str(&format!("\\x{byte:02x}")),
    }
}

/// These bytes as printable ASCII.
pub fn visible(bytes: &[u8]) -> String {
    let mut out = String::new();
    bytes.iter().for_each(|byte| push(&mut out, *byte));
    out
}

/// At most `most` characters of them, and whether something is left out told by three dots.
pub fn shortened(bytes: &[u8], most: usize) -> String {
    let mut out = String::new();
    for byte in bytes {
        let before = out.len();
        push(&mut out, *byte);
        if out.len() > most {
            out.truncate(before);
            out.push_str("...");
            break;
        }
    }
    out
}

/// The name of a file for messages: as it is where it has only printable characters, else as escaped bytes.
pub fn visible_path(path: &Path) -> String {
    match path.to_str() {
        Some(name) if !name.chars().any(char::is_control) => name.to_string(),
        _ => visible(path.as_os_str().as_bytes()),
    }
}

#[cfg(test)]
mod tests {
    use super::*;

    #[test]
    fn control_bytes_and_others_are_escaped() {
        assert_eq!(visible(b"a=\x1b[31m\r\t\0\xff\\"), "a=\\x1b[31m\\r\\t\\0\\xff\\\\");
    }

    #[test]
    fn long_texts_are_shortened_between_bytes() {
        assert_eq!(shortened(b"abcdef", 6), "abcdef");
        assert_eq!(shortened(b"abcdefg", 6), "abcdef...");
        assert_eq!(shortened(b"abc\xff\xff", 6), "abc...");
    }
}

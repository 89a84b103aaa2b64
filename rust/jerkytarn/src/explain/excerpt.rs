//! A line of a text as it is shown under a message: shortened around the place at fault, which is marked below.

use crate::visible::visible;
use std::ops::Range;

/// The most characters of a line that are shown.
const WIDTH: usize = 88;

/// Characters that are shown before the place at fault.
const BEFORE: usize = 30;

/// The line and the marks under it; `at` are the bytes at fault.
pub struct Excerpt {
    pub line: String,
    pub marks: Option<String>,
}

pub fn excerpt(line: &[u8], at: Option<Range<usize>>) -> Excerpt {
    let Some(at) = at else {
        return Excerpt { line: cut(&visible(line), 0, WIDTH).0, marks: None };
    };
    let (start, end) = (at.start.min(line.len()), at.end.min(line.len()));
    // every byte is shown as ASCII, so that characters count as columns
    let first = visible(&line[..start]).len();
    let width = visible(&line[start..end]).len().max(1);
    let whole = visible(line);
    let from = if whole.len() <= WIDTH { 0 } else { first.saturating_sub(BEFORE) };
    let (text, shift) = cut(&whole, from, WIDTH);
    let marked = width.min((WIDTH + from).saturating_sub(first).max(1));
    let marks = " ".repeat(first - from + shift) + &"^".repeat(marked);
    Excerpt { line: text, marks: Some(marks) }
}

/// A part of the text with dots for what is left out, and by how much the dots before it move it.
fn cut(text: &str, from: usize, width: usize) -> (String, usize) {
    let end = (from + width).min(text.len());
    let before = if from > 0 { "..." } else { "" };
    let after = if end < text.len() { "..." } else { "" };
    (format!("{before}{}{after}", &text[from..end]), before.len())
}

#[cfg(test)]
mod tests {
    use super::*;

    /// What stands above the marks.
    fn marked(line: &[u8], at: Range<usize>) -> String {
        let Excerpt { line, marks } = excerpt(line, Some(at));
        let marks = marks.unwrap();
        let first = marks.find('^').unwrap();
        line[first..marks.len().min(line.len())].to_string()
    }

    #[test]
    fn marks_stand_under_the_entry() {
        assert_eq!(marked(b"pins=0,0,1;2,0,1", 11..16), "2,0,1");
        assert_eq!(marked(b"a\r\tb", 3..4), "b");
        let long = [b"edges=".as_slice(), &b"1,1,e;".repeat(400), b"9,9,n", &b";1,1,e".repeat(400)].concat();
        let start = 6 + 6 * 400;
        assert_eq!(marked(&long, start..start + 5), "9,9,n");
        assert!(excerpt(&long, Some(start..start + 5)).line.len() <= WIDTH + 6);
    }

    #[test]
    fn marks_at_the_end_and_of_long_entries() {
        assert_eq!(excerpt(b"nets=", Some(5..5)).marks.unwrap(), "     ^");
        let marks = excerpt(&[b'x'; 500], Some(0..500)).marks.unwrap();
        assert_eq!(marks.len(), WIDTH);
        assert_eq!(excerpt(b"", None).line, "");
        assert_eq!(excerpt(&[b'x'; 500], None).line.len(), WIDTH + 3);
        assert!(excerpt(b"short", Some(70..90)).marks.unwrap().ends_with('^'));
    }
}

//! Draws a planned block: a page to look through, or a picture for a document.

mod colour;
mod html;
mod svg;

use crate::fault::Fault;
use crate::figures::Block;
use crate::visible::visible_path;
use std::path::Path;

/// What is drawn.
#[derive(Clone, Copy, PartialEq, Eq, Debug)]
pub enum Format {
    Html,
    Svg,
}

impl Format {
    /// By the ending of the file's name.
    pub fn of(path: &Path) -> Result<Format, Fault> {
        let ending = path.extension().map(|ending| ending.to_ascii_lowercase());
        match ending.as_deref().and_then(|ending| ending.to_str()) {
            Some("html" | "htm") => Ok(Format::Html),
            Some("svg") => Ok(Format::Svg),
            _ => Err(Fault::new(format!("{}: a drawing ends in .html or .svg", visible_path(path)))),
        }
    }
}

/// The drawing as a text. `name` is the block's.
pub fn draw(format: Format, name: &str, block: &Block) -> String {
    match format {
        Format::Html => html::page(name, block),
        Format::Svg => svg::picture(name, block),
    }
}

/// A text inside of HTML or SVG.
fn escaped(text: &str) -> String {
    let mut out = String::new();
    for letter in text.chars() {
        match letter {
            '&' => out.push_str("&amp;"),
            '<' => out.push_str("&lt;"),
            '>' => out.push_str("&gt;"),
            '"' => out.push_str("&quot;"),
            '\'' => out.push_str("&#39;"),
            _ => out.push(letter),
        }
    }
    out
}

#[cfg(test)]
mod tests {
    use super::*;
    use crate::planner::Planner;

    fn block(text: &[u8]) -> Block {
        crate::figures::plan(&mut Planner::new(), text).unwrap().unwrap()
    }

    const EXAMPLE: &[u8] = include_bytes!("../../../examples/three-tiles.job");
    const ONE_TILE: &[u8] =
        b"width=1\nheight=1\nlayers=2\nalpha=0\nbeta=0\ngamma=0\neast=\nnorth=\neast=\nnorth=\nnets=0\n";

    #[test]
    fn formats_by_ending() {
        assert_eq!(Format::of(Path::new("a/b.html")).unwrap(), Format::Html);
        assert_eq!(Format::of(Path::new("B.SVG")).unwrap(), Format::Svg);
        assert!(Format::of(Path::new("svg")).is_err() && Format::of(Path::new("a.png")).is_err());
    }

    #[test]
    fn names_cannot_break_out() {
        let name = "</script><script>alert('\"&')</script>.job";
        for format in [Format::Html, Format::Svg] {
            let text = draw(format, name, &block(EXAMPLE));
            assert!(!text.contains("<script>alert"), "{format:?}");
        }
    }

    #[test]
    fn nothing_comes_from_elsewhere() {
        for format in [Format::Html, Format::Svg] {
            for text in [EXAMPLE, ONE_TILE] {
                let drawn = draw(format, "a", &block(text));
                let drawn = drawn.replace("http://www.w3.org/2000/svg", "").replace("http-equiv", "");
                assert!(!drawn.contains("http") && !drawn.contains("url(") && !drawn.contains("@import"), "{format:?}");
                assert!(!drawn.contains("NaN") && !drawn.contains("{{"), "{format:?}");
            }
        }
    }
}

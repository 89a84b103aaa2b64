//! Colours and classes of edges by the share of their tracks that is used; one place for page and picture.

use std::fmt::Write;

/// The classes: no track used, then by tenths up to all of them.
pub const CLASSES: usize = 11;

/// A light and a dark set of colours: paper, text, faint text, lines, overflow, the marks on it, vias, then the classes.
struct Theme {
    paper: &'static str,
    ink: &'static str,
    faint: &'static str,
    line: &'static str,
    over: &'static str,
    mark: &'static str,
    via: &'static str,
    used: [&'static str; CLASSES],
}

const LIGHT: Theme = Theme {
    paper: "#ffffff",
    ink: "#1b2430",
    faint: "#5b6775",
    line: "#d5dbe3",
    over: "#d9480f",
    mark: "#ffffff",
    via: "#5b3fa6",
    used: [
        "#e6eaf0", "#d3e3f3", "#bcd6ee", "#a2c7e8", "#85b5e0", "#67a1d6", "#4c8cca", "#3576ba", "#2360a5", "#164a8a",
        "#0b326b",
    ],
};

const DARK: Theme = Theme {
    paper: "#12161c",
    ink: "#e8edf3",
    faint: "#98a5b5",
    line: "#2d3743",
    over: "#ff7b3d",
    mark: "#12161c",
    via: "#b49cf5",
    used: [
        "#232b35", "#1d3a55", "#1f4769", "#22557e", "#286493", "#3274a8", "#4286bb", "#5a9acd", "#7ab0dd", "#a0c8eb",
        "#d0e6fa",
    ],
};

impl Theme {
    /// As variables of a style sheet.
    fn variables(&self) -> String {
        let Theme { paper, ink, faint, line, over, mark, via, used } = self;
        let mut out = format!(
            "--paper:{paper};--ink:{ink};--faint:{faint};--line:{line};--over:{over};--mark:{mark};--via:{via};"
        );
        for (class, colour) in used.iter().enumerate() {
            let _ = write!(out, "--u{class}:{colour};");
        }
        out
    }
}

/// Both themes as a style sheet: the reader's choice, which `data-theme` on the root overrules; paper is always light.
pub fn style() -> String {
    let (light, dark) = (LIGHT.variables(), DARK.variables());
    format!(
        ":root{{color-scheme:light;{light}}}\n\
         @media (prefers-color-scheme:dark){{:root:not([data-theme=light]){{color-scheme:dark;{dark}}}}}\n\
         :root[data-theme=dark]{{color-scheme:dark;{dark}}}\n\
         @media print{{:root:root:root{{color-scheme:light;{light}}}}}\n"
    )
}

/// The colour of dropped edges, by the same rules; only a block that has some needs it.
pub fn dropped_style() -> String {
    let (light, dark) = ("--dropped:#8a6d00", "--dropped:#e5c453");
    format!(
        ":root{{{light}}}\n\
         @media (prefers-color-scheme:dark){{:root:not([data-theme=light]){{{dark}}}}}\n\
         :root[data-theme=dark]{{{dark}}}\n\
         @media print{{:root:root:root{{{light}}}}}\n"
    )
}

/// How an edge is drawn.
#[derive(Clone, Copy, PartialEq, Eq, Debug)]
pub enum Class {
    /// Neither tracks nor nets: left out.
    Absent,
    /// 0: no track is used; 1 to 10: up to so many tenths.
    Used(usize),
    /// More nets than tracks.
    Over,
}

pub fn class(used: usize, capacity: usize) -> Class {
    match (used, capacity) {
        (0, 0) => Class::Absent,
        _ if used > capacity => Class::Over,
        _ => Class::Used((10 * used).div_ceil(capacity)),
    }
}

#[cfg(test)]
mod tests {
    use super::*;

    #[test]
    fn classes_by_tenths() {
        assert_eq!(class(0, 0), Class::Absent);
        assert_eq!(class(1, 0), Class::Over);
        assert_eq!(class(0, 3), Class::Used(0));
        assert_eq!(class(1, 65_535), Class::Used(1));
        assert_eq!(class(65_534, 65_535), Class::Used(10));
        assert_eq!(class(3, 3), Class::Used(10));
        assert_eq!(class(4, 3), Class::Over);
    }
}

//! The table of refusals: one row for each number, with all that is said of it in general, and the function that looks for
//! the fault in a text. A refusal that the library gains is a row more here.

use super::find::{self, Case, Finding};
use super::form::form;

/// What is known of a refusal before any text is read.
#[derive(Debug)]
pub struct Rule {
    pub number: u32,
    /// In a few words.
    pub title: &'static str,
    /// The line that it names.
    pub line: &'static str,
    pub meaning: &'static str,
    /// Its place in the order of faults.
    pub order: &'static str,
    pub advice: &'static str,
    pub example: Example,
    /// What is wrong with a text that got it; nothing where that cannot be told.
    pub find: fn(&Case) -> Option<Finding>,
}

/// A job that is refused so.
#[derive(Debug)]
pub struct Example {
    /// What is wrong with it.
    pub caption: &'static str,
    /// The text; none where it would be too long to show.
    pub text: Option<&'static str>,
    /// What `--lend` takes, where less than enough is lent.
    pub lend: Option<&'static str>,
    /// The line that is refused.
    pub line: u32,
}

/// How the order of faults goes, whatever the number.
pub const ORDER: &str = "A text that is too long is refused before any line is read (1). Then the lines are read from \
    the first to the last, and the first line with a fault decides; on one line the lower number wins. 9 is found right \
    after the `layers` line, or after the `dirs` line where the job has one, 10 right after the `nets` line, 11 after the \
    whole text.";

/// An example with a text and enough storage.
const fn shown(caption: &'static str, text: &'static str, line: u32) -> Example {
    Example { caption, text: Some(text), lend: None, line }
}

/// An example that is only refused where less is lent.
const fn lent(caption: &'static str, lend: &'static str, line: u32) -> Example {
    Example { caption, text: Some(include_str!("examples/whole.job")), lend: Some(lend), line }
}

/// A number that no text gets any more.
pub struct Ended {
    pub number: u32,
    pub title: &'static str,
    pub meaning: &'static str,
}

pub const ENDED: [Ended; 1] = [Ended {
    number: 7,
    title: "rings: it no longer occurs",
    meaning: "The edges of a net may contain rings. They are cut: going along the `edges` line, an edge that closes a ring \
        with kept earlier ones is dropped, and what then hangs loose without a pin is dropped too. A dropped edge has layer 0 \
        in the plan and uses no track. `jerkytarn report` tells which nets lost edges.",
}];

/// The highest number of all.
pub const LAST: u32 = 13;

pub const RULES: [Rule; 12] = [
    Rule {
        number: 1,
        title: "the text is too long",
        line: "0: no line was read",
        meaning: "A job text has at most 1,048,576 bytes. This one has more, and nothing else was looked at.",
        order: "It comes before all others, whatever the bytes are.",
        advice: "Cut the block into smaller blocks, or look whether the file is a job text at all.",
        example: Example { caption: "A text of 1,048,577 bytes.", text: None, lend: None, line: 0 },
        find: |_| Some(find::too_long()),
    },
    Rule {
        number: 2,
        title: "a line is not of its form",
        line: "the line; a missing line has the number that it would have had",
        meaning:
            "The line has another key than the one whose turn it is, its value is not written as such a value is, \
            its list is too long or too short, the line is missing, or there is text after the last line.",
        order: "On a line it comes before all others: the form of the whole line is judged before any number on it.",
        advice: "Write the line as key, `=`, value, without spaces, ended by one line feed.",
        example: shown("A space after the semicolon on line 13.", include_str!("examples/2.job"), 13),
        find: |case| Some(form(&case.site()?)),
    },
    Rule {
        number: 3,
        title: "a number is outside its range, or an edge leaves the grid",
        line: "the line",
        meaning: "The line is well formed, but a number on it is too small or too large for what it stands for, or an \
            edge has an end outside the grid.",
        order: "On a line it comes after 2 and before 4 to 8, 12 and 13.",
        advice: "Correct the number, or the size of the grid or of the stack that it should fit.",
        example: shown("On line 16 a pin on layer 3 of a stack of two.", include_str!("examples/3.job"), 16),
        find: |case| find::range(&case.site()?),
    },
    Rule {
        number: 4,
        title: "a net number is out of turn",
        line: "the `net` line",
        meaning: "Nets are numbered 1, 2, 3 and so on, in the order in which they stand in the text.",
        order: "It is the only fault of a `net` line after 2: any well-formed number but the one in turn gives it.",
        advice: "Number the nets in their order, or put back the net that is missing.",
        example: shown("Line 15 has net 3 where net 2 is in turn.", include_str!("examples/4.job"), 15),
        find: |case| find::turn(&case.site()?),
    },
    Rule {
        number: 5,
        title: "the same pin twice",
        line: "the `pins` line",
        meaning: "A tile and a layer stand twice on the line. Pins of a net on several layers of one tile are fine.",
        order: "On a `pins` line it comes after 2 and 3.",
        advice: "Take one of the two out.",
        example: shown("On line 13 the pin 0,0,1 stands first and last.", include_str!("examples/5.job"), 13),
        find: |case| find::pin_twice(&case.site()?),
    },
    Rule {
        number: 6,
        title: "the same edge twice",
        line: "the `edges` line",
        meaning: "A net uses each edge of the grid at most once.",
        order: "On an `edges` line it comes after 2 and 3 and before 8 and 13.",
        advice: "Take one of the two out.",
        example: shown("On line 14 the edge 0,0,e stands first and last.", include_str!("examples/6.job"), 14),
        find: |case| find::edge_twice(&case.site()?),
    },
    Rule {
        number: 8,
        title: "a pin or an edge is not joined to the first pin",
        line: "the `edges` line, also where it is a pin that is not joined",
        meaning:
            "From the tile of the net's first pin some pin or edge cannot be reached along the edges. All edges of \
            the line count, also those that are dropped because they close rings.",
        order: "On an `edges` line it comes after 2, 3 and 6 and before 13.",
        advice: "Add the edges that are missing between the parts, or make two nets of them.",
        example: shown("Line 14 goes to tile 1,0, but a pin is in tile 2,0.", include_str!("examples/8.job"), 14),
        find: |case| find::apart(&case.site()?),
    },
    Rule {
        number: 9,
        title: "too few working numbers were lent",
        line: "3, the `layers` line; 4, the `dirs` line, where the job has one",
        meaning:
            "A job of W x H tiles and K layers takes 2 x K x E + 2 x E + 32 x W x H working numbers, where E is its \
            number of edges, (W - 1) x H + W x (H - 1); the caller lent fewer.",
        order:
            "It is found right after that line, once lines 1 to 3 have passed 2 and 3 and a `dirs` line has passed 2.",
        advice:
            "Lend more: `jerkytarn check` tells what a job takes. This command lends enough unless `--lend` says less; \
            the filter of the repository lends 16,384 working numbers.",
        example: lent("The job takes 108 working numbers, and 100 are lent.", "work=100", 3),
        find: |case| find::work(&case.site()?, case.lent),
    },
    Rule {
        number: 10,
        title: "too few order entries were lent",
        line: "the `nets` line",
        meaning: "The order list takes one entry for each net; the caller lent fewer.",
        order: "It is found right after the `nets` line, once that line has passed 2 and 3.",
        advice:
            "Lend more: as many entries as the `nets` line says. This command lends enough unless `--lend` says less.",
        example: lent("The job has two nets, and one entry is lent.", "order=1", 11),
        find: |case| find::order(&case.site()?, case.lent),
    },
    Rule {
        number: 11,
        title: "the answer list or the print buffer is too short",
        line: "the last line",
        meaning:
            "The answer list takes one byte for each entry of all `edges` lines, dropped or not, the print buffer \
            256 + 64 x nets + 2 x entries bytes, even where the printed text is shorter; the caller lent fewer.",
        order: "It is found after the whole text: a job that gets it has no other fault.",
        advice:
            "Lend more: `jerkytarn check` tells what a job takes. This command lends enough unless `--lend` says less; \
            the filter of the repository lends 65,536 bytes of each.",
        example: lent("The job has three entries, and an answer list of two bytes is lent.", "answer=2", 17),
        find: |case| find::lists(case.text, case.lent),
    },
    Rule {
        number: 12,
        title: "tracks on a layer that runs the other way",
        line: "the `east` or `north` line",
        meaning: "In a job with a `dirs` line, `h` layers carry east edges only and `v` layers north edges only. All \
            capacities of the edges that a layer does not carry are 0.",
        order: "On an `east` or `north` line it comes last, after 2 and 3.",
        advice: "Write 0 for each capacity of the line, or correct the layer's letter on the `dirs` line.",
        example: shown(
            "On line 10 a track for an east edge on layer 2, which is `v`.",
            include_str!("examples/12.job"),
            10,
        ),
        find: |case| find::closed(&case.site()?),
    },
    Rule {
        number: 13,
        title: "an edge whose direction has no layer",
        line: "the `edges` line",
        meaning:
            "In a job with a `dirs` line, a net has an east edge and no layer is `h`, or a north edge and no layer \
            is `v`. A layer without tracks is a layer all the same, and an edge that would be dropped counts too.",
        order: "On an `edges` line it comes last, after 2, 3, 6 and 8.",
        advice: "Take the edge out, or give its direction a layer on the `dirs` line.",
        example: shown("Line 15 goes north, and both layers are `h`.", include_str!("examples/13.job"), 15),
        find: |case| find::without_layer(&case.site()?),
    },
];

/// The words for a number that has ended.
pub fn ended(number: u32) -> Option<&'static Ended> {
    ENDED.iter().find(|ended| ended.number == number)
}

/// The row of a number.
pub fn rule(number: u32) -> Option<&'static Rule> {
    RULES.iter().find(|rule| rule.number == number)
}

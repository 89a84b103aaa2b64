//! Refusal 2 in words: what is wrong with the form of a line.

use super::find::{Finding, Site};
use crate::job::{self, Form, Kind, DIRS_LINE, KEYS, OPTIONAL_KEYS};
use crate::visible::shortened;
use std::ops::Range;

/// What is wrong with an entry, and what to do about it; nothing where it is right.
type Wrong = Option<(String, Option<String>)>;

/// A found part of the line, what it is, and what to do about it.
struct Slip {
    at: Range<usize>,
    found: String,
    advice: Option<String>,
}

impl Slip {
    fn new(at: Range<usize>, found: impl Into<String>) -> Slip {
        Slip { at, found: found.into(), advice: None }
    }

    fn advising(self, advice: impl Into<String>) -> Slip {
        Slip { advice: Some(advice.into()), ..self }
    }
}

/// What is wrong with this line.
pub fn form(site: &Site) -> Finding {
    let expected = expected(site);
    let Some(line) = site.line else { return missing(site, expected) };
    let slip = unended(site, line)
        .or_else(|| after_the_end(site, line))
        .or_else(|| whole_line(site, line))
        .or_else(|| value(site, line))
        .unwrap_or_else(|| Slip::new(0..line.len(), "a line of another form"));
    Finding { at: Some(slip.at), found: slip.found, expected, advice: slip.advice }
}

/// The line that should stand there.
fn expected(site: &Site) -> String {
    let key = site.kind.key();
    let whose = match site.kind {
        Kind::East(layer) | Kind::North(layer) => format!(" of layer {layer}"),
        Kind::Low(net) | Kind::Pins(net) | Kind::Edges(net) => format!(" of net {net}"),
        _ => String::new(),
    };
    match site.kind.form(&site.job) {
        Form::Number(range) => {
            format!("`{key}=`{whose} and a number from {} to {}, then a line feed", range.start(), range.end())
        }
        Form::Turn(turn) => format!("`net={turn}`, then a line feed"),
        Form::Dirs(count) => {
            format!("`{key}=` with {count} letters `h` or `v`, comma between, one for each layer from the bottom")
        }
        Form::Numbers(0, _) => format!("`{key}=`{whose} with an empty list, as the grid has no such edges"),
        Form::Numbers(count, range) => {
            let (low, high) = (range.start(), range.end());
            format!(
                "`{key}=`{whose} with {} from {low} to {high}, comma between",
                counted(count, "capacity", "capacities")
            )
        }
        Form::Pins => format!("`pins=`{whose} with one or more x,y,layer, semicolon between, no spaces"),
        Form::Edges => format!("`edges=`{whose} with none or more x,y,e or x,y,n, semicolon between, no spaces"),
        Form::Nothing => {
            let nets = counted(site.job.announced, "net", "nets");
            format!("the end of the text after line {}: the `nets` line announces {nets}", site.number - 1)
        }
    }
}

/// A count with its noun.
fn counted(count: usize, one: &str, many: &str) -> String {
    format!("{count} {}", if count == 1 { one } else { many })
}

/// The text ends before the line.
fn missing(site: &Site, expected: String) -> Finding {
    let found = match site.number {
        1 => "the text is empty".into(),
        number => format!("the text ends after line {}", number - 1),
    };
    let advice = match site.kind {
        Kind::Net(turn) => {
            format!("add the missing nets, or write `nets={}`: so many are there; was the file cut off?", turn - 1)
        }
        _ => format!("add the lines from `{}` on; was the file cut off?", site.kind.key()),
    };
    Finding { at: None, found, expected, advice: Some(advice) }
}

/// A last line that byte 10 does not end.
fn unended(site: &Site, line: &[u8]) -> Option<Slip> {
    let end = line.len();
    let slip = Slip::new(end..end, "the line is not ended by a line feed (byte 10)");
    (!site.ended).then(|| slip.advising("end the line with a line feed; if the line looks cut off, so was the file"))
}

/// Text where the job is over.
fn after_the_end(site: &Site, line: &[u8]) -> Option<Slip> {
    if site.kind != Kind::End {
        return None;
    }
    let announced = site.job.announced;
    Some(match line {
        [] => Slip::new(0..0, "an empty line after the last line").advising("take the empty line out"),
        _ if line.starts_with(b"net=") => Slip::new(0..line.len(), "a net more than announced")
            .advising(format!("raise the {announced} on the `nets` line, or take the nets from here on out")),
        _ if line.starts_with(b"low=") => Slip::new(0..line.len(), "text after the last line").advising(LOW_PLACE),
        _ => Slip::new(0..line.len(), "text after the last line").advising("take it out"),
    })
}

/// What can be seen of a line before its key is looked at, and its key.
fn whole_line(site: &Site, line: &[u8]) -> Option<Slip> {
    let key = site.kind.key();
    if line.starts_with(b"\xef\xbb\xbf") {
        return Some(Slip::new(0..3, "a byte order mark").advising("save the text without byte order mark, as ASCII"));
    }
    if line.starts_with(b"\xff\xfe") || line.starts_with(b"\xfe\xff") {
        return Some(Slip::new(0..2, "a text in UTF-16").advising("save the text as ASCII"));
    }
    if let [.., b'\r'] = line {
        let at = line.len() - 1..line.len();
        return Some(
            Slip::new(at, "the line ends with carriage return and line feed")
                .advising("end lines with a line feed alone, for example with `dos2unix` or `sed -i 's/\\r$//'`"),
        );
    }
    if line.strip_prefix(key.as_bytes()).is_some_and(|rest| rest.starts_with(b"=")) {
        return None;
    }
    Some(wrong_key(site, line))
}

/// A line that does not begin with its key and `=`.
fn wrong_key(site: &Site, line: &[u8]) -> Slip {
    let key = site.kind.key();
    let end = line.iter().position(|byte| *byte == b'=').unwrap_or(line.len());
    let found = &line[..end];
    let trimmed = found.trim_ascii();
    let shown = shortened(found, 24);
    match () {
        _ if line.is_empty() => Slip::new(0..0, "an empty line").advising("take the empty line out"),
        _ if line.starts_with(b"#") || line.starts_with(b"//") => {
            Slip::new(0..line.len(), "a comment").advising("take it out: a job text has no comments")
        }
        _ if end == line.len() && trimmed == key.as_bytes() => {
            Slip::new(end..end, format!("`{key}` without `=`")).advising(format!("write `{key}=` and the value"))
        }
        _ if trimmed == key.as_bytes() => Slip::new(0..end, "spaces beside the key")
            .advising("take the spaces out: key, `=` and value stand together"),
        _ if trimmed.eq_ignore_ascii_case(key.as_bytes()) => {
            Slip::new(0..end, format!("the key `{shown}`")).advising(format!("write it in small letters, `{key}`"))
        }
        _ if trimmed.eq_ignore_ascii_case(b"dirs") => {
            Slip::new(0..end, format!("the key `{shown}`")).advising(misplaced_dirs(site))
        }
        _ if trimmed.eq_ignore_ascii_case(b"low") => {
            Slip::new(0..end, format!("the key `{shown}`")).advising(misplaced_low(site))
        }
        _ if KEYS.iter().any(|other| trimmed == other.as_bytes()) => {
            Slip::new(0..end, format!("the key `{shown}`")).advising(out_of_order(site, &shown))
        }
        _ if end == line.len() => Slip::new(0..end, "a line without `=`"),
        _ => Slip::new(0..end, format!("the key `{shown}`"))
            .advising(format!("a job has no such key; here stands {}", keys_here(site))),
    }
}

/// The key in turn; where a line may be left out, its key too.
fn keys_here(site: &Site) -> String {
    match (site.kind, site.number) {
        (Kind::Alpha, DIRS_LINE) => "`dirs` or `alpha`".into(),
        (Kind::Pins(_), _) if !has_low(site) => "`low` or `pins`".into(),
        _ => format!("`{}`", site.kind.key()),
    }
}

/// The key `dirs` where no such line stands.
fn misplaced_dirs(site: &Site) -> String {
    match (site.kind, site.number) {
        (Kind::Alpha, DIRS_LINE) => "begin the line with `dirs=`, in small letters and without spaces".into(),
        (Kind::Alpha, _) => "take it out: there is one such line".into(),
        _ => format!("a `dirs` line stands right after `layers`, as line {DIRS_LINE}, or not at all"),
    }
}

/// Where a `low` line stands.
const LOW_PLACE: &str = "a `low` line stands right after the `net` line of its net, or not at all";

/// Whether the net at hand has its `low` line.
fn has_low(site: &Site) -> bool {
    site.job.nets.last().is_some_and(|net| net.low.is_some())
}

/// The key `low` where no such line stands.
fn misplaced_low(site: &Site) -> String {
    match site.kind {
        Kind::Pins(_) | Kind::Edges(_) if has_low(site) => "take it out: a net has one such line".into(),
        Kind::Pins(_) => "begin the line with `low=`, in small letters and without spaces".into(),
        Kind::Edges(_) => format!("put it before the `pins` line: {LOW_PLACE}"),
        _ => LOW_PLACE.into(),
    }
}

/// The keys in their order; one in brackets may be left out.
fn order_of_keys() -> String {
    KEYS.map(|key| if OPTIONAL_KEYS.contains(&key) { format!("[{key}]") } else { key.into() }).join(" ")
}

/// A key of a job, but not the one in turn.
fn out_of_order(site: &Site, found: &str) -> String {
    let key = site.kind.key();
    match (site.kind, found) {
        (Kind::East(layer) | Kind::North(layer), "nets") => {
            let layers = site.job.layers;
            format!(
                "add `{key}` of layer {layer}: `layers` is {layers}, and each layer has an `east` and a `north` line"
            )
        }
        (Kind::Nets, "east" | "north") => {
            format!("take the capacities from here on out, or raise `layers`, which is {}", site.job.layers)
        }
        (Kind::Net(_), "pins" | "edges") => {
            format!("put a line `{key}` before it: each net has `net`, `pins` and `edges`")
        }
        (Kind::Pins(_), _) => format!("put the line `{key}` before it: each net has `net`, `pins` and `edges`"),
        (Kind::Edges(_), _) => {
            format!("put a line `{key}` before it, an empty `edges=` where the net has none")
        }
        _ => format!("put the line `{key}` before it: keys stand in the order {}", order_of_keys()),
    }
}

/// A value that is not of its form; the key is right.
fn value(site: &Site, line: &[u8]) -> Option<Slip> {
    let start = site.kind.key().len() + 1;
    match site.kind.form(&site.job) {
        Form::Number(_) | Form::Turn(_) => not_a_number(&line[start..]).map(|what| Slip::new(start..line.len(), what)),
        Form::Dirs(count) => dir_entry(site)
            .or_else(|| list_length(site, count, ("letter", "letters"), format!("`layers` ({})", site.job.layers))),
        Form::Numbers(count, _) => capacity_entry(site).or_else(|| {
            let (width, height) = (site.job.grid.width, site.job.grid.height);
            list_length(site, count, ("entry", "entries"), format!("`width` ({width}) or `height` ({height})"))
        }),
        Form::Pins if line.len() == start => {
            Some(Slip::new(start..start, "no pins").advising("give the net one pin or more"))
        }
        Form::Pins => entry(site, "pin", pin_entry),
        Form::Edges => entry(site, "edge", edge_entry),
        Form::Nothing => None,
    }
}

/// Why this is not written as a number; nothing where it is.
fn not_a_number(text: &[u8]) -> Option<String> {
    if job::number(text).is_some() {
        return None;
    }
    let shown = shortened(text, 24);
    let digits = |text: &[u8]| !text.is_empty() && text.iter().all(u8::is_ascii_digit);
    Some(match text {
        [] => "a number is missing".into(),
        _ if digits(text) && text[0] == b'0' => format!("`{shown}` has a zero before other digits"),
        _ if digits(text) => format!("`{shown}` has more than five digits"),
        _ if digits(text.trim_ascii()) => format!("`{shown}` has spaces around the number"),
        [b'-' | b'+', rest @ ..] if digits(rest) => format!("`{shown}` has a sign"),
        _ if text.iter().all(|byte| byte.is_ascii_digit() || *byte == b'.') => {
            format!("`{shown}` is not a whole number")
        }
        _ => format!("`{shown}` is not a number"),
    })
}

/// The first capacity that is not a number.
fn capacity_entry(site: &Site) -> Option<Slip> {
    site.entries(b',').into_iter().enumerate().find_map(|(place, (entry, at))| {
        let what = not_a_number(entry)?;
        let slip = Slip::new(at, format!("entry {}: {what}", place + 1));
        Some(if entry.is_empty() { slip.advising("take out the comma too many, or put the number in") } else { slip })
    })
}

/// The first entry of `dirs` that is none of its letters.
fn dir_entry(site: &Site) -> Option<Slip> {
    site.entries(b',').into_iter().enumerate().find_map(|(place, (entry, at))| {
        let (what, advice) = not_a_dir(entry)?;
        Some(Slip { at, found: format!("letter {}: {what}", place + 1), advice })
    })
}

/// Why this is neither `h` nor `v`; nothing where it is.
fn not_a_dir(entry: &[u8]) -> Wrong {
    if job::dir(entry).is_some() {
        return None;
    }
    let advice = match entry.trim_ascii() {
        [] => Some("take out the comma too many, or put the letter in"),
        b"h" | b"v" => Some("take the spaces out"),
        b"H" | b"V" => Some("write the letters small, `h` or `v`"),
        [_, _, ..] if entry.iter().all(|byte| b"hvHV; ".contains(byte)) => Some("put a comma between two letters"),
        b"e" | b"n" => Some("write `h` for a layer of east edges, `v` for one of north edges"),
        _ => None,
    };
    let what =
        if entry.is_empty() { "missing".into() } else { format!("`{}` is not `h` or `v`", shortened(entry, 24)) };
    Some((what, advice.map(str::to_string)))
}

/// A list that is too long or too short; `other` is what else may be wrong then.
fn list_length(site: &Site, count: usize, (one, many): (&str, &str), other: String) -> Option<Slip> {
    let entries = site.entries(b',');
    let end = site.line?.len();
    let at = match entries.get(count) {
        Some((_, first)) => first.start..end,
        None => end..end,
    };
    let found = counted(entries.len(), one, many);
    let advice = match entries.len() > count {
        true => format!("take out {} from here on, or correct {other}", entries.len() - count),
        false => format!("add the {} that are missing, or correct {other}", count - entries.len()),
    };
    (entries.len() != count).then(|| Slip::new(at, found).advising(advice))
}

/// The first entry of `pins` or `edges` that is not of its form.
fn entry(site: &Site, noun: &str, judge: fn(&[u8]) -> Wrong) -> Option<Slip> {
    site.entries(b';').into_iter().enumerate().find_map(|(place, (entry, at))| {
        let (what, advice) = judge(entry)?;
        Some(Slip { at, found: format!("{noun} {}: {what}", place + 1), advice })
    })
}

/// Why these are not three parts with two coordinates; nothing where they are.
fn tile_parts(entry: &[u8], third: &str) -> Wrong {
    if entry.is_empty() {
        return Some(("an empty entry".into(), Some("take out the semicolon too many, or put the entry in".into())));
    }
    let Some([x, y, _]) = job::parts(entry) else {
        let count = entry.split(|byte| *byte == b',').count();
        let shown = shortened(entry, 24);
        let what = format!("`{shown}` has {} in place of x,y,{third}", counted(count, "part", "parts"));
        return Some((what, (count > 3).then(|| "put a semicolon, not a comma, between two entries".into())));
    };
    let coordinate = |name: &str, text| not_a_number(text).map(|what| (format!("{name}: {what}"), None));
    coordinate("x", x).or_else(|| coordinate("y", y))
}

fn pin_entry(entry: &[u8]) -> Wrong {
    let layer = || not_a_number(job::parts(entry)?[2]).map(|what| (format!("layer: {what}"), None));
    tile_parts(entry, "layer").or_else(layer)
}

fn edge_entry(entry: &[u8]) -> Wrong {
    let way = || {
        let [x, y, way] = job::parts(entry)?;
        let (x, y) = (job::number(x)?, job::number(y)?);
        let advice = match way.trim_ascii().to_ascii_lowercase().as_slice() {
            b"e" | b"n" if way.len() == 1 => Some("write the way in small letters, `e` or `n`".into()),
            b"w" if x > 0 => Some(format!("the edge west of tile {x},{y} is written {},{y},e", x - 1)),
            b"s" if y > 0 => Some(format!("the edge south of tile {x},{y} is written {x},{},n", y - 1)),
            _ => None,
        };
        let what = format!("the way is `{}`, and not `e` (east) or `n` (north)", shortened(way, 24));
        (way != b"e" && way != b"n").then_some((what, advice))
    };
    tile_parts(entry, "e or x,y,n").or_else(way)
}

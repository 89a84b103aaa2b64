//! Refusals in plain words: of a text that was refused, and of a number in general.

mod excerpt;
mod find;
mod form;
mod table;

pub use find::need;
pub use table::{rule, Example, Rule, LAST, RULES};

use crate::job::line_at;
use excerpt::excerpt;
use find::Case;
use layerplan::{Lengths, Refusal};
use std::fmt::Write;
use table::{ended, ENDED, ORDER};

/// The most columns of a paragraph.
const COLUMNS: usize = 88;

/// What a refusal means for this text: place, line, what was found, what was expected, what to do. `name` is the
/// file's, `lent` what the library was lent.
pub fn message(name: &str, text: &[u8], refusal: Refusal, lent: Lengths) -> String {
    let Refusal { number, line } = refusal;
    let Some(rule) = rule(number) else {
        return format!("{name}:{line}: refused {number}, which this program has no words for\n");
    };
    let finding = (rule.find)(&Case { text, line: line as usize, lent }).unwrap_or_default();
    let place = if line > 0 { format!("{name}:{line}") } else { name.to_string() };
    let mut out = format!("{place}: refused {number}: {}\n", rule.title);
    if let Some((content, _)) = line_at(text, line as usize) {
        put_line(&mut out, line, content, finding.at);
    }
    for (label, words) in [
        ("found", finding.found.as_str()),
        ("expected", if finding.expected.is_empty() { rule.meaning } else { &finding.expected }),
        ("to do", finding.advice.as_deref().unwrap_or(rule.advice)),
        ("more", &format!("jerkytarn explain {number}")),
    ] {
        if !words.is_empty() {
            put_labelled(&mut out, label, words);
        }
    }
    out
}

/// The line, with marks under what is at fault.
fn put_line(out: &mut String, number: u32, line: &[u8], at: Option<std::ops::Range<usize>>) {
    let shown = excerpt(line, at);
    let _ = writeln!(out, "{number:>8} | {}", shown.line);
    if let Some(marks) = shown.marks {
        let _ = writeln!(out, "{:>8} | {marks}", "");
    }
}

/// A word at the left and a paragraph beside it.
fn put_labelled(out: &mut String, label: &str, words: &str) {
    for (place, line) in wrapped(words, COLUMNS - 12).iter().enumerate() {
        let label = if place == 0 { label } else { "" };
        let _ = writeln!(out, "  {label:<9} {line}");
    }
}

/// Words in lines of at most so many columns.
fn wrapped(words: &str, columns: usize) -> Vec<String> {
    let mut lines = vec![String::new()];
    for word in words.split_whitespace() {
        let last = lines.last_mut().expect("there is one from the start");
        if !last.is_empty() && last.len() + 1 + word.len() > columns {
            lines.push(word.to_string());
        } else {
            last.push_str(if last.is_empty() { "" } else { " " });
            last.push_str(word);
        }
    }
    lines
}

/// What there is to say of a number; nothing where there is no such number.
pub fn number_in_words(number: u32) -> Option<String> {
    rule(number).map(in_words).or_else(|| {
        let ended = ended(number)?;
        let mut out = format!("Refusal {number}: {}\n\n", ended.title);
        put_labelled(&mut out, "meaning", ended.meaning);
        Some(out)
    })
}

/// The refusal with this number in words, its place in the order of faults, and an example.
pub fn in_words(rule: &Rule) -> String {
    let mut out = format!("Refusal {}: {}\n\n", rule.number, rule.title);
    put_labelled(&mut out, "meaning", rule.meaning);
    put_labelled(&mut out, "line", rule.line);
    put_labelled(&mut out, "order", rule.order);
    put_labelled(&mut out, "", ORDER);
    put_labelled(&mut out, "to do", rule.advice);
    put_labelled(&mut out, "example", rule.example.caption);
    put_example(&mut out, &rule.example);
    out
}

/// The example's text, its refused line marked, and what is answered.
fn put_example(out: &mut String, example: &Example) {
    let Some(text) = example.text else { return };
    out.push('\n');
    for (place, line) in text.lines().enumerate() {
        let number = place as u32 + 1;
        let mark = if number == example.line { '>' } else { ' ' };
        let _ = writeln!(out, "  {mark} {number:>4} | {line}");
    }
    let lend = example.lend.map(|lend| format!(" --lend {lend}")).unwrap_or_default();
    let _ = writeln!(out, "\n  jerkytarn plan example.job{lend}");
}

/// All numbers, a line for each.
pub fn overview() -> String {
    let mut out = String::from("A refused job gives `refused=number,line`. The numbers:\n\n");
    let rules = RULES.iter().map(|rule| (rule.number, rule.title));
    let mut titles: Vec<(u32, &str)> = rules.chain(ENDED.iter().map(|ended| (ended.number, ended.title))).collect();
    titles.sort_unstable();
    for (number, title) in titles {
        let _ = writeln!(out, "  {number:>2}  {title}");
    }
    out.push('\n');
    wrapped(ORDER, COLUMNS).iter().for_each(|line| {
        let _ = writeln!(out, "{line}");
    });
    out.push_str("`jerkytarn explain NUMBER` says more of one.\n");
    out
}

#[cfg(test)]
mod tests;

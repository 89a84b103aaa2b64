//! The report as a table for a terminal.

use super::{Directives, Report, Rings};
use crate::job::{in_brackets, Grid, Way};
use std::fmt::Write;

/// Columns of a bar.
const BAR: usize = 24;

/// With which characters the table is drawn.
#[derive(Clone, Copy, PartialEq, Eq, Debug)]
pub struct Style {
    pub unicode: bool,
}

impl Style {
    /// As the terminal's language says.
    pub fn of_environment() -> Style {
        let set = ["LC_ALL", "LC_CTYPE", "LANG"].iter().filter_map(|name| std::env::var(name).ok());
        let language = set.into_iter().find(|value| !value.is_empty()).unwrap_or_default().to_lowercase();
        Style { unicode: language.contains("utf-8") || language.contains("utf8") }
    }

    /// A bar of this part of its columns. Something that is not nothing is at least one column, and only all is full.
    fn bar(self, some: usize, all: usize) -> String {
        let (on, off) = if self.unicode { ("█", "·") } else { ("#", ".") };
        let filled = match (some, all) {
            (0, _) | (_, 0) => 0,
            _ if some >= all => BAR,
            _ => (some * BAR / all).clamp(1, BAR - 1),
        };
        on.repeat(filled) + &off.repeat(BAR - filled)
    }

    fn times(self) -> &'static str {
        if self.unicode {
            "×"
        } else {
            "x"
        }
    }

    fn arrow(self) -> &'static str {
        if self.unicode {
            "→"
        } else {
            "->"
        }
    }
}

/// A number with commas between thousands.
pub fn grouped(number: impl Into<u64>) -> String {
    let digits = number.into().to_string();
    let mut out = String::new();
    for (place, digit) in digits.chars().enumerate() {
        if place > 0 && (digits.len() - place) % 3 == 0 {
            out.push(',');
        }
        out.push(digit);
    }
    out
}

fn g(number: usize) -> String {
    grouped(number as u64)
}

/// The whole table.
pub fn table(report: &Report, style: Style) -> String {
    let mut out = String::new();
    put_block(&mut out, report, style);
    put_layers(&mut out, report, style);
    put_crowded(&mut out, report, style);
    if let Some(directives) = &report.directives {
        put_wanted(&mut out, directives);
        put_excess(&mut out, directives, style);
    }
    put_levels(&mut out, report, style);
    put_histogram(&mut out, report, style);
    put_nets(&mut out, report);
    if let Some(rings) = &report.rings {
        put_cuts(&mut out, rings);
    }
    out.lines().map(|line| format!("{}\n", line.trim_end())).collect()
}

/// A line; writing to a text cannot fail.
macro_rules! line {
    ($out:expr, $($words:tt)*) => { let _ = writeln!($out, $($words)*); };
}

/// The figures of the block: what `check` tells too.
pub fn put_block(out: &mut String, report: &Report, style: Style) {
    let Report { flat_overflow: flat, layered_overflow: layered, lengths: need, .. } = report;
    line!(out, "{}: accepted", report.job);
    line!(out, "  tiles             {} ({} {} {})", g(report.tiles), report.width, style.times(), report.height);
    line!(out, "  layers            {}{}", report.layers, in_brackets(report.dirs.as_deref()));
    line!(out, "  edges of a layer  {}", edges_of_a_layer(report));
    line!(out, "  nets              {}", g(report.nets));
    line!(out, "  pins              {}, in {} tiles of their nets", g(report.pins), g(report.pin_tiles));
    line!(out, "  edge entries      {}", g(report.entries));
    if let Some(Rings { nets, dropped, kept, .. }) = &report.rings {
        let many = |count: usize, one: &str| format!("{} {one}{}", g(count), if count == 1 { "" } else { "s" });
        let (nets, dropped) = (many(*nets, "net"), many(*dropped, "edge"));
        line!(out, "  rings             {nets} cut, {dropped} dropped, {} kept", g(*kept));
    }
    line!(out, "  flat overflow     total {}, maximum {}", g(flat.total), g(flat.maximum));
    if let Some(limits) = report.limits {
        line!(out, "  limit of a layer  east {}, north {}", g(limits.east), g(limits.north));
    }
    line!(out, "  layered overflow  total {}, maximum {}", g(layered.total), g(layered.maximum));
    line!(out, "  vias              {}", grouped(report.vias));
    if let Some(Directives { nets, ldof, .. }) = &report.directives {
        let want = if *nets == 1 { "net wants" } else { "nets want" };
        line!(out, "  directives        {} {want} a layer above 1, ldof {}", g(*nets), g(*ldof));
    }
    let lent = [("work", need.work), ("order", need.order), ("answer", need.answer), ("print", need.print)];
    let lent = lent.map(|(name, length)| format!("{name} {}", g(length))).join(", ");
    line!(out, "  storage to lend   {lent}");
}

/// How many edges a layer has: where layers have directions, by these.
fn edges_of_a_layer(report: &Report) -> String {
    let grid = Grid { width: report.width, height: report.height };
    let [h, v] = [Way::East, Way::North].map(Way::dir);
    match report.dirs {
        Some(_) => format!("{h} {}, {v} {}", g(grid.east_edges()), g(grid.north_edges())),
        None => g(report.edges),
    }
}

fn put_layers(out: &mut String, report: &Report, style: Style) {
    let runs = if report.dirs.is_some() { "  runs" } else { "" };
    line!(
        out,
        "\n  layer{runs}      tracks       used  {:<BAR$}  share       full  overflowed  overflow",
        "tracks used"
    );
    for row in &report.by_layer {
        let runs = row.runs.map_or(String::new(), |runs| format!("{runs:>6}"));
        let bar = style.bar(row.used - row.overflow, row.tracks);
        let over = mark(row.overflow);
        line!(
            out,
            "  {:>5}{runs} {:>11} {:>10}  {bar} {:>5.1}% {:>10} {:>11} {:>9}{over}",
            row.layer,
            g(row.tracks),
            g(row.used),
            100.0 * row.share,
            g(row.full),
            g(row.overflowed),
            g(row.overflow)
        );
    }
}

fn put_crowded(out: &mut String, report: &Report, style: Style) {
    line!(out, "\n  most crowded edges");
    if report.most_crowded.is_empty() {
        line!(out, "    none: no net uses an edge");
        return;
    }
    line!(out, "    layer  from tile    to tile    used  capacity  overflow");
    for row in &report.most_crowded {
        let over = mark(row.overflow);
        line!(
            out,
            "    {:>5}  {:<9} {:<2} {:<9} {:>5} {:>9} {:>9}{over}",
            row.layer,
            tile(row.from),
            style.arrow(),
            tile(row.to),
            g(row.used),
            g(row.capacity),
            g(row.overflow)
        );
    }
}

/// Which layers the nets want, and how many of their edges the plan puts below these.
fn put_wanted(out: &mut String, directives: &Directives) {
    line!(out, "\n  layer directives: ldof {}", g(directives.ldof));
    line!(out, "    below: edges that the plan puts below the lowest wanted layer of their net");
    line!(out, "    excess: nets that must go without a track on a layer that they want, whatever the plan");
    line!(out, "    low     nets      edges      below     excess");
    for row in &directives.by_layer {
        let over = mark(row.excess);
        let (edges, below, excess) = (g(row.edges), g(row.below), g(row.excess));
        line!(out, "    {:>3} {:>8} {edges:>10} {below:>10} {excess:>10}{over}", row.low, g(row.nets));
    }
}

/// The edges whose nets want more tracks of some layers than there are.
fn put_excess(out: &mut String, directives: &Directives, style: Style) {
    line!(out, "\n  edges with most directive excess");
    if directives.ldof == 0 {
        line!(out, "    none: each net can have a track on a layer that it wants");
        return;
    }
    line!(out, "    from tile    to tile    nets  below  excess");
    for row in &directives.most_excess {
        let (nets, below, excess) = (g(row.nets), g(row.below), g(row.excess));
        line!(
            out,
            "    {:<9} {:<2} {:<9} {nets:>5} {below:>6} {excess:>7}{}",
            tile(row.from),
            style.arrow(),
            tile(row.to),
            mark(row.excess)
        );
    }
}

/// A tile as people write it.
fn tile([x, y]: [usize; 2]) -> String {
    format!("{x},{y}")
}

/// What stands behind a number that should be 0 and is not.
fn mark(number: usize) -> &'static str {
    if number > 0 {
        " !"
    } else {
        ""
    }
}

fn put_levels(out: &mut String, report: &Report, style: Style) {
    line!(out, "\n  level        vias");
    let most = report.vias_by_level.iter().map(|row| row.vias).max().unwrap_or(0);
    for row in &report.vias_by_level {
        line!(out, "  {} to {} {:>10}  {}", row.lower, row.upper, g(row.vias), style.bar(row.vias, most));
    }
}

fn put_histogram(out: &mut String, report: &Report, style: Style) {
    line!(out, "\n  vias of a net        nets");
    let most = report.vias_of_nets.iter().map(|row| row.nets).max().unwrap_or(0);
    for row in &report.vias_of_nets {
        let bounds = if row.least == row.most { g(row.least) } else { format!("{} to {}", g(row.least), g(row.most)) };
        line!(out, "  {bounds:>14} {:>10}  {}", g(row.nets), style.bar(row.nets, most));
    }
    if report.vias_of_nets.is_empty() {
        line!(out, "    none: the job has no nets");
    }
}

fn put_nets(out: &mut String, report: &Report) {
    line!(out, "\n  nets with most vias");
    if report.most_vias.is_empty() {
        line!(out, "    none: no net has a via");
        return;
    }
    line!(out, "      net     vias    edges     pins in tiles   turn          score");
    for row in &report.most_vias {
        let (vias, edges, pins, tiles) = (g(row.vias), g(row.edges), g(row.pins), g(row.pin_tiles));
        line!(
            out,
            "    {:>5} {vias:>8} {edges:>8} {pins:>8} {tiles:>8} {:>6} {:>14}",
            row.net,
            row.turn,
            grouped(row.score)
        );
    }
}

/// The nets with rings.
fn put_cuts(out: &mut String, rings: &Rings) {
    line!(out, "\n  nets that lost most edges to rings");
    line!(out, "      net  entries  dropped     kept");
    for row in &rings.most_dropped {
        line!(out, "    {:>5} {:>8} {:>8} {:>8}", row.net, g(row.entries), g(row.dropped), g(row.kept));
    }
}

#[cfg(test)]
mod tests {
    use super::*;

    #[test]
    fn thousands_are_grouped() {
        for (number, text) in [(0u64, "0"), (999, "999"), (1000, "1,000"), (1234567, "1,234,567")] {
            assert_eq!(grouped(number), text);
        }
    }

    #[test]
    fn bars_are_full_only_of_all() {
        let bar = |some, all| Style { unicode: false }.bar(some, all).matches('#').count();
        assert_eq!((bar(0, 9), bar(1, 9999), bar(9998, 9999), bar(9, 9), bar(0, 0)), (0, 1, BAR - 1, BAR, 0));
    }
}

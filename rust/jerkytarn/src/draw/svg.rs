//! The picture: the layers side by side, and the vias by tile, for a document. Edges of one class are one path, so that
//! a large block stays small.

use super::colour::{class, dropped_style, style, Class, CLASSES};
use super::escaped;
use crate::figures::{Block, Place};
use crate::job::{in_brackets, Job, Way};
use crate::report::grouped;
use std::fmt::Write;

/// The widest side of a panel's grid.
const SIDE: f64 = 280.0;
/// The largest tile.
const TILE_MOST: f64 = 36.0;
/// The smallest side of a panel, so that its title has room.
const PANEL_LEAST: f64 = 150.0;
/// What the direction of a layer takes of its title.
const DIRECTION: f64 = 34.0;
const GAP: f64 = 28.0;
const MARGIN: f64 = 24.0;
const HEADER: f64 = 64.0;
const TITLE: f64 = 24.0;
const LEGEND: f64 = 64.0;
/// What one more line of the legend takes.
const LEGEND_LINE: f64 = 18.0;
const LEGEND_WIDTH: f64 = 660.0;

/// How many panels stand in a row, so that the last row is nearly as long as the others.
fn columns(panels: usize) -> usize {
    match panels {
        0..=4 => panels,
        5 | 6 | 9 => 3,
        _ => 4,
    }
}

const STYLE: &str = "\
text{font:12px system-ui,sans-serif;fill:var(--ink)}
.h{font-size:18px;font-weight:600}.t{font-size:13px;font-weight:600}.f{fill:var(--faint)}
.p{fill:var(--paper)}.g{fill:none;stroke:var(--line)}.e{fill:none}
.o{stroke:var(--over)}.m{fill:var(--mark);stroke:var(--ink)}.s{fill:var(--over);stroke:var(--ink);stroke-width:.7}
.r{fill:var(--paper)}.v{fill:var(--via)}
";

/// The same for dropped edges, where there are some: a dashed stroke of their own colour.
const DROPPED_STYLE: &str = ".d{fill:none;stroke:var(--dropped);stroke-dasharray:3 2}\n";

/// Where everything stands.
struct Layout {
    /// The side of a tile.
    tile: f64,
    /// The sides of a panel's grid.
    wide: f64,
    high: f64,
    /// The smallest width that a panel takes.
    least: f64,
    columns: usize,
    rows: usize,
    /// The height of the legend.
    legend: f64,
}

impl Layout {
    fn new(block: &Block) -> Layout {
        let grid = block.job.grid;
        let tile = (SIDE / grid.width.max(grid.height) as f64).min(TILE_MOST);
        let panels = block.job.layers + 1;
        let columns = columns(panels);
        Layout {
            tile,
            wide: tile * grid.width as f64,
            high: tile * grid.height as f64,
            least: PANEL_LEAST + if block.job.dirs.is_some() { DIRECTION } else { 0.0 },
            columns,
            rows: panels.div_ceil(columns),
            legend: LEGEND + LEGEND_LINE * more_legend_lines(block).saturating_sub(1) as f64,
        }
    }

    /// The sides of a panel with the space beside it.
    fn step(&self) -> (f64, f64) {
        (self.wide.max(self.least) + GAP, self.high + TITLE + GAP)
    }

    fn size(&self) -> (f64, f64) {
        let (across, down) = self.step();
        let width = (2.0 * MARGIN + self.columns as f64 * across - GAP).max(2.0 * MARGIN + LEGEND_WIDTH);
        (width, MARGIN + HEADER + self.rows as f64 * down + self.legend)
    }

    /// The upper left corner of a panel.
    fn corner(&self, panel: usize) -> (f64, f64) {
        let (across, down) = self.step();
        let (column, row) = (panel % self.columns, panel / self.columns);
        (MARGIN + column as f64 * across, MARGIN + HEADER + row as f64 * down)
    }

    /// The width of an edge's stroke.
    fn stroke(&self) -> f64 {
        (0.42 * self.tile).clamp(1.2, 9.0)
    }

    /// Whether an edge is too small to hold its mark.
    fn small(&self) -> bool {
        self.tile < 9.0
    }

    /// Half the width of the mark on an edge that overflows.
    fn mark(&self) -> f64 {
        if self.small() {
            2.3
        } else {
            (0.23 * self.tile).min(6.0)
        }
    }
}

/// A length with one decimal, or none where that says as much.
fn put_length(out: &mut String, length: f64) {
    let tenths = (10.0 * length).round() as i64;
    if tenths < 0 {
        out.push('-');
    }
    let (whole, tenth) = (tenths.abs() / 10, tenths.abs() % 10);
    let _ = match tenth {
        0 => write!(out, "{whole}"),
        _ => write!(out, "{whole}.{tenth}"),
    };
}

/// The same as a text.
fn n(length: f64) -> String {
    let mut out = String::new();
    put_length(&mut out, length);
    out
}

/// The picture of a block.
pub fn picture(name: &str, block: &Block) -> String {
    let layout = Layout::new(block);
    let (width, height) = layout.size();
    let mut out = String::new();
    let _ = write!(
        out,
        "<svg xmlns=\"http://www.w3.org/2000/svg\" viewBox=\"0 0 {w} {h}\" width=\"{w}\" height=\"{h}\" role=\"img\">\n\
         <title>{}: layers and vias</title>\n<style>\n{}{STYLE}",
        escaped(name),
        style(),
        w = n(width),
        h = n(height)
    );
    if block.rings.is_some() {
        out.extend([&dropped_style(), DROPPED_STYLE]);
    }
    for class in 0..CLASSES {
        let _ = write!(out, ".u{class}{{stroke:var(--u{class})}}");
    }
    let _ = writeln!(out, "\n</style>\n<rect class=\"p\" width=\"100%\" height=\"100%\"/>");
    put_header(&mut out, name, block);
    for layer in 1..=block.job.layers {
        put_layer(&mut out, block, &layout, layer);
    }
    put_vias(&mut out, block, &layout);
    put_legend(&mut out, height - layout.legend + 8.0, block);
    out.push_str("</svg>\n");
    out
}

fn put_header(out: &mut String, name: &str, block: &Block) {
    let job = &block.job;
    let g = |number: usize| grouped(number as u64);
    let (flat, layered) = (block.flat_overflow(), block.layered_overflow());
    let dirs = in_brackets(job.letters().as_deref());
    let (width, height) = (job.grid.width, job.grid.height);
    let size = format!("{width} × {height} tiles, {} layers{dirs}, {} nets", job.layers, g(job.nets.len()));
    let overflow =
        format!("overflow {} (at most {} on an edge; flat {})", g(layered.total), g(layered.maximum), g(flat.total));
    let _ = writeln!(out, "<text class=\"h\" x=\"{MARGIN}\" y=\"38\">{}</text>", escaped(name));
    let vias = grouped(block.totals.vias);
    let ldof = block.directives.as_ref().map_or(String::new(), |directives| format!("; ldof {}", g(directives.ldof())));
    let dropped = block.rings.as_ref().map_or(String::new(), |rings| match rings.dropped() {
        1 => "; 1 edge dropped".into(),
        count => format!("; {} edges dropped", g(count)),
    });
    let _ = writeln!(
        out,
        "<text class=\"f\" x=\"{MARGIN}\" y=\"60\">{size}; {vias} vias; {overflow}{ldof}{dropped}</text>"
    );
}

/// A panel's title and frame.
fn put_panel(out: &mut String, layout: &Layout, panel: usize, title: &str, words: &str) {
    let (x, y) = layout.corner(panel);
    let _ = writeln!(
        out,
        "<g transform=\"translate({} {})\">\n<text class=\"t\" y=\"14\">{title} <tspan class=\"f\" font-weight=\"400\">{words}</tspan></text>\n\
         <rect class=\"g\" y=\"{TITLE}\" width=\"{}\" height=\"{}\"/>",
        n(x),
        n(y),
        n(layout.wide),
        n(layout.high)
    );
}

/// The middle of a tile; north is up.
fn middle(block: &Block, layout: &Layout, tile: crate::job::Tile) -> (f64, f64) {
    let row = block.job.grid.height - 1 - tile.y;
    (layout.tile * (tile.x as f64 + 0.5), TITLE + layout.tile * (row as f64 + 0.5))
}

/// The title of a layer, with its direction where the job gives one.
fn layer_title(job: &Job, layer: usize) -> String {
    job.runs(layer).map_or(format!("Layer {layer}"), |runs| format!("Layer {layer} ({})", runs.dir()))
}

/// A layer: its edges by class, and a mark on each that overflows. Edges that it does not carry have neither tracks nor
/// nets, and are left out as such.
fn put_layer(out: &mut String, block: &Block, layout: &Layout, layer: usize) {
    let mut paths = vec![String::new(); CLASSES];
    let (mut over, mut rims, mut marks, mut overflowed) = (String::new(), String::new(), String::new(), 0);
    // an edge leaves the middles of its tiles free
    let gap = 0.16 * layout.tile;
    for edge in 0..block.job.grid.edges() {
        let at = Place { layer, edge };
        let path = match class(block.used(at), block.capacity(at)) {
            Class::Absent => continue,
            Class::Used(class) => &mut paths[class],
            Class::Over => &mut over,
        };
        let (tile, way) = block.job.grid.named(edge);
        let (x, y) = middle(block, layout, tile);
        put_segment(path, (x, y), way, gap, layout.tile - 2.0 * gap);
        if block.overflow(at) > 0 {
            let half = layout.tile / 2.0;
            let (x, y) = if way == Way::East { (x + half, y) } else { (x, y - half) };
            rims.push_str(&diamond(x, y, layout.mark() + 1.0));
            marks.push_str(&diamond(x, y, layout.mark()));
            overflowed += 1;
        }
    }
    let words = if overflowed == 1 {
        "1 edge overflows".into()
    } else {
        format!("{} edges overflow", grouped(overflowed as u64))
    };
    put_panel(out, layout, layer - 1, &layer_title(&block.job, layer), if overflowed == 0 { "" } else { &words });
    let stroke = n(layout.stroke());
    for (class, path) in paths.iter().enumerate().filter(|(_, path)| !path.is_empty()) {
        let _ = writeln!(out, "<path class=\"e u{class}\" stroke-width=\"{stroke}\" d=\"{path}\"/>");
    }
    if overflowed > 0 {
        let _ = writeln!(out, "<path class=\"e o\" stroke-width=\"{stroke}\" d=\"{over}\"/>");
        // a small mark takes the colour of overflow, and a rim sets it off
        let _ = match layout.small() {
            true => writeln!(out, "<path class=\"r\" d=\"{rims}\"/>\n<path class=\"s\" d=\"{marks}\"/>"),
            false => writeln!(out, "<path class=\"m\" d=\"{marks}\"/>"),
        };
    }
    put_excess(out, block, layout, layer);
    out.push_str("</g>\n");
}

/// A mark on each edge with too few tracks here and above for the nets whose lowest wanted layer this is. It stands aside
/// where the edge has the mark of overflow.
fn put_excess(out: &mut String, block: &Block, layout: &Layout, layer: usize) {
    let Some(directives) = &block.directives else { return };
    let mut marks = String::new();
    for edge in (0..block.job.grid.edges()).filter(|edge| directives.edges[*edge].excess[layer - 1] > 0) {
        let part = if block.overflow(Place { layer, edge }) > 0 { 0.2 } else { 0.5 };
        let (tile, way) = block.job.grid.named(edge);
        let (x, y) = middle(block, layout, tile);
        let along = part * layout.tile;
        let (x, y) = if way == Way::East { (x + along, y) } else { (x, y - along) };
        marks.push_str(&triangle(x, y, layout.mark()));
    }
    if !marks.is_empty() {
        let _ = writeln!(out, "<path class=\"m\" stroke-width=\".8\" d=\"{marks}\"/>");
    }
}

/// An edge from the middle of its tile: a gap, then the stroke.
fn put_segment(path: &mut String, (x, y): (f64, f64), way: Way, gap: f64, length: f64) {
    let (x, y, turn) = match way {
        Way::East => (x + gap, y, "h"),
        Way::North => (x, y - gap, "v-"),
    };
    for (before, length) in [("M", x), (" ", y), (turn, length)] {
        path.push_str(before);
        put_length(path, length);
    }
}

/// A square on its corner.
fn diamond(x: f64, y: f64, radius: f64) -> String {
    let r = n(radius);
    format!("M{} {}l{r} {r}l-{r} {r}l-{r}-{r}z", n(x), n(y - radius))
}

/// A triangle that points up, about as large as a diamond of this radius.
fn triangle(x: f64, y: f64, radius: f64) -> String {
    // rounded first, so that it is even
    let radius = (10.0 * radius).round() / 10.0;
    format!("M{} {}l{r} {}h-{}z", n(x), n(y - radius), n(1.7 * radius), n(2.0 * radius), r = n(radius))
}

/// The vias of all nets at each tile, as discs by area.
fn put_vias(out: &mut String, block: &Block, layout: &Layout) {
    let tiles = block.job.grid.tiles();
    let at = |tile: usize| block.tile_vias.iter().map(|level| level[tile]).sum::<usize>();
    let most = (0..tiles).map(at).max().unwrap_or(0);
    put_panel(out, layout, block.job.layers, "Vias", &format!("at most {} in a tile", grouped(most as u64)));
    put_dropped(out, block, layout);
    let mut discs = String::new();
    for tile in (0..tiles).filter(|tile| at(*tile) > 0) {
        let (x, y) = middle(block, layout, block.job.grid.tile(tile));
        // rounded first, so that both halves of the disc are
        let radius = (5.0 * layout.tile * (at(tile) as f64 / most as f64).sqrt()).round().max(4.0) / 10.0;
        let (r, wide) = (n(radius), n(2.0 * radius));
        let _ = write!(discs, "M{} {}a{r} {r} 0 1 0 {wide} 0a{r} {r} 0 1 0-{wide} 0", n(x - radius), n(y));
    }
    let _ = writeln!(out, "<path class=\"v\" d=\"{discs}\"/>\n</g>");
}

/// The edges that some net dropped. They are on no layer and use no track, so they stand with the vias.
fn put_dropped(out: &mut String, block: &Block, layout: &Layout) {
    let Some(rings) = &block.rings else { return };
    let mut path = String::new();
    for edge in (0..block.job.grid.edges()).filter(|edge| rings.edges[*edge] > 0) {
        let (tile, way) = block.job.grid.named(edge);
        put_segment(&mut path, middle(block, layout, tile), way, 0.0, layout.tile);
    }
    let stroke = n((0.5 * layout.stroke()).max(1.0));
    let _ = writeln!(out, "<path class=\"d\" stroke-width=\"{stroke}\" d=\"{path}\"/>");
}

/// How many lines the legend has for what not every job has.
fn more_legend_lines(block: &Block) -> usize {
    [block.job.dirs.is_some(), block.directives.is_some(), block.rings.is_some()].map(usize::from).iter().sum()
}

/// What colours and marks mean, and, where layers have directions, what their letters do.
fn put_legend(out: &mut String, y: f64, block: &Block) {
    let _ = writeln!(out, "<g transform=\"translate({MARGIN} {})\">\n<text y=\"4\">Tracks used</text>", n(y));
    for class in 0..CLASSES {
        let x = 84 + 24 * class;
        let _ = writeln!(out, "<path class=\"e u{class}\" stroke-width=\"10\" d=\"M{x} 0h22\"/>");
    }
    for (x, words) in [(84, "none"), (204, "half"), (326, "all")] {
        let _ = writeln!(out, "<text class=\"f\" x=\"{x}\" y=\"22\">{words}</text>");
    }
    let _ = writeln!(
        out,
        "<path class=\"e o\" stroke-width=\"8\" d=\"M376 0h26\"/><path class=\"m\" d=\"{}\"/>\n\
         <text x=\"408\" y=\"4\">more nets than tracks</text>\n\
         <text class=\"f\" x=\"376\" y=\"22\">an edge without tracks and nets is left out</text>",
        diamond(389.0, 0.0, 5.0)
    );
    let mut line = 40.0;
    if block.job.dirs.is_some() {
        let words = "(h): a layer for east edges only; (v): for north edges only";
        let _ = writeln!(out, "<text class=\"f\" y=\"{}\">{words}</text>", n(line));
        line += LEGEND_LINE;
    }
    if block.directives.is_some() {
        let words = "too few tracks here and above for the nets whose lowest wanted layer this is (ldof)";
        let mark = triangle(5.0, line - 4.0, 5.0);
        let _ = writeln!(
            out,
            "<path class=\"m\" d=\"{mark}\"/><text class=\"f\" x=\"16\" y=\"{}\">{words}</text>",
            n(line)
        );
        line += LEGEND_LINE;
    }
    if block.rings.is_some() {
        let words = "an edge that some net dropped, since it closes a ring or then hangs loose; it uses no track";
        let _ = writeln!(
            out,
            "<path class=\"d\" stroke-width=\"4\" d=\"M0 {}h22\"/><text class=\"f\" x=\"28\" y=\"{}\">{words}</text>",
            n(line - 4.0),
            n(line)
        );
    }
    out.push_str("</g>\n");
}

#[cfg(test)]
mod tests {
    use super::*;

    #[test]
    fn lengths_have_a_decimal_where_it_says_something() {
        assert_eq!([0.0, 3.0, 3.04, 3.06, -0.3, 12.96].map(n), ["0", "3", "3", "3.1", "-0.3", "13"]);
    }

    #[test]
    fn layers_with_directions_are_titled_so() {
        let drawn = picture("directed.job", &crate::figures::directed_example());
        for words in
            [">Layer 1 (h) <", ">Layer 2 (v) <", ">Layer 3 (h) <", "3 layers (h,v,h), 4 nets", "(h): a layer for"]
        {
            assert!(drawn.contains(words), "no {words} in\n{drawn}");
        }
        // paths of a layer: along x on an `h` layer, along y on a `v` layer
        let panel = |layer: usize| drawn.split("<g transform").nth(layer).unwrap();
        let strokes = |layer: usize, turn: char| {
            let paths = panel(layer).split(" d=\"").skip(1).map(|path| &path[..path.find('"').unwrap()]);
            paths.map(|path| path.matches(turn).count()).sum::<usize>()
        };
        assert_eq!([1, 2, 3].map(|layer| strokes(layer, 'h')), [4, 0, 3]);
        assert_eq!([1, 2, 3].map(|layer| strokes(layer, 'v')), [0, 3, 0]);
    }

    #[test]
    fn excess_is_marked_on_the_layer_that_is_wanted() {
        let drawn = picture("timing.job", &crate::figures::timing_example());
        assert!(drawn.contains("at most 0 on an edge; flat 0); ldof 3</text>"), "{drawn}");
        let panel = |layer: usize| drawn.split("<g transform").nth(layer).unwrap();
        // triangles, and no diamond: nothing overflows
        let marks = |part: &str| part.split("class=\"m\"").skip(1).map(|part| part.matches('M').count()).sum::<usize>();
        assert_eq!([1, 2, 3].map(|layer| marks(panel(layer))), [0, 1, 2]);
        assert!(
            panel(5).contains(">too few tracks here and above for the nets whose lowest wanted layer this is (ldof)<")
        );
        assert!(!picture("a", &crate::figures::directed_example()).contains("ldof"));
    }

    #[test]
    fn dropped_edges_are_drawn_with_the_vias() {
        let drawn = picture("rings.job", &crate::figures::rings_example());
        assert!(drawn.contains("flat 0); 8 edges dropped</text>") && drawn.contains("--dropped:"), "{drawn}");
        let panel = |layer: usize| drawn.split("<g transform").nth(layer).unwrap();
        let strokes = |part: &str| {
            let paths = part.split("class=\"d\"").skip(1).map(|path| path.split('"').nth(3).unwrap());
            paths.map(|path| path.matches('M').count()).sum::<usize>()
        };
        // six edges of the grid are dropped by some net; the last panel is the legend
        assert_eq!([1, 2, 3, 4].map(|place| strokes(panel(place))), [0, 0, 6, 1]);
        assert!(panel(4).contains(">an edge that some net dropped, since it closes a ring or then hangs loose"));
        let without = picture("a", &crate::figures::timing_example());
        assert!(!without.contains("dropped") && !without.contains("class=\"d\""));
    }

    #[test]
    fn the_legend_has_room_for_each_line() {
        let text = include_str!("../../../../examples/directed.job").replace("net=1\n", "net=1\nlow=3\n");
        let planned = crate::figures::plan(&mut crate::planner::Planner::new(), text.as_bytes()).unwrap();
        let drawn = picture("a", &planned.unwrap());
        let without = picture("a", &crate::figures::directed_example());
        let height = |drawn: &str| -> f64 {
            let rest = drawn.split(" height=\"").nth(1).unwrap();
            rest[..rest.find('"').unwrap()].parse().unwrap()
        };
        assert_eq!(height(&drawn), height(&without) + LEGEND_LINE);
        assert!(drawn.contains("y=\"40\">(h): a layer") && drawn.contains("y=\"58\">too few tracks here"));
        // the net wants layer 3, which carries no north edges: its north edge is marked there all the same
        let panel = drawn.split("<g transform").nth(3).unwrap();
        assert_eq!(panel.split("class=\"m\" stroke-width=\".8\"").nth(1).unwrap().matches('M').count(), 2);
    }

    #[test]
    fn rows_of_panels_are_filled() {
        for panels in 3..=9 {
            let last = panels % columns(panels);
            assert!(last == 0 || last + 2 >= columns(panels), "{panels}");
        }
    }
}

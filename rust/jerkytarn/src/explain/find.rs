//! Finds, on a line that the library refused, the entry at fault and says what is wrong with it. Nothing is decided
//! here: number and line are the library's, and where nothing fits them, nothing is said beyond the table's row.
//! Refusal 2 has a module of its own, `form`.

use crate::job::{self, Form, Grid, Job, Kind, Tile, Way, DIRS_LINE};
use crate::visible::shortened;
use layerplan::Lengths;
use std::collections::{HashMap, HashSet};
use std::ops::Range;

/// What was found on the line.
#[derive(Clone, PartialEq, Eq, Debug, Default)]
pub struct Finding {
    /// The bytes of the line at fault.
    pub at: Option<Range<usize>>,
    pub found: String,
    pub expected: String,
    /// What to do, where more can be said than in general.
    pub advice: Option<String>,
}

/// The refused line: what the lines before it tell of the job, what should stand on it, and what does.
pub struct Site<'a> {
    pub job: Job,
    pub kind: Kind,
    pub number: usize,
    /// The line without its end; none where the text ends before it.
    pub line: Option<&'a [u8]>,
    /// Whether the line is ended by byte 10.
    pub ended: bool,
}

impl<'a> Site<'a> {
    pub fn new(text: &'a [u8], number: usize) -> Option<Site<'a>> {
        let (job, kind) = job::read_before(text, number)?;
        let line = job::line_at(text, number);
        Some(Site { job, kind, number, line: line.map(|(line, _)| line), ended: line.is_some_and(|(_, ended)| ended) })
    }

    /// The value of the line, behind the `=`, and where it begins.
    fn value(&self) -> Option<(&'a [u8], usize)> {
        let start = self.kind.key().len() + 1;
        self.line?.get(start..).map(|value| (value, start))
    }

    /// The entries of the line with their places.
    pub fn entries(&self, separator: u8) -> Vec<(&'a [u8], Range<usize>)> {
        let Some((value, mut at)) = self.value() else { return Vec::new() };
        let placed = job::entries(value, separator).into_iter().map(|entry| {
            let place = at..at + entry.len();
            at = place.end + 1;
            (entry, place)
        });
        placed.collect()
    }
}

/// A refused text: what there is to look for a fault in.
pub struct Case<'a> {
    pub text: &'a [u8],
    /// The line that the library names.
    pub line: usize,
    /// What the library was lent.
    pub lent: Lengths,
}

impl<'a> Case<'a> {
    /// The refused line.
    pub fn site(&self) -> Option<Site<'a>> {
        Site::new(self.text, self.line)
    }
}

/// 1: nothing was looked at.
pub fn too_long() -> Finding {
    Finding {
        found: "more than 1,048,576 bytes (no more were read)".into(),
        expected: "a job text of at most 1,048,576 bytes".into(),
        ..Finding::default()
    }
}

/// A tile as people write it.
fn named(tile: Tile) -> String {
    format!("{},{}", tile.x, tile.y)
}

/// An edge as it stands on an `edges` line.
fn edge_named(grid: Grid, edge: usize) -> String {
    let (tile, way) = grid.named(edge);
    format!("{},{}", named(tile), way.letter())
}

/// 3: the first number out of its range, or edge out of the grid.
pub fn range(site: &Site) -> Option<Finding> {
    match site.kind.form(&site.job) {
        Form::Number(range) => {
            let (value, start) = site.value()?;
            let (low, high) = (range.start(), range.end());
            Some(Finding {
                at: Some(start..start + value.len()),
                found: format!("`{}` is {}", site.kind.key(), shortened(value, 20)),
                expected: format!("a number from {low} to {high}"),
                advice: low_advice(site),
            })
        }
        Form::Numbers(_, range) => first_entry(site, b',', |place, entry| {
            let value = job::number(entry).filter(|value| !range.contains(value))?;
            Some((capacity_at(site, place, value), format!("a capacity from {} to {}", range.start(), range.end())))
        }),
        Form::Pins => first_entry(site, b';', |place, entry| pin_range(&site.job, place, entry)),
        Form::Edges => first_entry(site, b';', |place, entry| edge_range(site.job.grid, place, entry)),
        Form::Turn(_) | Form::Dirs(_) | Form::Nothing => None,
    }
}

/// What to do about a wanted layer that the stack does not have.
fn low_advice(site: &Site) -> Option<String> {
    let Kind::Low(net) = site.kind else { return None };
    let layers = site.job.layers;
    Some(format!("name one of the {layers} layers, or take the line out if net {net} may be on any layer"))
}

/// The first entry of which something is found: what was found there, and what was expected.
fn first_entry(
    site: &Site,
    separator: u8,
    judge: impl Fn(usize, &[u8]) -> Option<(String, String)>,
) -> Option<Finding> {
    site.entries(separator).into_iter().enumerate().find_map(|(place, (entry, at))| {
        let (found, expected) = judge(place, entry)?;
        Some(Finding { at: Some(at), found, expected, advice: None })
    })
}

/// Which edge a capacity stands for.
fn capacity_at(site: &Site, place: usize, value: usize) -> String {
    let (edge, layer) = match site.kind {
        Kind::East(layer) => (place, layer),
        Kind::North(layer) => (site.job.grid.east_edges() + place, layer),
        _ => return format!("entry {} is {value}", place + 1),
    };
    let [from, to] = site.job.grid.ends(edge).map(named);
    format!("entry {} is {value}, for the edge from tile {from} to tile {to} on layer {layer}", place + 1)
}

/// `x` or `y` where it is outside the grid: what was found, and the range.
fn outside(grid: Grid, tile: Tile) -> Option<(String, String)> {
    let (name, value, size, side) = match () {
        _ if tile.x >= grid.width => ("x", tile.x, grid.width, "width"),
        _ if tile.y >= grid.height => ("y", tile.y, grid.height, "height"),
        _ => return None,
    };
    Some((format!("{name} is {value}"), format!("{name} from 0 to {} (`{side}` is {size})", size - 1)))
}

fn pin_range(job: &Job, place: usize, entry: &[u8]) -> Option<(String, String)> {
    let pin = job::pin(entry)?;
    let told = |(found, expected)| (format!("in pin {} {found}", place + 1), expected);
    let layer = || {
        let wrong = !(1..=job.layers).contains(&pin.layer);
        wrong.then(|| (format!("the layer is {}", pin.layer), format!("a layer from 1 to {}", job.layers)))
    };
    outside(job.grid, pin.tile).or_else(layer).map(told)
}

fn edge_range(grid: Grid, place: usize, entry: &[u8]) -> Option<(String, String)> {
    let (tile, way) = job::edge(entry)?;
    let told = |(found, expected)| (format!("in edge {} {found}", place + 1), expected);
    let leaving = || {
        let side = match way {
            Way::East => "last column",
            Way::North => "last row",
        };
        let name = way.name();
        let found = format!("the way {name} from tile {} leaves the grid", named(tile));
        let tiles = format!("{} x {} tiles", grid.width, grid.height);
        let expected = format!("both ends inside the {tiles}; no edge goes {name} from the {side}");
        grid.edge(tile, way).is_none().then_some((found, expected))
    };
    outside(grid, tile).or_else(leaving).map(told)
}

/// 4: the net number.
pub fn turn(site: &Site) -> Option<Finding> {
    let Kind::Net(turn) = site.kind else { return None };
    let (value, start) = site.value()?;
    let found = job::number(value)?;
    let advice = match found {
        _ if found + 1 == turn => {
            format!("net {found} stands twice: number this one {turn}, and the nets after it on from there")
        }
        _ if found > turn => format!(
            "put back the nets before net {found}, or number this one {turn} and the nets after it on from there"
        ),
        _ => format!("number this net {turn}"),
    };
    Some(Finding {
        at: Some(start..start + value.len()),
        found: format!("net number {found}"),
        expected: format!("net number {turn}: this is the {} net of the text", ordinal(turn)),
        advice: Some(advice),
    })
}

/// 1st, 2nd, 3rd, 4th.
fn ordinal(number: usize) -> String {
    let ending = match (number % 10, number % 100) {
        (_, 11..=13) => "th",
        (1, _) => "st",
        (2, _) => "nd",
        (3, _) => "rd",
        _ => "th",
    };
    format!("{number}{ending}")
}

/// The first entry that stands on the line already: what it is, and the places of both.
fn twice<'a, T: std::hash::Hash + Eq>(
    site: &Site<'a>,
    read: impl Fn(&[u8]) -> Option<T>,
) -> Option<(&'a [u8], usize, usize, Range<usize>)> {
    let mut seen = HashMap::new();
    site.entries(b';').into_iter().enumerate().find_map(|(place, (entry, at))| {
        let before = seen.insert(read(entry)?, place)?;
        Some((entry, before + 1, place + 1, at))
    })
}

/// 5: the pin that stands twice.
pub fn pin_twice(site: &Site) -> Option<Finding> {
    let (entry, first, second, at) = twice(site, |entry| job::pin(entry).map(|pin| (pin.tile, pin.layer)))?;
    Some(Finding {
        at: Some(at),
        found: format!("pin {} as entry {first} and again as entry {second}", shortened(entry, 20)),
        expected: "each tile and layer at most once on a `pins` line".into(),
        advice: Some(format!("take entry {second} out, or correct its tile or layer")),
    })
}

/// 6: the edge that stands twice.
pub fn edge_twice(site: &Site) -> Option<Finding> {
    let grid = site.job.grid;
    let (entry, first, second, at) =
        twice(site, |entry| job::edge(entry).and_then(|(tile, way)| grid.edge(tile, way)))?;
    Some(Finding {
        at: Some(at),
        found: format!("edge {} as entry {first} and again as entry {second}", shortened(entry, 20)),
        expected: "each edge at most once on an `edges` line".into(),
        advice: Some(format!("take entry {second} out, or correct it")),
    })
}

/// The edges of the line by their numbers, with their places.
fn edges_of(site: &Site) -> Option<Vec<(usize, Range<usize>)>> {
    let grid = site.job.grid;
    let read = |entry: &[u8]| job::edge(entry).and_then(|(tile, way)| grid.edge(tile, way));
    site.entries(b';').into_iter().map(|(entry, at)| Some((read(entry)?, at))).collect()
}

/// Tiles and the edges between them, for looking for ways along edges.
struct Ways {
    grid: Grid,
    by_tile: HashMap<usize, Vec<usize>>,
}

impl Ways {
    fn new(grid: Grid) -> Ways {
        Ways { grid, by_tile: HashMap::new() }
    }

    fn add(&mut self, edge: usize) {
        let [one, other] = self.grid.ends(edge).map(|tile| self.grid.number(tile));
        self.by_tile.entry(one).or_default().push(other);
        self.by_tile.entry(other).or_default().push(one);
    }

    /// Every tile that is reached from this one.
    fn reached(&self, from: usize) -> HashSet<usize> {
        let mut reached = HashSet::from([from]);
        let mut open = vec![from];
        while let Some(tile) = open.pop() {
            for to in self.by_tile.get(&tile).into_iter().flatten() {
                if reached.insert(*to) {
                    open.push(*to);
                }
            }
        }
        reached
    }
}

/// 8: the first pin that is not reached from the first one, or else the first such edge.
pub fn apart(site: &Site) -> Option<Finding> {
    let grid = site.job.grid;
    let pins = &site.job.nets.last()?.pins;
    let edges = edges_of(site)?;
    let mut ways = Ways::new(grid);
    edges.iter().for_each(|(edge, _)| ways.add(*edge));
    let start = pins.first()?.tile;
    let reached = ways.reached(grid.number(start));
    let missed = |tile: Tile| !reached.contains(&grid.number(tile));
    let lost_pin = pins.iter().position(|pin| missed(pin.tile));
    let lost_edge = edges.iter().position(|(edge, _)| missed(grid.ends(*edge)[0]));
    let (at, lost, tile) = match (lost_pin, lost_edge) {
        (Some(place), _) => {
            let tile = pins[place].tile;
            let line = site.number - 1;
            (None, format!("pin {} of line {line}, {},{}", place + 1, named(tile), pins[place].layer), tile)
        }
        (None, Some(place)) => {
            let (edge, at) = edges[place].clone();
            (Some(at), format!("edge {}, {}", place + 1, edge_named(grid, edge)), grid.ends(edge)[0])
        }
        (None, None) => return None,
    };
    let near = reached
        .iter()
        .map(|number| grid.tile(*number))
        .min_by_key(|near| (near.x.abs_diff(tile.x) + near.y.abs_diff(tile.y), near.y, near.x));
    Some(Finding {
        at,
        found: format!("{lost}, is not reached from the first pin's tile {}", named(start)),
        expected: "all pins and edges of a net joined along its edges".into(),
        advice: near.map(|near| {
            format!(
                "add the edges between tile {}, which is reached, and tile {}; or make two nets of them",
                named(near),
                named(tile)
            )
        }),
    })
}

/// 12: the first track on a layer that runs the other way.
pub fn closed(site: &Site) -> Option<Finding> {
    let (layer, way) = match site.kind {
        Kind::East(layer) => (layer, Way::East),
        Kind::North(layer) => (layer, Way::North),
        _ => return None,
    };
    let runs = site.job.runs(layer).filter(|runs| *runs != way)?.dir();
    let finding = first_entry(site, b',', |place, entry| {
        let value = job::number(entry).filter(|value| *value > 0)?;
        let expected = format!("0: by line {DIRS_LINE} layer {layer} is `{runs}` and carries no {} edges", way.name());
        Some((capacity_at(site, place, value), expected))
    })?;
    let dir = way.dir();
    let advice = format!("write 0 for each capacity of this line, or `{dir}` for layer {layer} on line {DIRS_LINE}");
    Some(Finding { advice: Some(advice), ..finding })
}

/// 13: the first edge whose direction has no layer.
pub fn without_layer(site: &Site) -> Option<Finding> {
    let grid = site.job.grid;
    let letters = job::listed(&site.job.letters()?);
    let way = |edge: usize| grid.named(edge).1;
    let stranded = |(_, (edge, _)): &(usize, (usize, Range<usize>))| site.job.layers_for(way(*edge)) == 0;
    let (place, (edge, at)) = edges_of(site)?.into_iter().enumerate().find(stranded)?;
    let (name, dir) = (way(edge).name(), way(edge).dir());
    Some(Finding {
        at: Some(at),
        found: format!("edge {}, {}, goes {name}, and no layer is `{dir}`", place + 1, edge_named(grid, edge)),
        expected: format!("edges that some layer carries: line {DIRS_LINE} has `dirs={letters}`"),
        advice: Some(format!("take out the edges that go {name}, or write `{dir}` for a layer on line {DIRS_LINE}")),
    })
}

/// What a job takes and what was lent, for 9 to 11.
fn lent_less(what: &str, need: usize, lent: usize) -> Finding {
    Finding {
        found: format!("{lent} {what} lent"),
        expected: format!("{need} or more for this job"),
        ..Finding::default()
    }
}

/// 9: the working numbers, which the first three lines tell.
pub fn work(site: &Site, lent: Lengths) -> Option<Finding> {
    let layers = match site.kind {
        Kind::Dirs => site.job.layers,
        _ => job::number(site.value()?.0)?,
    };
    let need = need(site.job.grid, layers, 0, 0)?;
    Some(lent_less("working numbers", need.work, lent.work))
}

/// 10: the order entries, which the `nets` line tells.
pub fn order(site: &Site, lent: Lengths) -> Option<Finding> {
    Some(lent_less("order entries", job::number(site.value()?.0)?, lent.order))
}

/// 11: the answer list, or else the print buffer.
pub fn lists(text: &[u8], lent: Lengths) -> Option<Finding> {
    let job = job::read(text)?;
    let need = need(job.grid, job.layers, job.nets.len(), job.entries())?;
    Some(match lent.answer < need.answer {
        true => lent_less("bytes of answer list", need.answer, lent.answer),
        false => lent_less("bytes of print buffer", need.print, lent.print),
    })
}

/// The lengths that a job needs; none where no job is like that.
pub fn need(grid: Grid, layers: usize, nets: usize, entries: usize) -> Option<Lengths> {
    let sides = (1..=64).contains(&grid.width) && (1..=64).contains(&grid.height) && (2..=8).contains(&layers);
    let lists = nets <= layerplan::NETS_MOST && entries <= layerplan::TEXT_MOST / 6;
    (sides && lists).then(|| Lengths::needed(grid.width, grid.height, layers, nets, entries))
}

//! A view of a job text, for reports, drawings and explanations only. It decides nothing about acceptance: the library
//! does. It reads the lines that the library found right, and tells what should stand on the first one that is not.
//!
//! What a line is, its key, what comes after it and how it is read each have one place: [`Kind`]'s functions and
//! [`Job::take`]. An optional line is a kind more, with a look at the next line in [`Kind::next`].

use std::collections::BTreeSet;
use std::ops::RangeInclusive;

/// The way that an edge leaves the tile it is named after.
#[derive(Clone, Copy, PartialEq, Eq, Debug)]
pub enum Way {
    East,
    North,
}

impl Way {
    /// The letter on an `edges` line.
    pub fn letter(self) -> char {
        match self {
            Way::East => 'e',
            Way::North => 'n',
        }
    }

    /// The letter on a `dirs` line of a layer that carries such edges.
    pub fn dir(self) -> char {
        match self {
            Way::East => 'h',
            Way::North => 'v',
        }
    }

    /// The same in a word.
    pub fn name(self) -> &'static str {
        match self {
            Way::East => "east",
            Way::North => "north",
        }
    }
}

/// A tile by its column and row.
#[derive(Clone, Copy, PartialEq, Eq, Hash, Debug)]
pub struct Tile {
    pub x: usize,
    pub y: usize,
}

/// The grid of tiles. Tiles are numbered row by row; edges in the order of the capacity lines, all east ones first.
#[derive(Clone, Copy, PartialEq, Eq, Debug, Default)]
pub struct Grid {
    pub width: usize,
    pub height: usize,
}

impl Grid {
    pub fn tiles(self) -> usize {
        self.width * self.height
    }

    pub fn east_edges(self) -> usize {
        self.width.saturating_sub(1) * self.height
    }

    pub fn north_edges(self) -> usize {
        self.width * self.height.saturating_sub(1)
    }

    pub fn edges(self) -> usize {
        self.east_edges() + self.north_edges()
    }

    pub fn has(self, tile: Tile) -> bool {
        tile.x < self.width && tile.y < self.height
    }

    /// The number of a tile.
    pub fn number(self, tile: Tile) -> usize {
        tile.y * self.width + tile.x
    }

    /// The tile with this number.
    pub fn tile(self, number: usize) -> Tile {
        Tile { x: number % self.width, y: number / self.width }
    }

    /// The number of an edge; nothing where it leaves the grid.
    pub fn edge(self, from: Tile, way: Way) -> Option<usize> {
        let to = beyond(from, way);
        match way {
            _ if !self.has(from) || !self.has(to) => None,
            Way::East => Some(from.y * (self.width - 1) + from.x),
            Way::North => Some(self.east_edges() + self.number(from)),
        }
    }

    /// The tile that an edge is named after, and its way.
    pub fn named(self, edge: usize) -> (Tile, Way) {
        match edge.checked_sub(self.east_edges()) {
            None => (Tile { x: edge % (self.width - 1), y: edge / (self.width - 1) }, Way::East),
            Some(number) => (self.tile(number), Way::North),
        }
    }

    /// The two tiles that an edge joins.
    pub fn ends(self, edge: usize) -> [Tile; 2] {
        let (from, way) = self.named(edge);
        [from, beyond(from, way)]
    }
}

/// The tile at the far end of an edge.
fn beyond(from: Tile, way: Way) -> Tile {
    match way {
        Way::East => Tile { x: from.x + 1, y: from.y },
        Way::North => Tile { x: from.x, y: from.y + 1 },
    }
}

#[derive(Clone, Copy, PartialEq, Eq, Debug)]
pub struct Pin {
    pub tile: Tile,
    /// 1, the bottom, to the number of layers.
    pub layer: usize,
}

/// A net: its pins and the numbers of its edges, each in the order of its line.
#[derive(Clone, PartialEq, Eq, Debug, Default)]
pub struct Net {
    /// The number on its `low` line; none where it has no such line.
    pub low: Option<usize>,
    pub pins: Vec<Pin>,
    pub edges: Vec<usize>,
}

impl Net {
    /// The lowest layer that its timing wants: 1, so any layer, where it has no `low` line.
    pub fn wants(&self) -> usize {
        self.low.unwrap_or(1)
    }

    /// In how many different tiles its pins are: pins on several layers of a tile count once in the score.
    pub fn pin_tiles(&self) -> usize {
        self.pins.iter().map(|pin| (pin.tile.x, pin.tile.y)).collect::<BTreeSet<_>>().len()
    }
}

/// A job, as far as its lines were read.
#[derive(Clone, PartialEq, Eq, Debug, Default)]
pub struct Job {
    pub grid: Grid,
    pub layers: usize,
    /// The way of the edges that each layer carries, from the bottom; none where the job has no `dirs` line.
    pub dirs: Option<Vec<Way>>,
    pub alpha: usize,
    pub beta: usize,
    pub gamma: usize,
    /// By layer, from the bottom, then by edge.
    pub capacity: Vec<Vec<usize>>,
    /// What the `nets` line says.
    pub announced: usize,
    pub nets: Vec<Net>,
}

/// What stands on a line, by its place in the text. Layers and nets count from 1.
#[derive(Clone, Copy, PartialEq, Eq, Debug)]
pub enum Kind {
    Width,
    Height,
    Layers,
    /// A line that may be left out.
    Dirs,
    Alpha,
    Beta,
    Gamma,
    East(usize),
    North(usize),
    Nets,
    Net(usize),
    /// A line that may be left out.
    Low(usize),
    Pins(usize),
    Edges(usize),
    /// The text ends before this line.
    End,
}

/// The form of a line's value.
#[derive(Clone, PartialEq, Eq, Debug)]
pub enum Form {
    /// One number from this range.
    Number(RangeInclusive<usize>),
    /// The number of the net in turn, which has no range of its own.
    Turn(usize),
    /// As many letters `h` or `v`, comma between.
    Dirs(usize),
    /// As many numbers, each from this range, comma between.
    Numbers(usize, RangeInclusive<usize>),
    Pins,
    Edges,
    /// No line at all.
    Nothing,
}

/// The keys of a job text, in their order.
pub const KEYS: [&str; 14] = [
    "width", "height", "layers", "dirs", "alpha", "beta", "gamma", "east", "north", "nets", "net", "low", "pins",
    "edges",
];

/// The keys whose lines may be left out.
pub const OPTIONAL_KEYS: [&str; 2] = ["dirs", "low"];

/// The number of the `dirs` line, where there is one.
pub const DIRS_LINE: usize = 4;

/// The most tracks of an edge on one layer.
pub const MOST_CAPACITY: usize = 65_535;

impl Kind {
    /// The key before the `=`; none after the last line.
    pub fn key(self) -> &'static str {
        match self {
            Kind::Width => "width",
            Kind::Height => "height",
            Kind::Layers => "layers",
            Kind::Dirs => "dirs",
            Kind::Alpha => "alpha",
            Kind::Beta => "beta",
            Kind::Gamma => "gamma",
            Kind::East(_) => "east",
            Kind::North(_) => "north",
            Kind::Nets => "nets",
            Kind::Net(_) => "net",
            Kind::Low(_) => "low",
            Kind::Pins(_) => "pins",
            Kind::Edges(_) => "edges",
            Kind::End => "",
        }
    }

    /// What its value looks like, in a job that begins so.
    pub fn form(self, job: &Job) -> Form {
        match self {
            Kind::Width | Kind::Height => Form::Number(1..=64),
            Kind::Layers => Form::Number(2..=8),
            Kind::Dirs => Form::Dirs(job.layers),
            Kind::Alpha | Kind::Beta | Kind::Gamma => Form::Number(0..=255),
            Kind::East(_) => Form::Numbers(job.grid.east_edges(), 0..=MOST_CAPACITY),
            Kind::North(_) => Form::Numbers(job.grid.north_edges(), 0..=MOST_CAPACITY),
            Kind::Nets => Form::Number(0..=4096),
            Kind::Net(turn) => Form::Turn(turn),
            Kind::Low(_) => Form::Number(1..=job.layers),
            Kind::Pins(_) => Form::Pins,
            Kind::Edges(_) => Form::Edges,
            Kind::End => Form::Nothing,
        }
    }

    /// What stands on the next line, once this one is read; `rest` is the text from there on.
    fn next(self, job: &Job, rest: &[u8]) -> Kind {
        match self {
            Kind::Width => Kind::Height,
            Kind::Height => Kind::Layers,
            Kind::Layers if rest.starts_with(b"dirs=") => Kind::Dirs,
            Kind::Layers | Kind::Dirs => Kind::Alpha,
            Kind::Alpha => Kind::Beta,
            Kind::Beta => Kind::Gamma,
            Kind::Gamma => Kind::East(1),
            Kind::East(layer) => Kind::North(layer),
            Kind::North(layer) if layer < job.layers => Kind::East(layer + 1),
            Kind::North(_) => Kind::Nets,
            Kind::Nets if job.announced > 0 => Kind::Net(1),
            Kind::Net(turn) if rest.starts_with(b"low=") => Kind::Low(turn),
            Kind::Net(turn) | Kind::Low(turn) => Kind::Pins(turn),
            Kind::Pins(turn) => Kind::Edges(turn),
            Kind::Edges(turn) if turn < job.announced => Kind::Net(turn + 1),
            Kind::Nets | Kind::Edges(_) | Kind::End => Kind::End,
        }
    }
}

/// One to five digits, without a zero before others.
pub fn number(text: &[u8]) -> Option<usize> {
    let digits = (1..=5).contains(&text.len()) && text.iter().all(u8::is_ascii_digit);
    if !digits || (text.len() > 1 && text[0] == b'0') {
        return None;
    }
    Some(text.iter().fold(0, |sum, digit| 10 * sum + usize::from(digit - b'0')))
}

/// The three parts of an entry of `pins` or `edges`.
pub fn parts(entry: &[u8]) -> Option<[&[u8]; 3]> {
    let mut parts = entry.split(|byte| *byte == b',');
    let three = [parts.next()?, parts.next()?, parts.next()?];
    parts.next().is_none().then_some(three)
}

/// An entry of `pins`, in its form but in any range.
pub fn pin(entry: &[u8]) -> Option<Pin> {
    let [x, y, layer] = parts(entry)?;
    Some(Pin { tile: Tile { x: number(x)?, y: number(y)? }, layer: number(layer)? })
}

/// An entry of `edges`, in its form but in any range.
pub fn edge(entry: &[u8]) -> Option<(Tile, Way)> {
    let [x, y, way] = parts(entry)?;
    let way = match way {
        b"e" => Way::East,
        b"n" => Way::North,
        _ => return None,
    };
    Some((Tile { x: number(x)?, y: number(y)? }, way))
}

/// An entry of `dirs`.
pub fn dir(entry: &[u8]) -> Option<Way> {
    match entry {
        b"h" => Some(Way::East),
        b"v" => Some(Way::North),
        _ => None,
    }
}

/// Letters as they stand on a `dirs` line.
pub fn listed(letters: &[char]) -> String {
    letters.iter().map(char::to_string).collect::<Vec<_>>().join(",")
}

/// The letters of the layers, to stand behind their number; nothing where there are none.
pub fn in_brackets(letters: Option<&[char]>) -> String {
    letters.map_or(String::new(), |letters| format!(" ({})", listed(letters)))
}

/// The entries of a list; an empty value is a list without entries.
pub fn entries(value: &[u8], separator: u8) -> Vec<&[u8]> {
    match value {
        [] => Vec::new(),
        _ => value.split(|byte| *byte == separator).collect(),
    }
}

/// A value where all of them are there.
fn all<T>(entries: Vec<&[u8]>, read: impl Fn(&[u8]) -> Option<T>) -> Option<Vec<T>> {
    entries.into_iter().map(read).collect()
}

impl Job {
    /// Takes in a line of this kind. Nothing comes back where the line is not as a job has it.
    fn take(&mut self, kind: Kind, line: &[u8]) -> Option<()> {
        let value = line.strip_prefix(kind.key().as_bytes())?.strip_prefix(b"=")?;
        match kind {
            Kind::Width => self.grid.width = number(value)?,
            Kind::Height => self.grid.height = number(value)?,
            Kind::Layers => self.layers = number(value)?,
            Kind::Dirs => self.dirs = Some(all(entries(value, b','), dir).filter(|dirs| dirs.len() == self.layers)?),
            Kind::Alpha => self.alpha = number(value)?,
            Kind::Beta => self.beta = number(value)?,
            Kind::Gamma => self.gamma = number(value)?,
            Kind::East(_) => self.capacity.push(self.capacities(value, self.grid.east_edges())?),
            Kind::North(_) => {
                let north = self.capacities(value, self.grid.north_edges())?;
                self.capacity.last_mut()?.extend(north);
            }
            Kind::Nets => self.announced = number(value)?,
            Kind::Net(_) => self.nets.push(Net::default()),
            Kind::Low(_) => self.nets.last_mut()?.low = Some(self.low(value)?),
            Kind::Pins(_) => self.nets.last_mut()?.pins = self.pins(value)?,
            Kind::Edges(_) => self.nets.last_mut()?.edges = self.edges(value)?,
            Kind::End => return None,
        }
        Some(())
    }

    fn capacities(&self, value: &[u8], count: usize) -> Option<Vec<usize>> {
        all(entries(value, b','), number).filter(|list| list.len() == count)
    }

    fn low(&self, value: &[u8]) -> Option<usize> {
        number(value).filter(|low| (1..=self.layers).contains(low))
    }

    fn pins(&self, value: &[u8]) -> Option<Vec<Pin>> {
        let inside = |pin: &Pin| self.grid.has(pin.tile) && (1..=self.layers).contains(&pin.layer);
        all(entries(value, b';'), |entry| pin(entry).filter(inside))
    }

    fn edges(&self, value: &[u8]) -> Option<Vec<usize>> {
        all(entries(value, b';'), |entry| edge(entry).and_then(|(tile, way)| self.grid.edge(tile, way)))
    }

    /// The way of the edges that a layer carries; none where the job has no `dirs` line.
    pub fn runs(&self, layer: usize) -> Option<Way> {
        self.dirs.as_ref().map(|dirs| dirs[layer - 1])
    }

    /// Whether edges of this way may use a layer.
    pub fn carries(&self, layer: usize, way: Way) -> bool {
        self.runs(layer).is_none_or(|runs| runs == way)
    }

    /// How many layers edges of this way may use.
    pub fn layers_for(&self, way: Way) -> usize {
        (1..=self.layers).filter(|layer| self.carries(*layer, way)).count()
    }

    /// The letters of the `dirs` line, from the bottom layer.
    pub fn letters(&self) -> Option<Vec<char>> {
        self.dirs.as_ref().map(|dirs| dirs.iter().map(|way| way.dir()).collect())
    }

    /// Whether some net has a `low` line: then the printed plan ends with `ldof`.
    pub fn has_directives(&self) -> bool {
        self.nets.iter().any(|net| net.low.is_some())
    }

    /// The entries on all `edges` lines.
    pub fn entries(&self) -> usize {
        self.nets.iter().map(|net| net.edges.len()).sum()
    }
}

/// The lines of a text without the bytes that end them. What stands behind the last such byte is no line.
pub fn lines(text: &[u8]) -> impl Iterator<Item = &[u8]> {
    text.split_inclusive(|byte| *byte == b'\n').map_while(|line| line.strip_suffix(b"\n"))
}

/// The line with this number, counted from 1, without its end, and whether byte 10 ends it. A last piece that it does
/// not end is shown too, though it is no line of a job.
pub fn line_at(text: &[u8], number: usize) -> Option<(&[u8], bool)> {
    let piece = text.split_inclusive(|byte| *byte == b'\n').nth(number.checked_sub(1)?)?;
    Some(piece.strip_suffix(b"\n").map_or((piece, false), |line| (line, true)))
}

/// The whole job of a text that the library accepts.
pub fn read(text: &[u8]) -> Option<Job> {
    let (job, kind) = read_before(text, usize::MAX)?;
    (kind == Kind::End).then_some(job)
}

/// The job as far as the lines before this one tell it, and what should stand on this one. Nothing where a line before
/// is not as a job has it: then it is not this line that the library refuses.
pub fn read_before(text: &[u8], line: usize) -> Option<(Job, Kind)> {
    let mut job = Job::default();
    let mut kind = Kind::Width;
    let mut rest = text;
    for content in lines(text).take(line.saturating_sub(1)) {
        job.take(kind, content)?;
        rest = &rest[content.len() + 1..];
        kind = kind.next(&job, rest);
    }
    Some((job, kind))
}

#[cfg(test)]
mod tests {
    use super::*;

    const EXAMPLE: &[u8] = include_bytes!("../../../examples/three-tiles.job");

    #[test]
    fn the_example_is_read_whole() {
        let job = read(EXAMPLE).unwrap();
        assert_eq!((job.grid, job.layers), (Grid { width: 3, height: 1 }, 2));
        assert_eq!(job.capacity, [[1, 1], [1, 1]]);
        assert_eq!((job.nets.len(), job.entries()), (2, 3));
        assert_eq!(job.nets[0].edges, [0, 1]);
        assert_eq!(job.nets[1].pins[1], Pin { tile: Tile { x: 1, y: 0 }, layer: 1 });
    }

    #[test]
    fn each_line_has_its_kind() {
        let kinds: Vec<Kind> = (1..=18).map(|line| read_before(EXAMPLE, line).unwrap().1).collect();
        assert_eq!(kinds[..3], [Kind::Width, Kind::Height, Kind::Layers]);
        assert_eq!(kinds[6..11], [Kind::East(1), Kind::North(1), Kind::East(2), Kind::North(2), Kind::Nets]);
        assert_eq!(kinds[14..], [Kind::Net(2), Kind::Pins(2), Kind::Edges(2), Kind::End]);
        for (place, line) in lines(EXAMPLE).enumerate() {
            assert!(line.starts_with(format!("{}=", kinds[place].key()).as_bytes()));
            assert!(KEYS.contains(&kinds[place].key()));
        }
    }

    const DIRECTED: &[u8] = include_bytes!("../../../examples/directed.job");

    #[test]
    fn directions_are_read_and_move_the_lines_behind_them() {
        let job = read(DIRECTED).unwrap();
        assert_eq!(job.dirs, Some(vec![Way::East, Way::North, Way::East]));
        assert_eq!(job.letters().unwrap(), ['h', 'v', 'h']);
        assert_eq!([Way::East, Way::North].map(|way| job.layers_for(way)), [2, 1]);
        assert!(job.carries(3, Way::East) && !job.carries(3, Way::North) && !job.carries(2, Way::East));
        let kinds: Vec<Kind> = (1..=DIRS_LINE + 5).map(|line| read_before(DIRECTED, line).unwrap().1).collect();
        assert_eq!(kinds[2..5], [Kind::Layers, Kind::Dirs, Kind::Alpha]);
        assert_eq!(kinds[7..], [Kind::East(1), Kind::North(1)]);
        assert!(kinds.iter().all(|kind| KEYS.contains(&kind.key())));
        let plain = read(EXAMPLE).unwrap();
        assert!(plain.letters().is_none() && plain.carries(2, Way::North) && plain.layers_for(Way::East) == 2);
    }

    #[test]
    fn the_line_of_directions_is_there_where_its_key_is() {
        let head = "width=1\nheight=1\nlayers=2\n";
        let kind = |rest: &str, line| read_before(format!("{head}{rest}").as_bytes(), line).map(|(_, kind)| kind);
        for rest in ["dirs=", "dirs=h,v", "dirs=h,v\n", "dirs=x\n"] {
            assert_eq!(kind(rest, 4), Some(Kind::Dirs), "{rest}");
        }
        for rest in ["", "dirs", "dirs\n", "Dirs=h,v\n", " dirs=h,v\n", "alpha=1\n"] {
            assert_eq!(kind(rest, 4), Some(Kind::Alpha), "{rest}");
        }
        assert_eq!(kind("dirs=h,v\ndirs=h,v\n", 5), Some(Kind::Alpha));
        for rest in ["dirs=\n", "dirs=h\n", "dirs=h,v,h\n", "dirs=hv\n", "dirs=h,V\n", "dirs=h,v,\n", "dirs=h, v\n"] {
            assert_eq!(kind(rest, 5), None, "{rest}");
        }
    }

    const TIMING: &[u8] = include_bytes!("../../../examples/timing.job");

    #[test]
    fn wanted_layers_are_read_and_move_the_lines_behind_them() {
        let job = read(TIMING).unwrap();
        let lows: Vec<Option<usize>> = job.nets.iter().map(|net| net.low).collect();
        assert_eq!(lows, [Some(3), Some(3), Some(2), None, Some(2), Some(1)]);
        assert_eq!(job.nets.iter().map(Net::wants).collect::<Vec<_>>(), [3, 3, 2, 1, 2, 1]);
        assert!(job.has_directives() && !read(EXAMPLE).unwrap().has_directives());
        let kinds: Vec<Kind> = (14..=37).map(|line| read_before(TIMING, line).unwrap().1).collect();
        assert_eq!(kinds[..5], [Kind::Net(1), Kind::Low(1), Kind::Pins(1), Kind::Edges(1), Kind::Net(2)]);
        assert_eq!(kinds[12..16], [Kind::Net(4), Kind::Pins(4), Kind::Edges(4), Kind::Net(5)]);
        assert_eq!(kinds[20..], [Kind::Low(6), Kind::Pins(6), Kind::Edges(6), Kind::End]);
        assert!(kinds[..23].iter().all(|kind| KEYS.contains(&kind.key())));
        assert!(OPTIONAL_KEYS.iter().all(|key| KEYS.contains(key)));
    }

    #[test]
    fn the_line_of_a_wanted_layer_is_there_where_its_key_is() {
        let head =
            "width=1\nheight=1\nlayers=2\nalpha=1\nbeta=1\ngamma=0\neast=\nnorth=\neast=\nnorth=\nnets=1\nnet=1\n";
        let kind = |rest: &str, line| read_before(format!("{head}{rest}").as_bytes(), line).map(|(_, kind)| kind);
        for rest in ["low=", "low=2", "low=2\n", "low=x\n", "low=0\n"] {
            assert_eq!(kind(rest, 13), Some(Kind::Low(1)), "{rest}");
        }
        for rest in ["", "low", "low\n", "Low=2\n", " low=2\n", "lows=2\n", "pins=0,0,1\n"] {
            assert_eq!(kind(rest, 13), Some(Kind::Pins(1)), "{rest}");
        }
        assert_eq!(kind("low=2\nlow=2\n", 14), Some(Kind::Pins(1)));
        assert_eq!(kind("pins=0,0,1\nlow=2\n", 14), Some(Kind::Edges(1)));
        for rest in ["low=\n", "low=0\n", "low=3\n", "low=02\n", "low=1,2\n", "low= 2\n"] {
            assert_eq!(kind(rest, 14), None, "{rest}");
        }
    }

    #[test]
    fn numbers_have_one_to_five_digits_and_no_zero_before_others() {
        for (text, value) in [("0", Some(0)), ("99999", Some(99999)), ("00", None), ("", None), ("100000", None)] {
            assert_eq!(number(text.as_bytes()), value, "{text}");
        }
        assert_eq!(number(b"+1"), None);
    }

    #[test]
    fn edges_and_tiles_have_their_numbers() {
        for grid in [(1, 1), (1, 4), (4, 1), (3, 5)].map(|(width, height)| Grid { width, height }) {
            for edge in 0..grid.edges() {
                let (tile, way) = grid.named(edge);
                assert_eq!(grid.edge(tile, way), Some(edge));
                assert!(grid.ends(edge).iter().all(|end| grid.has(*end)));
            }
            for number in 0..grid.tiles() {
                assert_eq!(grid.number(grid.tile(number)), number);
            }
        }
        assert_eq!(Grid { width: 3, height: 1 }.edge(Tile { x: 2, y: 0 }, Way::East), None);
    }

    #[test]
    fn a_last_line_without_its_end_is_none() {
        assert_eq!(lines(b"a\nb").collect::<Vec<_>>(), [b"a"]);
        assert_eq!(lines(b"").count(), 0);
        assert_eq!(
            [1, 2, 3, 0].map(|number| line_at(b"a\nb", number)),
            [Some((&b"a"[..], true)), Some((b"b", false)), None, None]
        );
        assert_eq!(read(&EXAMPLE[..EXAMPLE.len() - 1]), None);
    }
}

//! The walk of each net, over its kept edges. A wrong walk does not show in a plan (see `second::brute`), so it is looked for where it
//! stands: in the working numbers, at the moment when the net's first layer is written into the answer list. The call
//! is watched from outside (`watch.c`).

use layerplan::sys::{Entry, LayerplanResult};
use second::calls::Buffers;
use second::cut::cut;
use second::job::{Grid, Job, Net};
use second::plan::{Plan, Step};
use std::ffi::{c_int, c_void};

extern "C" {
    fn watched_plan(
        text: *const u8,
        text_length: usize,
        work: *mut u32,
        work_length: usize,
        order: *mut Entry,
        order_length: usize,
        answer: *mut u8,
        answer_length: usize,
        tell: extern "C" fn(data: *mut c_void, place: usize),
        data: *mut c_void,
        result: *mut LayerplanResult,
    ) -> c_int;
}

/// What stands in the working numbers of a net, by walk place.
#[derive(Clone, PartialEq, Eq, Debug, Default)]
pub struct Walked {
    pub tiles: Vec<usize>,
    /// The edge above the tile; E at the first.
    pub above: Vec<usize>,
    /// The place behind its last branch, so far.
    pub ends: Vec<usize>,
    /// The layers of the pins in the tile, as bits.
    pub pins: Vec<usize>,
}

/// The walk that the second planner finds, in these words.
pub fn expected(grid: Grid, net: &Net, steps: &[Step]) -> Walked {
    let mut walked = Walked::default();
    let mut end = 1;
    for step in steps {
        assert!(step.branches.iter().copied().eq(end..end + step.branches.len()), "branches follow each other");
        end += step.branches.len();
        let pins = net.pins.iter().filter(|pin| pin.tile == step.tile);
        walked.tiles.push(step.tile);
        walked.above.push(step.edge.unwrap_or(grid.edges()));
        walked.ends.push(end);
        walked.pins.push(pins.map(|pin| 1 << (pin.layer - 1)).sum());
    }
    walked
}

/// Where the walk stands in the working numbers (crate `layout`: `stops_at`, `above_at`, `engine_at`).
fn areas(job: &Job) -> [usize; 4] {
    let (edges, tiles) = (job.grid.edges(), job.grid.tiles());
    let stops = 2 * job.layers * edges + 2 * edges + 6 * tiles;
    [stops, stops + tiles, stops + 2 * tiles, stops + 3 * tiles]
}

struct Watch {
    work: *const u32,
    areas: [usize; 4],
    /// By place in the answer list: the net whose layer stands there, from 0.
    owner: Vec<usize>,
    /// By net: how many tiles it has after the cut, and its walk once it was seen.
    tiles: Vec<usize>,
    seen: Vec<Option<Walked>>,
    /// The nets in the order of their first layers.
    turns: Vec<u32>,
    outside: bool,
}

extern "C" fn tell(data: *mut c_void, place: usize) {
    // SAFETY: `data` is the `Watch` of the call that is stopped here, and nobody else uses it meanwhile
    let watch = unsafe { &mut *data.cast::<Watch>() };
    let Some(net) = watch.owner.get(place).copied() else {
        watch.outside = true;
        return;
    };
    if watch.seen[net].is_none() {
        // SAFETY: the areas lie inside the working numbers that are lent, and the call that writes them is stopped
        let read = |at: usize| unsafe { watch.work.add(at).read_volatile() } as usize;
        let [tiles, above, ends, pins] =
            watch.areas.map(|area| (area..area + watch.tiles[net]).map(read).collect::<Vec<usize>>());
        watch.seen[net] = Some(Walked { tiles, above, ends, pins });
        watch.turns.push(net as u32 + 1);
    }
}

/// Plans an accepted job once more, with exactly the needed lengths, and compares the walk of each net that has entries on
/// its `edges` line, dropped or not, with what `walk` gives over the kept ones, and the nets' turns. How many walks were
/// compared.
pub fn walks(
    text: &[u8],
    job: &Job,
    plan: &Plan,
    seed: u64,
    walk: impl Fn(Grid, &Net) -> Vec<Step>,
) -> Result<usize, String> {
    let Buffers { mut work, order, mut answer, .. } = Buffers::filled(job.need(), seed);
    let mut order = vec![Entry::default(); order.len()];
    let counts = |job: &Job| job.nets.iter().map(|net| net.edges.len()).collect::<Vec<_>>();
    let cut = cut(job);
    let work_pointer = work.as_mut_ptr();
    let mut watch = Watch {
        work: work_pointer,
        areas: areas(job),
        owner: counts(job).into_iter().enumerate().flat_map(|(net, count)| vec![net; count]).collect(),
        tiles: counts(&cut).into_iter().map(|count| count + 1).collect(),
        seen: vec![None; job.nets.len()],
        turns: Vec::new(),
        outside: false,
    };
    let mut r = LayerplanResult { number: 0, line: 0, vias: 0, total: 0, maximum: 0, length: 0 };
    // SAFETY: pointers and lengths are those of slices that overlap nowhere
    let status = unsafe {
        watched_plan(
            text.as_ptr(),
            text.len(),
            work_pointer,
            work.len(),
            order.as_mut_ptr(),
            order.len(),
            answer.as_mut_ptr(),
            answer.len(),
            tell,
            (&mut watch as *mut Watch).cast(),
            &mut r,
        )
    };
    if status != 0 {
        return Err("the system did not let the call be watched".to_string());
    }
    if watch.outside || r.number > 0 || answer != plan.layers.concat() {
        return Err("the watched call went another way".to_string());
    }
    let mut compared = 0;
    for (place, net) in cut.nets.iter().enumerate() {
        let entries = job.nets[place].edges.len();
        let wanted = if entries == 0 { None } else { Some(expected(job.grid, net, &walk(job.grid, net))) };
        if watch.seen[place] != wanted {
            let seen = &watch.seen[place];
            return Err(format!("walk of net {}: {seen:?} where {wanted:?} was expected", place + 1));
        }
        compared += usize::from(wanted.is_some());
    }
    let turns = plan.order.iter().map(|entry| entry.net).filter(|net| !job.nets[*net as usize - 1].edges.is_empty());
    if !turns.eq(watch.turns.iter().copied()) {
        return Err(format!("the nets took their turns as {:?}", watch.turns));
    }
    Ok(compared)
}

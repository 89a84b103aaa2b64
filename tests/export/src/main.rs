//! `compare [SEED] [COUNT]` holds the proved library to the second planner on the jobs of the seeds SEED, SEED + 1 and
//! so on, each drawn from its seed alone: both calls, what they return, and all that every lent buffer then holds. A
//! seed that 500 divides gives a job of the largest size, and half-way between two of these is one with sums at their
//! bounds. The first difference ends the run, and its seed is told.

mod library;
mod walk;

use library::{Library, Wrapped};
use second::calls::{answer, held, Planner};
use second::gen::{draw, Damage, Drawn, Kind};
use second::job::{read, Lengths};
use second::run::Summary;
use std::panic::{catch_unwind, AssertUnwindSafe};
use std::process::exit;
use std::time::Instant;

extern "C" {
    fn tell_crashes() -> std::ffi::c_int;
    fn tell_seed(seed: u64);
}

/// The figures of a run.
#[derive(Default)]
struct Run {
    drawn: Summary,
    /// Accepted jobs of the largest size, and with sums at their bounds.
    largest: usize,
    bounds: usize,
    /// Calls through the Rust wrapper.
    wrapped: usize,
    /// Jobs and nets whose walks were compared.
    watched: usize,
    walks: usize,
}

/// The job of a seed.
fn drawn(seed: u64) -> Drawn {
    let kind = match seed % 500 {
        0 => Kind::Largest,
        250 => Kind::Bounds,
        _ => return draw(seed, None, None),
    };
    let whole = draw(seed, Some(kind), Some(Damage::None));
    Drawn { lent: whole.job.need(), ..whole }
}

impl Run {
    /// All that is compared on the job of a seed.
    fn add(&mut self, seed: u64) -> Result<(), String> {
        let drawn = drawn(seed);
        let Drawn { text, lent, .. } = &drawn;
        self.drawn.add_drawn(&Library, &drawn, seed)?;

        let plan_lent = Lengths { print: None, ..*lent };
        let (planned, printed) = (answer(text, plan_lent), answer(text, *lent));
        let both = |planner: &dyn Planner, seed: u64, calls: &mut usize| {
            held(planner, text, plan_lent, &planned, seed)?;
            held(planner, text, *lent, &printed, seed)?;
            *calls += 2;
            Ok::<(), String>(())
        };
        both(&Wrapped, seed + 2, &mut self.wrapped).map_err(|fault| format!("through the wrapper: {fault}"))?;

        let Ok(plan) = planned else { return Ok(()) };
        self.largest += usize::from(drawn.kind == Kind::Largest);
        self.bounds += usize::from(drawn.kind == Kind::Bounds);
        let job = read(text, plan_lent).map_err(|refusal| format!("{refusal:?} after an accepted call"))?;
        self.walks += walk::walks(text, &job, &plan, seed, second::plan::walk)?;
        self.watched += 1;
        Ok(())
    }
}

fn main() {
    let arguments: Vec<Option<u64>> = std::env::args().skip(1).map(|word| word.parse().ok()).collect();
    let (first, count) = match arguments[..] {
        [] => (1, 2000),
        [Some(seed)] => (seed, 2000),
        [Some(seed), Some(count)] => (seed, count),
        _ => {
            eprintln!("usage: compare [SEED] [COUNT]");
            exit(2)
        }
    };
    // SAFETY: both functions only set what a crash tells
    assert_eq!(unsafe { tell_crashes() }, 0, "signals");
    let start = Instant::now();
    let mut run = Run::default();
    for seed in (0..count).map(|place| first.wrapping_add(place)) {
        unsafe { tell_seed(seed) };
        let told = catch_unwind(AssertUnwindSafe(|| run.add(seed)));
        let fault = match told {
            Ok(Ok(())) => continue,
            Ok(Err(fault)) => fault,
            Err(_) => "a panic".to_string(),
        };
        print!("{}", run.drawn);
        let Drawn { kind, damage, lent, .. } = drawn(seed);
        println!("DIFFERENCE seed {seed} ({kind:?}, {damage:?}, {lent:?}): {fault}");
        println!("again: tests/compare {seed} 1");
        exit(1);
    }
    print!("{}", run.drawn);
    println!("jobs of the largest size: {}, with sums at their bounds: {}", run.largest, run.bounds);
    println!("calls through the Rust wrapper: {}", run.wrapped);
    println!("walks compared: {} nets of {} jobs", run.walks, run.watched);
    println!("seconds: {}", start.elapsed().as_secs());
    println!("no difference");
}

#[cfg(test)]
mod tests {
    use super::*;
    use second::calls::Returned;
    use second::plan::Entry;

    #[test]
    fn a_wrong_walk_is_noticed() {
        // three branches from one tile: east, north, west
        let text = b"width=3\nheight=3\nlayers=2\nalpha=0\nbeta=0\ngamma=0\n\
            east=9,9,9,9,9,9\nnorth=9,9,9,9,9,9\neast=9,9,9,9,9,9\nnorth=9,9,9,9,9,9\n\
            nets=1\nnet=1\npins=1,0,1;0,1,2\nedges=1,0,n;0,1,e;1,1,e;1,1,n\n";
        let ample = Lengths { work: 9999, order: 9, answer: 9, print: None };
        let job = read(text, ample).unwrap();
        let plan = answer(text, ample).unwrap();
        let net = &job.nets[0];
        let steps = second::plan::walk(job.grid, net);
        let tiles: Vec<usize> = steps.iter().map(|step| step.tile).collect();
        assert_eq!(tiles, [1, 4, 5, 7, 3]);
        assert_eq!(walk::walks(text, &job, &plan, 5, second::plan::walk), Ok(1));
        let swapped = |grid, net: &_| {
            let mut steps = second::plan::walk(grid, net);
            steps.swap(2, 3);
            steps
        };
        assert!(walk::walks(text, &job, &plan, 5, swapped).unwrap_err().starts_with("walk of net 1"));
        let mut other = plan.clone();
        other.layers[0][0] ^= 1;
        assert!(walk::walks(text, &job, &other, 5, second::plan::walk).is_err());
    }

    /// The text of a job of so many layers on a square grid, one track on each layer of each edge, with one net of these pins
    /// and of all edges of the grid.
    fn all_edges(side: usize, pins: &str) -> Vec<u8> {
        let tracks = vec!["1"; side * (side - 1)].join(",");
        let layer = format!("east={tracks}\nnorth={tracks}\n");
        let east = (0..side).flat_map(|y| (1..side).map(move |x| format!("{},{y},e", x - 1)));
        let north = (1..side).flat_map(|y| (0..side).map(move |x| format!("{x},{},n", y - 1)));
        let edges = east.chain(north).collect::<Vec<_>>().join(";");
        let head = format!("width={side}\nheight={side}\nlayers=2\nalpha=1\nbeta=1\ngamma=1\n");
        format!("{head}{layer}{layer}nets=1\nnet=1\npins={pins}\nedges={edges}\n").into_bytes()
    }

    #[test]
    fn rings_and_their_walks() {
        let example = include_bytes!("../../../examples/rings.job").to_vec();
        let corners = all_edges(64, "0,0,1;63,63,2;63,0,1;5,60,2");
        // the walk of a net that lost all its edges has one tile
        for (text, walks) in
            [(example, 3), (all_edges(8, "3,3,1;3,3,2"), 1), (all_edges(64, "63,63,1"), 1), (corners, 1)]
        {
            let ample = Lengths { work: 276_224, order: 9, answer: 9000, print: Some(20_000) };
            let expected = answer(&text, ample);
            let job = read(&text, ample).unwrap();
            for lent in [ample, job.need(), Lengths { answer: job.entries() - 1, ..ample }] {
                let expected = answer(&text, lent);
                held(&Library, &text, lent, &expected, 1).unwrap();
                held(&Wrapped, &text, lent, &expected, 2).unwrap();
            }
            assert_eq!(walk::walks(&text, &job, &expected.unwrap(), 5, second::plan::walk), Ok(walks));
        }
    }

    /// The library with one fault put in after each call.
    struct Faulty(fn(&mut [u32], &mut [Entry], &mut Returned));

    impl Planner for Faulty {
        fn plan(&self, text: &[u8], work: &mut [u32], order: &mut [Entry], answer: &mut [u8]) -> Returned {
            let mut returned = Library.plan(text, work, order, answer);
            self.0(work, order, &mut returned);
            returned
        }

        fn print(
            &self,
            text: &[u8],
            work: &mut [u32],
            order: &mut [Entry],
            answer: &mut [u8],
            print: &mut [u8],
        ) -> Returned {
            let mut returned = Library.print(text, work, order, answer, print);
            self.0(work, order, &mut returned);
            returned
        }
    }

    #[test]
    fn faults_are_noticed() {
        let text = include_bytes!("../../../examples/three-tiles.job");
        let lent = Lengths { work: 110, order: 3, answer: 3, print: Some(390) };
        let expected = answer(text, lent);
        held(&Library, text, lent, &expected, 1).unwrap();
        held(&Wrapped, text, lent, &expected, 1).unwrap();
        let faults: [Faulty; 6] = [
            Faulty(|work, _, _| work[109] = 1),
            Faulty(|_, order, _| order[1].score += 1),
            Faulty(|_, order, _| order[2].net ^= 1),
            Faulty(|_, order, _| order[0].low ^= 1),
            Faulty(|_, order, _| order[2].low ^= 1),
            Faulty(|_, _, returned| returned.length += 1),
        ];
        for fault in &faults {
            assert!(held(fault, text, lent, &expected, 1).is_err());
        }
    }
}

//! Drawn jobs, checked; the run of the program `second self`, shorter and with every kind and damage.

use second::calls::{answer, held, Second};
use second::cut::cut;
use second::gen::{draw, write, Damage, Kind, DAMAGES, KINDS};
use second::job::{read, Grid, Job, Lengths, Net, Pin, NO_LONGER, TEXT_LIMIT};
use second::plan::{excess, plan};
use second::run::{Summary, BRUTE_MOST_HAND_OUTS};
use second::{brute, check};

#[test]
fn a_run() {
    let mut summary = Summary::default();
    for seed in 0..600 {
        summary.add(&Second, seed).unwrap();
    }
    println!("{summary}");
    for (number, count) in summary.refused.iter().enumerate() {
        assert_eq!(*count > 0, number != NO_LONGER, "every refusal occurs but one: {number}");
    }
    assert!(summary.brute > 100 && summary.with_directions > 50 && summary.with_many_tracks > 30);
    assert!(summary.with_low_lines > 60 && summary.with_ldof > 30 && summary.hand_outs > 300);
    assert!(
        summary.with_rings > 50 && summary.brute_with_rings > 30 && summary.with_tails > 200 && summary.emptied > 60
    );
}

#[test]
fn tiny_jobs_by_brute_force() {
    let (mut with_ties, mut with_overflow, mut three_branches, mut two_limits, mut many_tracks) = (0, 0, 0, 0, 0);
    let (mut some_go_without, mut some_do_not, mut along, mut rings, mut rings_with_overflow) = (0, 0, 0, 0, 0);
    for seed in 0..400 {
        let drawn = draw(seed, Some(Kind::Tiny), Some(Damage::None));
        let lent = drawn.job.need();
        let plan = answer(&drawn.text, lent).unwrap();
        let returned = held(&Second, &drawn.text, lent, &Ok(plan.clone()), seed).unwrap();
        brute::check(&drawn.job, &plan.order, &plan.layers.concat(), &returned).unwrap();
        let cut = cut(&drawn.job);
        brute::directives(&cut, &excess(&cut), plan.ldof, BRUTE_MOST_HAND_OUTS).unwrap();
        rings += usize::from(cut != drawn.job);
        rings_with_overflow += usize::from(cut != drawn.job && plan.total_overflow > 0);
        let ldof = plan.ldof.unwrap_or(0);
        let high = |net: &Net| if net.low > Some(1) { net.edges.len() as u64 } else { 0 };
        some_go_without += usize::from(ldof > 0);
        some_do_not += usize::from(ldof < cut.nets.iter().map(high).sum());
        along += usize::from(ldof > 0 && drawn.job.dirs.is_some());
        with_ties += usize::from(plan.order.windows(2).any(|pair| pair[0].score == pair[1].score));
        with_overflow += usize::from(plan.total_overflow > 0);
        let walks = cut.nets.iter().map(|net| second::plan::walk(drawn.job.grid, net));
        three_branches += usize::from(walks.flatten().any(|step| step.branches.len() == 3));
        let limits = second::plan::flat(&cut).limits;
        two_limits += usize::from(limits.east != limits.north && limits.east.min(limits.north) > 0);
        let above_255 = drawn.job.capacity.iter().flatten().any(|tracks| *tracks > 255);
        many_tracks += usize::from(above_255 && plan.total_overflow > 0);
    }
    assert!(
        with_ties > 20 && with_overflow > 100 && three_branches > 20 && two_limits > 10 && many_tracks > 20,
        "{with_ties} {with_overflow} {three_branches} {two_limits} {many_tracks}"
    );
    assert!(some_go_without > 80 && some_do_not > 60 && along > 30, "{some_go_without} {some_do_not} {along}");
    assert!(rings > 100 && rings_with_overflow > 50, "{rings} {rings_with_overflow}");
}

/// Two tiles, these tracks on the layers of the edge between, and so many nets that want each layer and up.
fn one_edge(tracks: &[u64], nets: &[u64]) -> Job {
    let net = |low: usize| Net { low: Some(low as u8), pins: vec![Pin { tile: 0, layer: 1 }], edges: vec![0] };
    Job {
        grid: Grid { width: 2, height: 1 },
        layers: tracks.len(),
        dirs: None,
        alpha: 0,
        beta: 0,
        gamma: 0,
        capacity: tracks.iter().map(|tracks| vec![*tracks]).collect(),
        nets: nets.iter().enumerate().flat_map(|(at, count)| vec![net(at + 1); *count as usize]).collect(),
    }
}

/// The digits of a number to the base 3.
fn base_3(number: u64, digits: u32) -> Vec<u64> {
    (0..digits).map(|digit| number / 3u64.pow(digit) % 3).collect()
}

#[test]
fn every_edge_with_few_tracks_and_nets() {
    let (mut ways, mut some_go_without) = (0, 0);
    for layers in 2..=4u32 {
        for number in 0..9u64.pow(layers) {
            let digits = base_3(number, 2 * layers);
            let (tracks, nets) = digits.split_at(layers as usize);
            let job = one_edge(tracks, nets);
            let plan = plan(&job);
            check::check(&job, &plan).unwrap();
            ways += brute::directives(&job, &excess(&job), plan.ldof, u64::MAX).unwrap();
            some_go_without += u64::from(plan.ldof > Some(0));
        }
    }
    assert!(ways > 100_000 && some_go_without > 3000, "{ways} {some_go_without}");
}

/// Every damage on every kind but the largest ones: where the refusal is known beforehand, it is that.
#[test]
fn damages() {
    for (place, (name, kind)) in KINDS.iter().enumerate() {
        for (number, (damage_name, damage)) in DAMAGES.iter().enumerate() {
            let rounds = if [Kind::Tiny, Kind::Congested, Kind::Branchy].contains(kind) { 10 } else { 1 };
            for round in 0..rounds {
                let seed = (place * 1_000_000 + number * 1000 + round) as u64;
                let drawn = draw(seed, Some(*kind), Some(*damage));
                let mut ample = drawn.job.need();
                ample.order += 2;
                for lent in [drawn.lent, ample, Lengths { print: None, ..ample }] {
                    if let Some(outcome) = drawn.outcome(lent) {
                        assert_eq!(read(&drawn.text, lent).err(), outcome, "{name}/{damage_name}, seed {seed}");
                    }
                }
            }
        }
    }
}

#[test]
fn every_kind_is_read_as_drawn() {
    for (name, kind) in KINDS {
        for seed in 0..4 {
            let drawn = draw(seed, Some(kind), Some(Damage::None));
            assert_eq!(read(&drawn.text, drawn.job.need()).as_ref(), Ok(&drawn.job), "{name}, seed {seed}");
            assert_eq!(write(&drawn.job), draw(seed, Some(kind), Some(Damage::None)).text);
            if [Kind::Full, Kind::Largest].contains(&kind) {
                assert_eq!(drawn.text.len(), TEXT_LIMIT);
            }
            if kind == Kind::Largest {
                let Job { grid, layers, nets, .. } = &drawn.job;
                assert_eq!((grid.width, grid.height, *layers, nets.len()), (64, 64, 8, 4096));
            }
        }
    }
}

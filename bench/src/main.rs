//! `bench jobs FOLDER`: the job texts, each in a file of its own.
//! `bench run PLANNER FILE`: the print of a job, or its refusal; where each thing is lent goes to standard error.
//! `bench run PLANNER FILE HOW`: the same for Plan (`plan`), with an answer list that is one byte too short (`short`), with a wrong
//! first byte (`wrong`), or with a wrong first byte on the first `east` line (`east`) or on the `nets` line (`nets`).
//! `bench times FILE COUNT`: the best of so many times of each planner, in nanoseconds.
//! `bench stack PLANNER FILE`: how many bytes of stack a call takes.
//! `bench self SEED COUNT`: draws jobs and damaged texts, and holds each planner to the second planner's answers and buffers.
//! `bench self SEED COUNT PLANNER`: the same of one planner.

use bench::{call, jobs, Buffers, Which, PLANNERS};
use std::hint::black_box;
use std::io::Write;
use std::process::exit;
use std::time::Instant;

fn usage() -> ! {
    eprintln!("bench jobs FOLDER | run PLANNER FILE [plan|short|wrong|east|nets] | times FILE COUNT | stack PLANNER FILE | self SEED COUNT [PLANNER]");
    exit(2)
}

fn named(name: &str) -> Which {
    PLANNERS.iter().find(|(other, _)| *other == name).unwrap_or_else(|| usage()).1
}

fn read(file: &str) -> Vec<u8> {
    std::fs::read(file).unwrap_or_else(|fault| {
        eprintln!("{file}: {fault}");
        exit(2)
    })
}

fn make(folder: &str) -> std::io::Result<()> {
    std::fs::create_dir_all(folder)?;
    for family in jobs::FAMILIES {
        for size in jobs::SIZES {
            std::fs::write(format!("{folder}/{family}-{size}.job"), jobs::job(family, size))?;
        }
    }
    for size in jobs::SIZES {
        std::fs::write(format!("{folder}/unmarked-{size}.job"), jobs::unmarked(size))?;
    }
    // more entries on each line; as many entries on more lines; the head alone
    for edges in [16, 32, 64, 128, 192] {
        std::fs::write(format!("{folder}/entries-{edges}.job"), jobs::growth(512, edges))?;
    }
    for nets in [512, 1024, 2048, 4096] {
        std::fs::write(format!("{folder}/nets-{nets}.job"), jobs::growth(nets, 65536 / nets))?;
    }
    for (least, most) in jobs::DIGITS {
        std::fs::write(format!("{folder}/digits-{least}-{most}.job"), jobs::capacities(least, most))?;
    }
    std::fs::write(format!("{folder}/head.job"), jobs::growth(0, 0))
}

/// Spoils the first byte of the first line with this key.
fn spoil(text: &mut [u8], key: &str) {
    let start = format!("\n{key}=");
    let line = text.windows(start.len()).position(|bytes| bytes == start.as_bytes());
    text[line.unwrap_or_else(|| usage()) + 1] = b'x';
}

/// One call. `how` is empty for Print, `plan` for Plan; `short` lends an answer list that is one byte too short, and `wrong`
/// spoils the first byte of the text: what is refused after the whole text, and at once. `east` and `nets` spoil the line with
/// which the capacities begin, and the line after them.
fn run(which: Which, file: &str, how: &str) {
    let mut text = read(file);
    let mut buffers = Buffers::needed(&text);
    match how {
        "short" => drop(buffers.answer.pop()),
        "wrong" => text[0] = b'x',
        "east" | "nets" => spoil(&mut text, how),
        _ => {}
    }
    let places = [
        (text.as_ptr() as usize, text.len()),
        (buffers.work.as_ptr() as usize, 4 * buffers.work.len()),
        (buffers.order.as_ptr() as usize, 16 * buffers.order.len()),
        (buffers.answer.as_ptr() as usize, buffers.answer.len()),
        (buffers.print.as_ptr() as usize, buffers.print.len()),
    ];
    for (place, length) in places {
        eprintln!("lent {place:#x} {length}");
    }
    let returned = call(which, &text, buffers.lend(how != "plan"));
    if buffers.work.iter().any(|word| *word != 0) {
        eprintln!("{file}: the working numbers are not zero");
        exit(1);
    }
    let refused = format!("refused={},{}\n", returned.number, returned.line);
    let out = match returned.number {
        0 => &buffers.print[..returned.length as usize],
        _ => refused.as_bytes(),
    };
    if std::io::stdout().write_all(out).is_err() {
        exit(2);
    }
}

/// The planners take turns, so that what else the machine does meets them all.
fn times(file: &str, count: usize) {
    let text = read(file);
    let mut buffers = Buffers::needed(&text);
    let mut best = [u128::MAX; PLANNERS.len()];
    for _ in 0..count {
        for (place, (_, which)) in PLANNERS.iter().enumerate() {
            let start = Instant::now();
            black_box(call(*which, black_box(&text), buffers.lend(true)));
            best[place] = best[place].min(start.elapsed().as_nanos());
        }
    }
    println!("{} {} {}", best[0], best[1], best[2]);
}

const PAINTED: usize = 1 << 21;
const PAINT: u8 = 0xa5;

/// The places below the caller's frame: from `PAINTED` bytes below this one up to 256 bytes below it.
#[inline(never)]
fn below() -> std::ops::Range<usize> {
    let here = 0u8;
    let place = std::ptr::from_ref(black_box(&here)).expose_provenance();
    place - PAINTED..place - 256
}

/// How many bytes of its stack a call takes: the stack below is painted before, and the lowest byte is sought that is not paint.
fn stack(which: Which, file: &str) {
    let text = read(file);
    let mut buffers = Buffers::needed(&text);
    let measured = std::thread::Builder::new().stack_size(4 * PAINTED).spawn(move || {
        let area = below();
        for place in area.clone() {
            // SAFETY: inside this thread's stack, below all that is in use.
            unsafe { std::ptr::write_volatile(std::ptr::with_exposed_provenance_mut(place), PAINT) };
        }
        black_box(call(which, &text, buffers.lend(true)));
        // SAFETY: as above.
        let paint = |place: &usize| unsafe {
            std::ptr::read_volatile(std::ptr::with_exposed_provenance::<u8>(*place)) == PAINT
        };
        area.end + 256 - area.clone().find(|place| !paint(place)).unwrap_or(area.end)
    });
    println!("{}", measured.unwrap().join().unwrap());
}

fn check(seed: u64, count: u64, planners: &[(&str, Which)]) {
    for (name, which) in planners {
        let mut summary = second::run::Summary::default();
        for place in 0..count {
            if let Err(fault) = summary.add(which, (seed << 32) + place) {
                println!("{name}: FAILED {fault}");
                exit(1);
            }
        }
        println!("{name}: {summary}");
    }
}

fn main() {
    let arguments: Vec<String> = std::env::args().skip(1).collect();
    let arguments: Vec<&str> = arguments.iter().map(String::as_str).collect();
    let number = |text: &str| text.parse::<u64>().unwrap_or_else(|_| usage());
    match arguments[..] {
        ["jobs", folder] => {
            if let Err(fault) = make(folder) {
                eprintln!("{folder}: {fault}");
                exit(2);
            }
        }
        ["run", which, file] => run(named(which), file, ""),
        ["run", which, file, how] => run(named(which), file, how),
        ["times", file, count] => times(file, number(count) as usize),
        ["stack", which, file] => stack(named(which), file),
        ["self", seed, count] => check(number(seed), number(count), &PLANNERS),
        ["self", seed, count, name] => check(number(seed), number(count), &[(name, named(name))]),
        _ => usage(),
    }
}

//! `second plan FILE`: the print of a job, or its refusal (`-` for standard input).
//! `second gen SEED KIND`: a job text; KIND is a shape, `any`, or either with a damage, as in `tiny/flip`.
//! `second self SEED COUNT`: draws COUNT jobs, checks each, and prints a summary.
//! `second answer`: answers the questions on standard input, a line for each (`ask`).

use second::ask::answer_all;
use second::calls::{Planner, Second};
use second::gen::{draw, DAMAGES, KINDS};
use second::plan::Entry;
use second::run::Summary;
use std::io::{Read, Write};
use std::process::exit;

/// The print program of document 01: what it reads at most, and what it lends.
fn plan(file: &str) -> std::io::Result<Vec<u8>> {
    let mut text = Vec::new();
    match file {
        "-" => std::io::stdin().read_to_end(&mut text)?,
        _ => std::fs::File::open(file)?.read_to_end(&mut text)?,
    };
    if text.len() > 65_536 {
        return Ok(b"refused=1,0\n".to_vec());
    }
    let mut work = vec![0; 16_384];
    let mut order = vec![Entry::default(); 4_096];
    let (mut answer, mut print) = (vec![0; 65_536], vec![0; 65_536]);
    let returned = Second.print(&text, &mut work, &mut order, &mut answer, &mut print);
    if returned.number > 0 {
        return Ok(format!("refused={},{}\n", returned.number, returned.line).into_bytes());
    }
    print.truncate(returned.length as usize);
    Ok(print)
}

fn usage() -> ! {
    let names = |list: Vec<&str>| list.join(" ");
    eprintln!("second plan FILE | second gen SEED KIND | second self SEED COUNT | second answer");
    eprintln!("kinds: any {}", names(KINDS.iter().map(|(name, _)| *name).collect()));
    eprintln!("each with /DAMAGE: {}", names(DAMAGES.iter().map(|(name, _)| *name).collect()));
    exit(2)
}

fn named<T: Copy>(list: &[(&str, T)], name: &str) -> T {
    list.iter().find(|(other, _)| *other == name).unwrap_or_else(|| usage()).1
}

fn main() {
    let arguments: Vec<String> = std::env::args().skip(1).collect();
    let arguments: Vec<&str> = arguments.iter().map(String::as_str).collect();
    let number = |text: &str| text.parse::<u64>().unwrap_or_else(|_| usage());
    let output = match arguments[..] {
        ["plan", file] => plan(file).unwrap_or_else(|fault| {
            eprintln!("{file}: {fault}");
            exit(2)
        }),
        ["gen", seed, kind] => {
            let (kind, damage) = kind.split_once('/').map_or((kind, None), |(kind, damage)| (kind, Some(damage)));
            let any = kind == "any";
            let kind = if any { None } else { Some(named(&KINDS, kind)) };
            let whole = if any { None } else { Some("none") };
            draw(number(seed), kind, damage.or(whole).map(|name| named(&DAMAGES, name))).text
        }
        ["self", seed, count] => {
            let mut summary = Summary::default();
            let first = number(seed) << 32;
            for place in 0..number(count) {
                if let Err(fault) = summary.add(&Second, first + place) {
                    print!("{summary}");
                    println!("FAILED {fault}");
                    exit(1);
                }
            }
            print!("{summary}");
            println!("all passed");
            return;
        }
        ["answer"] => {
            if let Err(fault) = answer_all(std::io::stdin().lock(), std::io::stdout().lock()) {
                eprintln!("second answer: {fault}");
                exit(1);
            }
            return;
        }
        _ => usage(),
    };
    if std::io::stdout().write_all(&output).is_err() {
        exit(2)
    }
}

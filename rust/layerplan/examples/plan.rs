//! Plans the job text in a file and writes its printed plan, or its refusal in words:
//! `cargo run --release --offline --example plan -- ../../examples/three-tiles.job`

use layerplan::Lengths;
use std::io::Write;

fn main() -> Result<(), Box<dyn std::error::Error>> {
    let file = std::env::args().nth(1).ok_or("usage: plan JOB")?;
    let text = std::fs::read(file)?;
    let enough = Lengths::enough(text.len());
    let mut work = vec![0; enough.work];
    let mut order = vec![layerplan::Entry::default(); enough.order];
    let (mut answer, mut out) = (vec![0; enough.answer], vec![0; enough.print]);
    match layerplan::print(&text, &mut work, &mut order, &mut answer, &mut out) {
        Ok(printed) => std::io::stdout().write_all(&out[..printed.length])?,
        Err(refusal) => println!("{refusal}"),
    }
    Ok(())
}

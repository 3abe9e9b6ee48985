//! `generate requests COUNT SEED`: prints COUNT requests for `ask`, of every kind in turn.
//! `generate ties COUNT SEED`: prints COUNT requests that stand at a tie of one test, of every test in turn.
//! `generate sheets COUNT SEED`: prints COUNT sheets for `answer`, each ended by the byte %, of every sampler in turn and
//! damaged ones.
//! `generate tie-kinds COUNT` and `generate sheet-kinds COUNT`: print of which kind each of these is, on a line.
//!
//! The same COUNT and SEED print the same on every machine. Parameters are of every size and at the edges, raw fields too;
//! draws are mostly usable, now and then too few or unusable, and the first trial's are put within two steps of a threshold of
//! its tests; positions are at the start, further on, at the end and above it.

mod requests;
mod samplers;
mod sheets;
mod ties;

use compare::inputs::Random;
use std::io::{BufWriter, Write};

const USAGE: &str =
    "usage: generate requests|ties|sheets COUNT SEED, or generate tie-kinds|sheet-kinds COUNT";

type Run<T> = Result<T, Box<dyn std::error::Error>>;

fn line(text: String) -> Vec<u8> {
    format!("{text}\n").into_bytes()
}

fn sheet(mut bytes: Vec<u8>) -> Vec<u8> {
    bytes.push(b'%');
    bytes
}

// What is made at each turn, the same for the same seed.
fn print(count: &str, seed: &str, make: impl Fn(u64, &mut Random) -> Vec<u8>) -> Run<()> {
    let mut random = Random::new(seed.parse()?);
    let mut out = BufWriter::new(std::io::stdout().lock());
    for turn in 0..count.parse()? {
        out.write_all(&make(turn, &mut random))?;
    }
    out.flush()?;
    Ok(())
}

fn main() -> Run<()> {
    let words: Vec<String> = std::env::args().skip(1).collect();
    let words: Vec<&str> = words.iter().map(String::as_str).collect();
    match words.as_slice() {
        ["requests", count, seed] => print(count, seed, |turn, random| {
            line(requests::request(turn, random))
        }),
        ["ties", count, seed] => print(count, seed, |turn, random| {
            line(ties::request(turn, random))
        }),
        ["sheets", count, seed] => print(count, seed, |turn, random| {
            sheet(sheets::sheet(turn, random))
        }),
        ["tie-kinds", count] => print(count, "0", |turn, _| line(ties::kind(turn))),
        ["sheet-kinds", count] => print(count, "0", |turn, _| line(sheets::kind(turn))),
        _ => Err(USAGE.into()),
    }
}

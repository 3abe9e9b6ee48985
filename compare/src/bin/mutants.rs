//! `mutants COUNT SEED FILE..`: prints COUNT single-token mutants of the files' code, chosen by SEED, from each crate in turn so that none is left
//! out, one to a line: file, number of the line, what was changed, the line as it is, the line as the mutant has it, with tabs between. The entries of
//! constant tables are drawn beside those, 20 of them, so that a long table doesn't crowd the rest out.

use compare::inputs::Random;
use compare::mutants;
use std::collections::BTreeMap;

const ENTRIES: usize = 20;

// crates/NAME/src/..
fn crate_of(file: &str) -> String {
    file.split('/').nth(1).unwrap_or(file).to_string()
}

// Every mutant of a file's code, and whether it is one of an entry of a constant table: an entry by itself, and none in its neighbour's place.
fn rows_of(file: &str, text: &str) -> Vec<(bool, String)> {
    let mut rows = Vec::new();
    for (number, line) in text.lines().enumerate() {
        let function = mutants::function_of(text, number);
        let entry = mutants::has_entries(text, number);
        for mutant in mutants::mutants(line, &function) {
            if entry && mutant.what != "constant" {
                continue;
            }
            let (at, what, new) = (number + 1, mutant.what, mutant.line);
            rows.push((entry, format!("{file}\t{at}\t{what}\t{line}\t{new}")));
        }
    }
    rows
}

// One of what is left, taken away.
fn drawn(rows: &mut Vec<String>, random: &mut Random) -> String {
    let chosen = random.below(rows.len() as u64) as usize;
    rows.swap_remove(chosen)
}

fn main() -> Result<(), Box<dyn std::error::Error>> {
    let words: Vec<String> = std::env::args().skip(1).collect();
    let [count, seed, files @ ..] = words.as_slice() else {
        return Err("usage: mutants COUNT SEED FILE..".into());
    };
    let (count, seed): (usize, u64) = (count.parse()?, seed.parse()?);
    let mut by_crate: BTreeMap<String, Vec<String>> = BTreeMap::new();
    let mut entries = Vec::new();
    for file in files {
        let others = by_crate.entry(crate_of(file)).or_default();
        for (entry, row) in rows_of(file, &std::fs::read_to_string(file)?) {
            if entry {
                entries.push(row);
            } else {
                others.push(row);
            }
        }
    }
    let mut left: Vec<Vec<String>> = by_crate.into_values().collect();
    let others: usize = left.iter().map(Vec::len).sum();
    let all = others + entries.len();
    eprintln!(
        "{all} mutants in all, {} of them of the entries of constant tables",
        entries.len()
    );
    let mut random = Random::new(seed);
    for turn in 0..count.min(others) {
        left.retain(|rows| !rows.is_empty());
        let turns = left.len();
        println!("{}", drawn(&mut left[turn % turns], &mut random));
    }
    for _ in 0..ENTRIES.min(entries.len()) {
        println!("{}", drawn(&mut entries, &mut random));
    }
    Ok(())
}

//! `record`: prints the recorded list, which the repository's own test replays without Rust.
//! `record COUNT SEED`: prints COUNT random calls in the same form.

use compare::inputs;
use std::io::{BufWriter, Write};

fn main() -> Result<(), Box<dyn std::error::Error>> {
    let words: Vec<String> = std::env::args().skip(1).collect();
    let calls = match words.as_slice() {
        [] => inputs::recorded(),
        [count, seed] => inputs::random_calls(count.parse()?, seed.parse()?),
        _ => return Err("usage: record [COUNT SEED]".into()),
    };
    let mut out = BufWriter::new(std::io::stdout().lock());
    for call in calls {
        out.write_all(call.line().as_bytes())?;
    }
    out.flush()?;
    Ok(())
}

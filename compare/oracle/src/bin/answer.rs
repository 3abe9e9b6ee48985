//! `answer`: answers the sheets of standard input, each ended by the byte %, one after the other.
//! `answer one`: answers the one sheet that standard input is.

use oracle::sheet::answer;
use std::io::{BufWriter, Read, Write};

fn main() -> Result<(), Box<dyn std::error::Error>> {
    let words: Vec<String> = std::env::args().skip(1).collect();
    let words: Vec<&str> = words.iter().map(String::as_str).collect();
    let mut input = Vec::new();
    std::io::stdin().lock().read_to_end(&mut input)?;
    let mut out = BufWriter::new(std::io::stdout().lock());
    match words.as_slice() {
        [] => {
            // What stands after the last % is no sheet.
            let mut sheets: Vec<&[u8]> = input.split(|byte| *byte == b'%').collect();
            sheets.pop();
            for sheet in sheets {
                out.write_all(answer(sheet).as_bytes())?;
            }
        }
        ["one"] => out.write_all(answer(&input).as_bytes())?,
        _ => return Err("usage: answer [one]".into()),
    }
    out.flush()?;
    Ok(())
}

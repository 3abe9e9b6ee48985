//! `faults DIRECTORY [NAME..]`: plants each fault of compare/faults.txt, or those named, in the copy of the Rust side that
//! DIRECTORY/tree is, builds it and asks it what the right one was asked; prints a table of what differs.
//!
//! DIRECTORY/requests are for `ask`, DIRECTORY/sheets for `answer`; kernel calls are those of `record`, recorded and random.
//! Ends with 1 where a fault goes unnoticed that the list doesn't say can't be seen, or where one is noticed that it says can't.

use compare::faults::{self, Fault};
use std::error::Error;
use std::fs::{self, File};
use std::path::PathBuf;
use std::process::{Command, Stdio};

type Run<T> = Result<T, Box<dyn Error>>;

struct Copy {
    directory: PathBuf,
}

/// One answer a line: to the requests, to the sheets, and of the kernel calls.
struct Answers([Vec<String>; 3]);

/// How many answers of each kind differ, and the first that does, with its number from 1.
struct Differences {
    counts: [usize; 3],
    first: Option<(usize, usize)>,
}

impl Copy {
    fn place(&self, name: &str) -> PathBuf {
        self.directory.join(name)
    }

    fn build(&self) -> Run<()> {
        // The package of the kernels has a program too, which only a fault of the kernels makes another one.
        for (manifest, programs) in [
            ("tree/compare/Cargo.toml", &["record"][..]),
            ("tree/compare/oracle/Cargo.toml", &["ask", "answer"]),
        ] {
            let output = Command::new("cargo")
                .args(["build", "--quiet", "--offline", "--manifest-path"])
                .arg(self.place(manifest))
                .args(programs.iter().map(|program| format!("--bin={program}")))
                .env("CARGO_TARGET_DIR", self.place("build"))
                .env("EWEB_DOCS_SRC", self.place("tree/docs"))
                .env("RUSTFLAGS", "--cap-lints=allow")
                .output()?;
            if !output.status.success() {
                return Err(String::from_utf8_lossy(&output.stderr).into());
            }
        }
        Ok(())
    }

    // What a program prints. A fault may end it early, so that answers are missing.
    fn printed(&self, program: &str, words: &[&str], input: Stdio) -> Run<String> {
        let output = Command::new(self.place("build/debug").join(program))
            .args(words)
            .stdin(input)
            .stderr(Stdio::null())
            .output()?;
        Ok(String::from_utf8(output.stdout)?)
    }

    fn answers(&self) -> Run<Answers> {
        let file = |name| File::open(self.place(name)).map(Stdio::from);
        let requests = self.printed("ask", &[], file("requests")?)?;
        let sheets = self.printed("answer", &[], file("sheets")?)?;
        let recorded = self.printed("record", &[], Stdio::null())?;
        let random = self.printed("record", &["20000", "5"], Stdio::null())?;
        let calls = recorded + &random;
        let lines = |text: &str| text.lines().map(str::to_string).collect();
        let by_sheet = sheets.split("answer=").skip(1).map(str::to_string);
        Ok(Answers([
            lines(&requests),
            by_sheet.collect(),
            lines(&calls),
        ]))
    }

    // The answers with a fault planted; its text is put back.
    fn faulty(&self, fault: &Fault) -> Run<Answers> {
        let file = self.place("tree").join(&fault.file);
        let text = fs::read_to_string(&file)?;
        fs::write(&file, fault.planted(&text)?)?;
        let answers = self.build().and_then(|()| self.answers());
        fs::write(&file, text)?;
        answers.map_err(|why| format!("{}: {why}", fault.name).into())
    }
}

fn differences(right: &Answers, faulty: &Answers) -> Differences {
    let differ = |i: usize| {
        let (right, faulty) = (&right.0[i], &faulty.0[i]);
        (0..right.len().max(faulty.len())).filter(move |n| right.get(*n) != faulty.get(*n))
    };
    let first = |i: usize| differ(i).next().map(|n| (i, n + 1));
    Differences {
        counts: [0, 1, 2].map(|i| differ(i).count()),
        first: (0..3).find_map(first),
    }
}

// So much of a line as tells what was asked.
fn start(line: &str) -> String {
    let most = 100;
    match line.char_indices().nth(most) {
        None => line.to_string(),
        Some((end, _)) => format!("{}..", &line[..end]),
    }
}

// A table's row; `asked` are the lines of the requests.
fn row(fault: &Fault, differences: &Differences, asked: &[String]) -> String {
    let [requests, sheets, calls] = differences.counts;
    let first = match differences.first {
        None => "none".to_string(),
        Some((0, n)) => format!("request {n}: {}", start(&asked[n - 1])),
        Some((1, n)) => format!("sheet {n}"),
        Some((_, n)) => format!("kernel call {n}"),
    };
    let Fault { name, rule, .. } = fault;
    format!("| {name} | {rule} | {requests} | {sheets} | {calls} | {first} |")
}

// What is wrong with a fault's row, if anything.
fn complaint(fault: &Fault, differences: &Differences) -> Option<String> {
    let name = &fault.name;
    match (&fault.unseen, differences.first) {
        (None, None) => Some(format!("{name}: nothing notices it")),
        (Some(why), Some(_)) => Some(format!("{name}: noticed, and the list says: {why}")),
        _ => None,
    }
}

fn main() -> Run<()> {
    let words: Vec<String> = std::env::args().skip(1).collect();
    let (directory, names) = words
        .split_first()
        .ok_or("usage: faults DIRECTORY [NAME..]")?;
    let directory = fs::canonicalize(directory)?;
    let copy = Copy { directory };
    let faults = faults::read(&fs::read_to_string("compare/faults.txt")?)?;
    let asked = fs::read_to_string(copy.place("requests"))?;
    let asked: Vec<String> = asked.lines().map(str::to_string).collect();
    copy.build()?;
    let right = copy.answers()?;
    let [requests, sheets, calls] = right.0.each_ref().map(Vec::len);
    println!("answers of the right one: {requests} to requests, {sheets} to sheets, {calls} kernel calls\n");
    println!("| fault | rule | requests | sheets | kernel calls | first |");
    println!("|---|---|---|---|---|---|");
    let (mut complaints, mut unseen) = (Vec::new(), Vec::new());
    for fault in faults {
        if !names.is_empty() && !names.contains(&fault.name) {
            continue;
        }
        let differences = differences(&right, &copy.faulty(&fault)?);
        println!("{}", row(&fault, &differences, &asked));
        complaints.extend(complaint(&fault, &differences));
        unseen.extend(fault.unseen.map(|why| format!("{}: {why}", fault.name)));
    }
    println!("\nnot to be seen:\n{}", unseen.join("\n"));
    match complaints.as_slice() {
        [] => Ok(()),
        complaints => Err(complaints.join("\n").into()),
    }
}

#[cfg(test)]
mod tests {
    use super::*;

    fn answers(requests: &[&str], sheets: &[&str]) -> Answers {
        let owned = |lines: &[&str]| lines.iter().map(|line| line.to_string()).collect();
        Answers([owned(requests), owned(sheets), Vec::new()])
    }

    #[test]
    fn answers_that_differ_or_are_missing_are_counted() {
        let right = answers(&["a", "b", "c"], &["x"]);
        let found = differences(&right, &answers(&["a", "d"], &["x"]));
        assert_eq!((found.counts, found.first), ([2, 0, 0], Some((0, 2))));
        let found = differences(&right, &answers(&["a", "b", "c"], &["y"]));
        assert_eq!((found.counts, found.first), ([0, 1, 0], Some((1, 1))));
        let found = differences(&right, &right);
        assert_eq!((found.counts, found.first), ([0, 0, 0], None));
    }

    #[test]
    fn a_row_shows_the_first_request_that_differs() {
        let asked = ["gamma".to_string(), format!("beta {}", "0".repeat(200))];
        let row = |n| {
            let differences = Differences {
                counts: [7, 0, 0],
                first: Some((0, n)),
            };
            row(&Fault::default(), &differences, &asked)
        };
        assert!(row(1).ends_with("| 7 | 0 | 0 | request 1: gamma |"));
        assert!(row(2).ends_with("000.. |"));
        assert!(row(2).len() < 150);
    }

    #[test]
    fn a_fault_is_noticed_unless_the_list_says_why_not() {
        let seen = Fault::default();
        let unseen = Fault {
            unseen: Some("why".to_string()),
            ..Fault::default()
        };
        let differences = |first| Differences {
            counts: [0; 3],
            first,
        };
        assert_eq!(complaint(&seen, &differences(Some((0, 1)))), None);
        assert_eq!(complaint(&unseen, &differences(None)), None);
        assert!(complaint(&seen, &differences(None)).is_some());
        assert!(complaint(&unseen, &differences(Some((0, 1)))).is_some());
    }
}

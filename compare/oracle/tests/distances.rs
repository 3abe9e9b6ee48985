//! The program `distances`: plain f64 beside the kernels, over the same draws.

use std::process::Command;

// The rows of the table, each by its cells.
fn rows(count: &str) -> Vec<Vec<String>> {
    let program = Command::new(env!("CARGO_BIN_EXE_distances"))
        .args([count, "1"])
        .output()
        .unwrap();
    assert!(program.status.success());
    let text = String::from_utf8(program.stdout).unwrap();
    let rows = text.lines().filter(|line| line.starts_with("| ")).skip(1);
    let cells = |row: &str| row.split('|').map(|cell| cell.trim().to_string()).collect();
    rows.map(cells).collect()
}

#[test]
fn samples_are_near_and_decisions_the_same() {
    let rows = rows("300");
    assert_eq!(rows.len(), 27);
    for row in &rows {
        let [_, name, compared, largest, otherwise, ..] = row.as_slice() else {
            panic!("{row:?}");
        };
        assert!(compared.parse::<u64>().unwrap() > 250, "{name}");
        assert!(largest.parse::<u64>().unwrap() < 10_000, "{name}");
        assert_eq!(otherwise, "0", "{name}");
    }
}

// Nothing of the platform's is called where no kernel is.
#[test]
fn samples_without_kernels_are_the_same() {
    for row in rows("300") {
        if row[1] == "gamma, shape 1" || row[1] == "chi, k = 1" {
            assert_eq!((row[3].as_str(), row[8].as_str()), ("0", "0"), "{row:?}");
        }
    }
}

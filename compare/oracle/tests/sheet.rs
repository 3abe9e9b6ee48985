//! The sheet of document 01's text, and each way in which one is wrong.

use oracle::sheet::{answer, read, Name};

const SHEET: &str = "edition=1
sampler=beta
a=3ff0000000000000
b=3ff0000000000000
uniforms=3fe0000000000000,3fe0000000000000
normals=
exponentials=
";

const ANSWER: &str = "answer=sample
bits=3fe0000000000000
uniforms-used=2
normals-used=0
exponentials-used=0
";

#[track_caller]
fn wrong(sheet: &str, line: usize) {
    assert_eq!(read(sheet.as_bytes()).err(), Some(line), "{sheet:?}");
    let refused = format!("answer=refused\ncode=20\nkind=0\nat={line}\n");
    assert_eq!(answer(sheet.as_bytes()), refused);
}

// The sheet with one of its lines another text, or several, or none.
fn with_line(number: usize, text: &str) -> String {
    let lines = SHEET.lines().enumerate().map(|(i, line)| match i + 1 {
        i if i == number => text.to_string(),
        _ => format!("{line}\n"),
    });
    lines.collect()
}

#[test]
fn the_documents_sheet() {
    assert_eq!(answer(SHEET.as_bytes()), ANSWER);
    let sheet = read(SHEET.as_bytes()).unwrap();
    assert_eq!(sheet.name, Name::Beta);
    assert_eq!((sheet.a, sheet.b), (1.0, 1.0));
    assert_eq!(sheet.uniforms, [0.5, 0.5]);
    assert!(sheet.normals.is_empty() && sheet.exponentials.is_empty());
}

#[test]
fn a_refusal_of_the_sampler() {
    let sheet = with_line(5, "uniforms=3fe0000000000000\n");
    let refused = "answer=refused\ncode=19\nkind=1\nat=1\n";
    assert_eq!(answer(sheet.as_bytes()), refused);
    let sheet = with_line(4, "b=0000000000000000\n");
    let refused = "answer=refused\ncode=4\nkind=0\nat=0\n";
    assert_eq!(answer(sheet.as_bytes()), refused);
}

#[test]
fn a_line_missing_or_without_its_line_feed() {
    wrong("", 1);
    wrong("edition=1", 1);
    for (number, line) in SHEET.lines().enumerate().map(|(i, line)| (i + 1, line)) {
        wrong(&with_line(number, ""), number);
        wrong(&with_line(number, line), number);
        wrong(&with_line(number, &format!("{line}\n{line}\n")), number + 1);
        wrong(&with_line(number, &format!("{line} \n")), number);
        wrong(&with_line(number, &format!("{line}\r\n")), number);
    }
}

#[test]
fn a_line_wrong_by_itself() {
    wrong(&with_line(1, "edition=2\n"), 1);
    wrong(&with_line(2, "sampler=pert\n"), 2);
    wrong(&with_line(2, "sampler=Beta\n"), 2);
    wrong(&with_line(3, "a=3FF0000000000000\n"), 3);
    wrong(&with_line(3, "a=+ff0000000000000\n"), 3);
    wrong(&with_line(4, "b=3ff000000000000\n"), 4);
    wrong(&with_line(4, "b=3ff00000000000000\n"), 4);
    wrong(&with_line(6, "normals=,\n"), 6);
    wrong(&with_line(7, "exponentials=3ff0000000000000,\n"), 7);
    wrong(&format!("{SHEET}x"), 8);
    wrong(&format!("{SHEET}\n"), 8);
}

#[test]
fn b_of_a_sampler_that_has_none() {
    for name in ["chi", "student"] {
        let sheet = with_line(2, &format!("sampler={name}\n"));
        wrong(&sheet, 4);
        wrong(&sheet.replace("b=3ff", "b=800"), 4);
        let sheet = sheet.replace("b=3ff", "b=000");
        assert!(read(sheet.as_bytes()).is_ok());
    }
}

#[test]
fn lists_of_64_and_sheets_of_4096_bytes() {
    let draws = |count| vec!["3fe0000000000000"; count].join(",");
    let full = with_line(5, &format!("uniforms={}\n", draws(64)));
    assert_eq!(answer(full.as_bytes()), ANSWER);
    wrong(&with_line(5, &format!("uniforms={}\n", draws(65))), 5);
    let long = |bytes: usize| format!("{SHEET}{}", "x".repeat(bytes - SHEET.len()));
    wrong(&long(4096), 8);
    wrong(&long(4097), 0);
    wrong(&"x".repeat(4097), 0);
}

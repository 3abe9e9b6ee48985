//! The program `ask`, line by line.

use std::io::Write;
use std::process::{Command, Stdio};

fn asked(requests: &[&str]) -> (Vec<String>, bool) {
    let mut program = Command::new(env!("CARGO_BIN_EXE_ask"))
        .stdin(Stdio::piped())
        .stdout(Stdio::piped())
        .spawn()
        .unwrap();
    let mut input = program.stdin.take().unwrap();
    for request in requests {
        writeln!(input, "{request}").unwrap();
    }
    drop(input);
    let output = program.wait_with_output().unwrap();
    let text = String::from_utf8(output.stdout).unwrap();
    (
        text.lines().map(str::to_string).collect(),
        output.status.success(),
    )
}

#[track_caller]
fn answers(request: &str, answer: &str) {
    assert_eq!(asked(&[request]), (vec![answer.to_string()], true));
}

#[test]
fn samples() {
    answers(
        "gamma 3ff0000000000000 4000000000000000 - - 3ff0000000000000 0 0 0",
        "sample 4000000000000000 0 0 1",
    );
    answers(
        "beta 3ff0000000000000 3ff0000000000000 3fe0000000000000 - - 0 0 0",
        "refused 19 1 1 0 0 0",
    );
    answers("chi 0000000000000001 - - - 0 9 0", "refused 5 0 0 0 9 0");
    answers(
        "student 3ff0000000000000 - 4008000000000000,4000000000000000 - 0 0 0",
        "sample 3ff8000000000000 0 2 0",
    );
    answers(
        "fisher 3ff0000000000000 3ff0000000000000 - 4008000000000000,bff0000000000000 - 0 0 0",
        "sample 4022000000000000 0 2 0",
    );
    for request in ["pert-mode", "pert-mean"] {
        let request = format!(
            "{request} 0000000000000000 4024000000000000 - 4014000000000000 \
             3fe0000000000000,3fe0000000000000 - - 0 0 0"
        );
        answers(&request, "sample 4014000000000000 2 0 0");
    }
}

#[test]
fn fills() {
    answers(
        "gamma-fill 3ff0000000000000 4000000000000000 - - 3ff0000000000000,4008000000000000 0 0 0 2 7ff0000000000001",
        "filled 0 0 2 4000000000000000,4018000000000000",
    );
    answers(
        "gamma-fill 3ff0000000000000 4000000000000000 - - 3ff0000000000000,0000000000000000 0 0 0 2 7ff0000000000001",
        "refused 18 3 1 0 0 0 2*0000000000000000",
    );
    answers(
        "gamma-fill 3ff0000000000000 4000000000000000 - - - 0 0 0 2 7ff0000000000001",
        "refused 19 3 0 0 0 0 2*0000000000000000",
    );
    answers(
        "gamma-fill 3ff0000000000000 4000000000000000 - - - 0 0 1 2 7ff0000000000001",
        "refused 17 0 0 0 0 1 2*7ff0000000000001",
    );
    answers(
        "gamma-fill 3ff0000000000000 4000000000000000 - - - 0 0 0 0 0000000000000000",
        "filled 0 0 0 -",
    );
    answers(
        "dirichlet 3ff0000000000000,3ff0000000000000 - - 3ff0000000000000,4008000000000000 0 0 0 2 0000000000000000",
        "filled 0 0 2 3fd0000000000000,3fe8000000000000",
    );
    answers(
        "dirichlet 3ff0000000000000,7ff0000000000000 - - - 0 0 0 1 0000000000000001",
        "refused 13 0 1 0 0 0 0000000000000001",
    );
    answers(
        "dirichlet - - - - 0 0 0 0 0000000000000001",
        "refused 11 0 0 0 0 0 -",
    );
    answers(
        "dirichlet 4*3ff0000000000000 - - 3ff0000000000000,2*4000000000000000,4008000000000000 0 0 0 4 0000000000000001",
        "filled 0 0 4 3fc0000000000000,2*3fd0000000000000,3fd8000000000000",
    );
}

// A sampler made from the fields that a constructor made is that sampler.
#[test]
fn fields_are_raw_samplers() {
    let draws = "3fe0000000000000,3fe0000000000000,3fd0000000000000,3fe0000000000000,3fe0000000000000,3fe0000000000000 \
                 0000000000000000,3ff8000000000000,bfe0000000000000 3ff0000000000000,4000000000000000 0 0 0";
    for (name, raw, arguments, kind) in [
        (
            "gamma",
            "gamma",
            "3fe0000000000000 4000000000000000",
            "small",
        ),
        ("gamma", "gamma", "3ff0000000000000 4000000000000000", "one"),
        (
            "gamma",
            "gamma",
            "4000000000000000 4000000000000000",
            "large",
        ),
        ("beta", "beta", "4000000000000000 4014000000000000", "bb 0"),
        ("beta", "beta", "4014000000000000 4000000000000000", "bb 1"),
        ("beta", "beta", "3ff0000000000000 4000000000000000", "bc 1"),
        ("beta", "beta", "4000000000000000 3ff0000000000000", "bc 0"),
        ("chi", "chi", "3ff0000000000000", "square"),
        ("chi", "chi", "4008000000000000", "gamma large"),
        (
            "fisher",
            "fisher",
            "3ff0000000000000 4008000000000000",
            "square gamma large",
        ),
        ("student", "student", "4000000000000000", "gamma one"),
        (
            "pert-mode",
            "pert",
            "0000000000000000 4024000000000000 4010000000000000 4014000000000000",
            "0000000000000000 4024000000000000 bb 1",
        ),
        (
            "pert-mean",
            "pert",
            "0000000000000000 4024000000000000 - 4014000000000000",
            "0000000000000000 4024000000000000 bb 1",
        ),
    ] {
        let (lines, _) = asked(&[&format!("{name}-fields {arguments}")]);
        let fields = lines[0].strip_prefix("fields ").unwrap();
        assert!(fields.starts_with(kind), "{fields}");
        let (lines, success) = asked(&[
            &format!("{name} {arguments} {draws}"),
            &format!("{raw}-raw {fields} {draws}"),
            &format!("{name}-fill {arguments} {draws} 1 0000000000000000"),
            &format!("{raw}-raw-fill {fields} {draws} 1 0000000000000000"),
        ]);
        assert!(success && lines[0].starts_with("sample "), "{lines:?}");
        assert_eq!(lines[0], lines[1]);
        assert_eq!(lines[2], lines[3]);
    }
    for (alpha, kind) in [
        ("3ff0000000000000,4000000000000000", "gamma 2 one"),
        (
            "3fb0000000000000,3fb0000000000000,3fa0000000000000",
            "beta 2 bc",
        ),
    ] {
        let (lines, _) = asked(&[&format!("dirichlet-fields {alpha}")]);
        let fields = lines[0].strip_prefix("fields ").unwrap();
        assert!(fields.starts_with(kind), "{fields}");
        let count = alpha.split(',').count();
        let (lines, success) = asked(&[
            &format!("dirichlet {alpha} {draws} {count} 0000000000000000"),
            &format!("dirichlet-raw {fields} {draws} {count} 0000000000000000"),
        ]);
        assert!(success && lines[0].starts_with("filled "), "{lines:?}");
        assert_eq!(lines[0], lines[1]);
    }
    answers(
        "gamma-fields 0000000000000000 0000000000000000",
        "refused 1 0 0",
    );
    answers(
        "gamma-raw-fields one fff4000000000077",
        "fields one 7ff8000000000000",
    );
}

#[test]
fn what_is_unreadable_is_said_and_the_rest_answered() {
    let (lines, success) = asked(&[
        "",
        "delta",
        "gamma 3ff0000000000000",
        "gamma 3ff 3ff0000000000000 - - - 0 0 0",
        "gamma 3ff0000000000000 3ff0000000000000 - - - 0 0 -1",
        "gamma 3ff0000000000000 3ff0000000000000 - - - 0 0 0 0",
        "dirichlet-fill - - - - 0 0 0 0 0000000000000000",
        "gamma +ff0000000000000 3ff0000000000000 - - - 0 0 0",
        "gamma 3ff0000000000000 3ff0000000000000 - - 4096*3ff0000000000000,4097*3ff0000000000000 0 0 0",
        "gamma-fill 3ff0000000000000 3ff0000000000000 - - - 0 0 0 8193 0000000000000000",
        "gamma 3ff0000000000000 3ff0000000000000 - - - 0 0 0",
    ]);
    assert!(!success);
    let (last, rest) = lines.split_last().unwrap();
    assert_eq!(last, "refused 19 3 0 0 0 0");
    assert_eq!(rest.len(), 10);
    assert!(
        rest.iter().all(|line| line.starts_with("unreadable ")),
        "{rest:?}"
    );
}

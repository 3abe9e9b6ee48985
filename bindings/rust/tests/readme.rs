//! The README shows the example as it is.

#[test]
fn the_readme_shows_the_example() {
    let readme = include_str!("../../../README.md");
    let example: String = include_str!("../examples/beta.rs")
        .lines()
        .map(|line| format!("    {line}").trim_end().to_string() + "\n")
        .collect();
    assert!(
        readme.contains(&example),
        "the README does not show examples/beta.rs as it is:\n{example}"
    );
}

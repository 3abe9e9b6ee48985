//! A list as one word of a request or of an answer.

/// Words as 16 hex digits with commas between them, `COUNT*WORD` for equal ones next to each other, `-` for none.
///
/// ```
/// assert_eq!(oracle::list(&[]), "-");
/// assert_eq!(oracle::list(&[1, 1, 2]), "2*0000000000000001,0000000000000002");
/// ```
pub fn list(words: &[u64]) -> String {
    let runs: Vec<String> = words
        .chunk_by(|one, next| one == next)
        .map(|run| match run.len() {
            1 => format!("{:016x}", run[0]),
            count => format!("{count}*{:016x}", run[0]),
        })
        .collect();
    match runs.as_slice() {
        [] => "-".to_string(),
        runs => runs.join(","),
    }
}

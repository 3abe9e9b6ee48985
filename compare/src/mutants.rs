//! Single-token mutants of a line of Rattle: programs that are wrong by one slip of the hand.

/// What was changed, and the line with the change.
#[derive(Clone, Debug, PartialEq, Eq)]
pub struct Mutant {
    pub what: &'static str,
    pub line: String,
}

// Each word with those that a slip puts in its place. Formatted code has a space on both sides of an operator.
const OPERATORS: [(&str, &[&str], &str); 16] = [
    (" + ", &[" - "], "operator"),
    (" - ", &[" + "], "operator"),
    (" * ", &[" + ", " / "], "operator"),
    (" / ", &[" * "], "operator"),
    (" % ", &[" / "], "operator"),
    (" += ", &[" -= "], "operator"),
    (" << ", &[" >> "], "operator"),
    (" >> ", &[" << "], "operator"),
    (" < ", &[" <= ", " > "], "comparison"),
    (" <= ", &[" < ", " >= "], "comparison"),
    (" > ", &[" >= ", " < "], "comparison"),
    (" >= ", &[" > ", " <= "], "comparison"),
    (" == ", &[" != "], "comparison"),
    (" != ", &[" == "], "comparison"),
    (" && ", &[" || "], "operator"),
    (" || ", &[" && "], "operator"),
];

// Names that stand for the same kind of thing, so that one can be written for the other.
const NAMES: [[&str; 2]; 14] = [
    ["uniforms", "normals"],
    ["normals", "exponentials"],
    ["p", "at"],
    ["q", "p"],
    ["q", "at"],
    ["uniform", "normal"],
    ["Uniform", "Normal"],
    ["Normal", "Exponential"],
    ["a", "b"],
    ["v", "w"],
    ["u1", "u2"],
    ["numer", "denom"],
    ["min", "max"],
    ["c", "d"],
];

/// The text around a line from its function's first line to the next function's.
pub fn function_of(text: &str, number: usize) -> String {
    let lines: Vec<&str> = text.lines().collect();
    let starts = |line: &&str| line.contains("fn ") && !computes(line);
    let first = lines[..number].iter().rposition(starts).unwrap_or(0);
    let past = lines[number..].iter().position(starts);
    let last = past.map_or(lines.len(), |more| number + more);
    lines[first..last].join("\n")
}

/// Whether the line computes: not a comment, a signature, a promise, a type or an import.
pub fn computes(line: &str) -> bool {
    let text = line.trim_start();
    let declares = [
        "//",
        "use ",
        "pub ",
        "pub(",
        "ghost ",
        "ensures ",
        "ensures* ",
        "requires ",
        "requires* ",
        "fn ",
        "struct ",
        "enum ",
        "impl ",
        "impl<",
        "trait ",
        ") -> ",
        "mod ",
        "#[",
        "#![",
    ];
    !declares.iter().any(|word| text.starts_with(word)) && !text.contains(": &")
}

/// Whether the line has entries of a constant table: numbers alone, after such lines and the one that opens the constant.
pub fn has_entries(text: &str, number: usize) -> bool {
    let lines: Vec<&str> = text.lines().collect();
    let alone = |line: &str| {
        let is_number = |word: &str| word.as_bytes().first().is_some_and(u8::is_ascii_digit);
        let entries = line.trim().strip_suffix(',').map(|all| all.split(", "));
        entries.is_some_and(|mut all| all.all(|one| is_number(one) && one.bytes().all(is_word)))
    };
    let above = lines[..number].iter().rfind(|line| !alone(line));
    alone(lines[number]) && above.is_some_and(|line| line.contains("const "))
}

fn of_operators(line: &str, mutants: &mut Vec<Mutant>) {
    for (old, others, what) in OPERATORS {
        for (at, _) in line.match_indices(old) {
            for new in others {
                let line = format!("{}{new}{}", &line[..at], &line[at + old.len()..]);
                mutants.push(Mutant { what, line });
            }
        }
    }
}

fn is_word(byte: u8) -> bool {
    byte.is_ascii_alphanumeric() || byte == b'_'
}

// The words of a line, numbers with their point included, each with where it starts.
fn words(line: &str) -> Vec<(usize, &str)> {
    let bytes = line.as_bytes();
    let mut found = Vec::new();
    let mut at = 0;
    while at < bytes.len() {
        if !is_word(bytes[at]) {
            at += 1;
            continue;
        }
        let start = at;
        let number = bytes[at].is_ascii_digit();
        while at < bytes.len()
            && (is_word(bytes[at])
                || number && bytes[at] == b'.' && bytes.get(at + 1).is_some_and(u8::is_ascii_digit)
                || number && bytes[at] == b'-' && bytes[at - 1] == b'e')
        {
            at += 1;
        }
        found.push((start, &line[start..at]));
    }
    found
}

fn replaced(line: &str, at: usize, old: &str, new: &str) -> String {
    format!("{}{new}{}", &line[..at], &line[at + old.len()..])
}

// A float's neighbours, a whole number's. A field's number, as in `at.0`, is none.
fn of_numbers(line: &str, mutants: &mut Vec<Mutant>) {
    for (at, word) in words(line) {
        if !word.as_bytes()[0].is_ascii_digit() || line[..at].ends_with('.') {
            continue;
        }
        let others = if word.contains('.') {
            float_neighbours(word)
        } else {
            whole_neighbours(word)
        };
        for new in others {
            mutants.push(Mutant {
                what: "constant",
                line: replaced(line, at, word, &new),
            });
        }
    }
}

fn float_neighbours(word: &str) -> Vec<String> {
    let Ok(x) = word.parse::<f64>() else {
        return Vec::new();
    };
    let up = f64::from_bits(x.to_bits() + 1);
    if x == 0.0 {
        return vec!["1.0".to_string()];
    }
    let down = f64::from_bits(x.to_bits() - 1);
    vec![format!("{up:?}"), format!("{down:?}")]
}

fn whole_neighbours(word: &str) -> Vec<String> {
    let (digits, suffix) = match word.find(['u', 'i']) {
        Some(at) => word.split_at(at),
        None => (word, ""),
    };
    let plain = digits.replace('_', "");
    let value = match plain.strip_prefix("0x") {
        Some(hex) => u64::from_str_radix(hex, 16),
        None => plain.parse(),
    };
    let Ok(n) = value else { return Vec::new() };
    let up = n.checked_add(1).map(|m| format!("{m}{suffix}"));
    let down = n.checked_sub(1).map(|m| format!("{m}{suffix}"));
    up.into_iter().chain(down).collect()
}

// Only a name that the function has anywhere, or the mutant would be no program.
fn of_names(line: &str, function: &str, mutants: &mut Vec<Mutant>) {
    let known: Vec<&str> = words(function).into_iter().map(|(_, word)| word).collect();
    for (at, word) in words(line) {
        let field = line[at + word.len()..].starts_with(':');
        for pair in NAMES {
            let Some(k) = pair.iter().position(|name| *name == word) else {
                continue;
            };
            if !field && known.contains(&pair[1 - k]) {
                mutants.push(Mutant {
                    what: "name",
                    line: replaced(line, at, word, pair[1 - k]),
                });
            }
        }
    }
}

// Neighbours in a list of arguments, and the operands of - and /, exchanged where both are plain words.
fn of_exchanges(line: &str, mutants: &mut Vec<Mutant>) {
    let found = words(line);
    for pair in found.windows(2) {
        let ((i, a), (j, b)) = (pair[0], pair[1]);
        let between = &line[i + a.len()..j];
        if a == b || ![", ", " - ", " / "].contains(&between) {
            continue;
        }
        let line = format!("{}{b}{between}{a}{}", &line[..i], &line[j + b.len()..]);
        mutants.push(Mutant {
            what: "exchange",
            line,
        });
    }
}

// A test turned round.
fn of_negations(line: &str, mutants: &mut Vec<Mutant>) {
    if let Some(at) = line.find("if !") {
        let line = format!("{}if {}", &line[..at], &line[at + 4..]);
        mutants.push(Mutant {
            what: "negation",
            line,
        });
    }
}

/// Every mutant of a line of a function, each different from it.
pub fn mutants(line: &str, function: &str) -> Vec<Mutant> {
    let mut all = Vec::new();
    if computes(line) {
        of_operators(line, &mut all);
        of_numbers(line, &mut all);
        of_names(line, function, &mut all);
        of_exchanges(line, &mut all);
        of_negations(line, &mut all);
        all.retain(|mutant| mutant.line != line);
    }
    all
}

#[cfg(test)]
mod tests {
    use super::*;

    fn lines(line: &str) -> Vec<String> {
        mutants(line, line).into_iter().map(|m| m.line).collect()
    }

    #[test]
    fn a_promise_and_a_signature_are_left_alone() {
        for line in [
            "    ensures { result ≡ x + 1 }",
            "    requires low { x + 1 < 2 }",
            "    ensures* { result ≡ x + 1 }",
            "fn f(a: f64, b: f64) -> f64",
            ") -> Result<Positions, Refusal>",
            "impl<'a> Lent<'a> {",
            "    pub(crate) fn f(a: f64, b: f64) -> f64",
            "// a + b",
            "        uniforms: &[f64],",
        ] {
            assert!(lines(line).is_empty(), "{line}");
        }
    }

    #[test]
    fn each_token_of_a_step_is_tried() {
        let found = lines("        let v = 1.0 + self.shape * x;");
        assert!(found.contains(&"        let v = 1.0 - self.shape * x;".to_string()));
        assert!(found.contains(&"        let v = 1.0 + self.shape / x;".to_string()));
        assert!(found.contains(&"        let v = 1.0000000000000002 + self.shape * x;".to_string()));
        assert!(found.contains(&"        let v = 0.9999999999999999 + self.shape * x;".to_string()));
    }

    #[test]
    fn indices_move_by_one_and_fields_stay() {
        let found = lines("    let uniform = UniformAt(at.0 + 1);");
        assert!(found.contains(&"    let uniform = UniformAt(at.0 + 2);".to_string()));
        assert!(found.contains(&"    let uniform = UniformAt(at.0 + 0);".to_string()));
        assert!(!found.iter().any(|line| line.contains("at.1")));
    }

    #[test]
    fn a_name_is_taken_for_one_of_its_function() {
        let text = "fn f(p: usize, at: usize) {\n    g(p)\n}\nfn h(q: usize) {\n    g(q)\n}";
        let found = mutants("    g(p)", &function_of(text, 1));
        let found: Vec<&str> = found.iter().map(|m| m.line.as_str()).collect();
        assert_eq!(found, ["    g(at)"]);
    }

    #[test]
    fn entries_are_numbers_alone_in_a_constant() {
        let text = "pub const ODD: [u16; 3] = [\n    1, 3,\n    5,\n];\nfn f() -> u64 {\n    g(\n        2,\n    )\n}";
        let entries: Vec<usize> = (0..9).filter(|&k| has_entries(text, k)).collect();
        assert_eq!(entries, [1, 2]);
    }

    #[test]
    fn arguments_change_places() {
        assert!(lines("    f(x, y)").contains(&"    f(y, x)".to_string()));
        assert!(lines("    if !(a > b) {").contains(&"    if (a > b) {".to_string()));
    }
}

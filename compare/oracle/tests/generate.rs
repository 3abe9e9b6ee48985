//! The program `generate`: what it prints can be asked, has the kinds that it says, and is the same on every machine.

use compare::inputs::Random;
use compare::kernels::{ln, NAN};
use oracle::inputs::COMPUTED_NAN;
use oracle::sheet;
use std::collections::{BTreeMap, BTreeSet};
use std::io::Write;
use std::process::{Command, Stdio};

fn printed(words: &[&str]) -> Vec<u8> {
    let program = Command::new(env!("CARGO_BIN_EXE_generate"))
        .args(words)
        .output()
        .unwrap();
    assert!(program.status.success(), "{words:?}");
    program.stdout
}

fn lines(words: &[&str]) -> Vec<String> {
    let text = String::from_utf8(printed(words)).unwrap();
    text.lines().map(str::to_string).collect()
}

fn sheets(count: &str, seed: &str) -> Vec<Vec<u8>> {
    let printed = printed(&["sheets", count, seed]);
    let pieces = printed.split_inclusive(|byte| *byte == b'%');
    pieces
        .map(|piece| piece.strip_suffix(b"%").unwrap().to_vec())
        .collect()
}

#[test]
fn the_same_seed_prints_the_same() {
    for words in [["requests", "200", "3"], ["sheets", "200", "3"]] {
        assert_eq!(printed(&words), printed(&words));
    }
    assert_ne!(sheets("20", "3"), sheets("20", "4"));
}

#[test]
fn sheets_are_right_or_damaged_as_their_kinds_say() {
    let (sheets, kinds) = (sheets("9000", "1"), lines(&["sheet-kinds", "9000"]));
    assert_eq!((sheets.len(), kinds.len()), (9000, 9000));
    let mut wrong: BTreeMap<&str, usize> = BTreeMap::new();
    for (sheet, kind) in sheets.iter().zip(&kinds) {
        // The proved program of many sheets has no room for more.
        assert!(sheet.len() <= 4097, "{kind}");
        let read = sheet::read(sheet);
        match kind.strip_prefix("sheet, ") {
            Some(name) => {
                assert!(read.is_ok(), "{kind}");
                let second = format!("edition=1\nsampler={name}\n");
                assert!(sheet.starts_with(second.as_bytes()), "{kind}");
            }
            None => *wrong.entry(kind).or_default() += usize::from(read.is_err()),
        }
    }
    // Each kind of damage is mostly one; b is wrong for two samplers of five.
    assert_eq!(wrong.len(), 15, "{wrong:?}");
    assert!(wrong.values().all(|count| *count > 20), "{wrong:?}");
}

#[test]
fn sheets_meet_every_line_and_every_kind_of_outcome() {
    let sheets = sheets("30000", "2");
    let answers: Vec<String> = sheets.iter().map(|sheet| sheet::answer(sheet)).collect();
    let some = |start: &str| answers.iter().any(|answer| answer.starts_with(start));
    assert!(some("answer=sample\nbits=7ff8000000000000\n"));
    for line in 0..=8 {
        let start = format!("answer=refused\ncode=20\nkind=0\nat={line}\n");
        assert!(some(&start), "no sheet is wrong in line {line}");
    }
    for code in [1, 2, 3, 4, 5, 6, 7] {
        let start = format!("answer=refused\ncode={code}\nkind=0\nat=0\n");
        assert!(some(&start), "no sheet is refused by {code}");
    }
    for (code, kind) in [(18, 1), (18, 2), (18, 3), (19, 1), (19, 2), (19, 3)] {
        let start = format!("answer=refused\ncode={code}\nkind={kind}\nat=");
        assert!(some(&start), "no sheet is refused by {code} of kind {kind}");
    }
}

// The answers of `ask` to requests that `generate` prints.
fn asked(words: &[&str]) -> Vec<String> {
    let mut program = Command::new(env!("CARGO_BIN_EXE_ask"))
        .stdin(Stdio::piped())
        .stdout(Stdio::piped())
        .spawn()
        .unwrap();
    let mut input = program.stdin.take().unwrap();
    let requests = printed(words);
    let writer = std::thread::spawn(move || input.write_all(&requests).unwrap());
    let output = program.wait_with_output().unwrap();
    writer.join().unwrap();
    let text = String::from_utf8(output.stdout).unwrap();
    text.lines().map(str::to_string).collect()
}

#[test]
fn no_request_is_unreadable() {
    for words in [["requests", "2000", "7"], ["ties", "2000", "7"]] {
        let answers = asked(&words);
        assert_eq!(answers.len(), 2000);
        let unreadable = |answer: &&String| answer.starts_with("unreadable");
        assert_eq!(answers.iter().find(unreadable), None);
    }
}

// A trial that is rejected leaves no draw, so that both sides of each tie are told by the answer.
#[test]
fn ties_fall_on_both_sides_of_every_test() {
    let kinds = lines(&["tie-kinds", "900"]);
    let answers = asked(&["ties", "900", "7"]);
    let mut sides: BTreeMap<&str, [usize; 2]> = BTreeMap::new();
    for (kind, answer) in kinds.iter().zip(&answers) {
        let accepted = answer.starts_with("sample ");
        assert!(accepted || answer.starts_with("refused 19 "), "{answer}");
        sides.entry(kind).or_default()[usize::from(accepted)] += 1;
    }
    assert_eq!(sides.len(), 9);
    let both = |counts: &[usize; 2]| counts.iter().all(|count| *count >= 10);
    assert!(sides.values().all(both), "{sides:?}");
}

// ---- The same on every machine.

const SIGN: u64 = 1 << 63;
// More words than anything below takes of its seed.
const WORDS: usize = 1 << 23;

fn is_nan(word: &u64) -> bool {
    f64::from_bits(*word).is_nan()
}

// How many of a request's words are draws, positions, and the cells of an output.
fn lent(name: &str) -> usize {
    match name {
        _ if name.ends_with("-fields") => 0,
        _ if name.ends_with("-fill") || name == "dirichlet" => 8,
        _ => 6,
    }
}

fn list(word: &str) -> Vec<u64> {
    let number = |number: &str| {
        let digits = number.rsplit('*').next().unwrap();
        let digits = Some(digits).filter(|digits| digits.len() == 16);
        digits.map(|digits| u64::from_str_radix(digits, 16).unwrap())
    };
    word.split(',').filter_map(number).collect()
}

// The numbers of a request, those first that are fields or a PERT's minimum, maximum and middle: a NaN without a payload is
// never chosen for one of them.
fn numbers(request: &str) -> [Vec<u64>; 2] {
    let words: Vec<&str> = request.split(' ').collect();
    let (name, draws) = (words[0], words.len() - lent(words[0]));
    let computed = |i: usize| {
        let pert = name.starts_with("pert") && i != 3;
        i < draws && (pert || name.contains("-raw"))
    };
    let all = |of: bool| {
        let words = words.iter().enumerate().skip(1);
        let words = words.filter(|(i, _)| computed(*i) == of);
        words.flat_map(|(_, word)| list(word)).collect()
    };
    [all(true), all(false)]
}

// Every NaN that this seed can ask, but for those without a payload: the one with a payload that is chosen, those beside a zero
// or an infinity, any word of the seed's own, and the one that stands for all that were computed, with those beside it.
fn nans(seed: u64) -> BTreeSet<u64> {
    let infinity = f64::INFINITY.to_bits();
    let beside = |word: u64| (-4..=4).map(move |steps| word.wrapping_add_signed(steps));
    let of = [COMPUTED_NAN, 0, SIGN, infinity, infinity | SIGN];
    let mut random = Random::new(seed);
    let words = (0..WORDS).map(|_| random.word());
    let all = of.into_iter().flat_map(beside).chain(words);
    all.chain([0x7ff4_0000_0000_0077]).filter(is_nan).collect()
}

// The NaNs among these words that are not allowed there.
fn strange(words: &[u64], allowed: &BTreeSet<u64>) -> Vec<u64> {
    let nans = words.iter().copied().filter(is_nan);
    nans.filter(|nan| !allowed.contains(nan)).collect()
}

// A NaN that arithmetic makes of numbers has no payload, and the machine's own sign; a signalling one that goes through it comes
// out quiet. Neither is settled. Where a NaN without a payload may be chosen too, as a parameter or a draw, only a threshold is
// computed, and four times of five it is a word beside that. Not seen: a quiet NaN of the seed's that goes through arithmetic,
// which mostly hands it on as it is.
#[test]
fn no_nan_of_a_request_has_a_machines_own_bits() {
    let settled = nans(5);
    let chosen = &settled | &BTreeSet::from([NAN, NAN | SIGN]);
    let mut met = 0;
    for kind in ["requests", "ties"] {
        for request in lines(&[kind, "20000", "5"]) {
            let [computed, others] = numbers(&request);
            assert_eq!(strange(&computed, &settled), [], "{request}");
            assert_eq!(strange(&others, &chosen), [], "{request}");
            met += computed.iter().filter(|x| **x == COMPUTED_NAN).count();
        }
    }
    assert!(met > 100, "{met}");
}

#[test]
fn no_nan_of_a_sheet_has_a_machines_own_bits() {
    let chosen = &nans(5) | &BTreeSet::from([NAN, NAN | SIGN]);
    let kinds = lines(&["sheet-kinds", "20000"]);
    for (kind, sheet) in kinds.iter().zip(sheets("20000", "5")) {
        // A damaged number may be any.
        if kind.starts_with("sheet, ") {
            let text = String::from_utf8(sheet).unwrap();
            let values = text.lines().filter_map(|line| line.split_once('='));
            let words: Vec<u64> = values.flat_map(|(_, value)| list(value)).collect();
            assert_eq!(strange(&words, &chosen), [], "{text}");
        }
    }
}

// A draw that is none of these logarithms but stands beside one would be another function's.
#[test]
fn exponentials_are_the_kernels_logarithms() {
    let mut random = Random::new(3);
    let logarithms = (0..1 << 20).map(|_| -ln(random.unit()));
    let logarithms: BTreeSet<u64> = logarithms.map(f64::to_bits).collect();
    let (mut exact, mut beside) = (0, 0);
    for request in lines(&["requests", "3000", "3"]) {
        let words: Vec<&str> = request.split(' ').collect();
        let draws = words.len() - lent(words[0]);
        for draw in words.get(draws + 2).map_or(Vec::new(), |word| list(word)) {
            let near = draw.saturating_sub(4)..=draw.saturating_add(4);
            match logarithms.contains(&draw) {
                true => exact += 1,
                false => beside += logarithms.range(near).count(),
            }
        }
    }
    assert!(exact > 5000, "{exact}");
    assert_eq!(beside, 0);
}

// FNV-1a of what was printed when the makers were last changed. On another machine it has to be the same; ties and sheets are
// recorded nowhere else.
#[test]
fn what_is_printed_is_what_was_recorded() {
    let sum = |kind: &str| {
        let printed = printed(&[kind, "3000", "1"]);
        let step = |sum: u64, byte: &u8| (sum ^ u64::from(*byte)).wrapping_mul(0x100_0000_01b3);
        printed.iter().fold(0xcbf2_9ce4_8422_2325, step)
    };
    let sums = ["requests", "ties", "sheets"].map(sum);
    let recorded = [
        0x1ebb_16b1_93e8_99cd,
        0xdd77_93f2_8bbb_38d6,
        0xdb48_fbdb_f9be_ee11,
    ];
    assert_eq!(sums, recorded, "now {sums:#018x?}");
}

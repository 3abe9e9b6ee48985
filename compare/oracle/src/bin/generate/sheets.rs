//! Sheets for `answer`: right ones of every sampler in turn, and after each five a damaged one.

use compare::inputs::Random;
use oracle::inputs::{bend, Draws, Family, Sampler};

const SAMPLERS: [Family; 5] = [
    Family::Gamma,
    Family::Beta,
    Family::ChiSquared,
    Family::FisherF,
    Family::StudentT,
];

const MOST_DRAWS: u64 = 64;
// One byte more than a sheet may have is as many as `crates/test_sheets` has room for.
const LONGEST: usize = 4097;

type Damage = fn(Vec<u8>, &mut Random) -> Vec<u8>;

const DAMAGES: [(&str, Damage); 15] = [
    ("a byte changed", changed),
    ("a byte removed", removed),
    ("a byte inserted", inserted),
    ("a line missing", line_missing),
    ("a line twice", line_twice),
    ("lines exchanged", lines_exchanged),
    ("upper-case hex", upper_case),
    ("65 numbers", numbers_65),
    ("trailing comma", trailing_comma),
    ("cut short", cut_short),
    ("no last line feed", no_last_feed),
    ("b set", b_set),
    ("bytes after line 7", bytes_after),
    ("4,096 and 4,097 bytes", long),
    ("empty, or no sheet", no_sheet),
];

// The sampler of a sheet by its turn; none is a damaged one.
fn sampler(turn: u64) -> Option<Family> {
    SAMPLERS.get((turn % 6) as usize).copied()
}

fn damage(turn: u64) -> (&'static str, Damage) {
    DAMAGES[(turn / 6) as usize % DAMAGES.len()]
}

/// What the sheet of this turn is, in words.
pub fn kind(turn: u64) -> String {
    match sampler(turn) {
        Some(family) => format!("sheet, {}", family.word()),
        None => format!("damaged, {}", damage(turn).0),
    }
}

/// The sheet of this turn. No byte of it is the %, which ends it.
pub fn sheet(turn: u64, random: &mut Random) -> Vec<u8> {
    if let Some(family) = sampler(turn) {
        return right(family, random);
    }
    let sheet = right(SAMPLERS[random.below(5) as usize], random);
    let (_, damage) = damage(turn);
    let mut sheet = damage(sheet, random);
    sheet.truncate(LONGEST);
    sheet
}

// ---- Right sheets.

// How many draws of each kind are lent: mostly enough for a sample, now and then 64.
fn lengths(family: Family, random: &mut Random) -> [u64; 3] {
    family.enough(1).map(|most| match random.below(24) {
        0 => MOST_DRAWS,
        1 => 1 + random.below(MOST_DRAWS),
        _ => most,
    })
}

fn list(draws: &[f64]) -> String {
    let words: Vec<String> = draws
        .iter()
        .map(|x| format!("{:016x}", x.to_bits()))
        .collect();
    words.join(",")
}

fn right(family: Family, random: &mut Random) -> Vec<u8> {
    let sampler = Sampler::random(family, random);
    let lengths = lengths(family, random);
    let mut draws = Draws::random(random, lengths);
    draws.at = Default::default();
    sampler.aim().put_mostly(&mut draws, random);
    for list in [
        &mut draws.uniforms,
        &mut draws.normals,
        &mut draws.exponentials,
    ] {
        bend(list, random);
    }
    // A sampler of one parameter has the number 0 as its b.
    let words = sampler.words();
    let (a, b) = words
        .split_once(' ')
        .unwrap_or((&words, "0000000000000000"));
    let (u, n, e) = (&draws.uniforms, &draws.normals, &draws.exponentials);
    let (name, u, n, e) = (family.word(), list(u), list(n), list(e));
    format!(
        "edition=1\nsampler={name}\na={a}\nb={b}\nuniforms={u}\nnormals={n}\nexponentials={e}\n"
    )
    .into_bytes()
}

// ---- Damaged ones.

// The byte that ends a sheet can't stand in one.
fn byte(random: &mut Random) -> u8 {
    match random.below(4) {
        0 => b"=,\n\r 0gFA1"[random.below(10) as usize],
        _ => match random.below(255) as u8 {
            b'%' => 255,
            byte => byte,
        },
    }
}

fn place(sheet: &[u8], random: &mut Random) -> usize {
    random.below(sheet.len() as u64) as usize
}

fn changed(mut sheet: Vec<u8>, random: &mut Random) -> Vec<u8> {
    let at = place(&sheet, random);
    sheet[at] = byte(random);
    sheet
}

fn removed(mut sheet: Vec<u8>, random: &mut Random) -> Vec<u8> {
    let at = place(&sheet, random);
    sheet.remove(at);
    sheet
}

fn inserted(mut sheet: Vec<u8>, random: &mut Random) -> Vec<u8> {
    let at = place(&sheet, random);
    sheet.insert(at, byte(random));
    sheet
}

fn lines(sheet: &[u8]) -> Vec<Vec<u8>> {
    let lines = sheet.split_inclusive(|byte| *byte == b'\n');
    lines.map(<[u8]>::to_vec).collect()
}

// The sheet with its lines another list of lines.
fn by_lines(sheet: &[u8], change: impl FnOnce(&mut Vec<Vec<u8>>)) -> Vec<u8> {
    let mut lines = lines(sheet);
    change(&mut lines);
    lines.concat()
}

fn line_missing(sheet: Vec<u8>, random: &mut Random) -> Vec<u8> {
    by_lines(&sheet, |lines| {
        lines.remove(random.below(7) as usize);
    })
}

fn line_twice(sheet: Vec<u8>, random: &mut Random) -> Vec<u8> {
    by_lines(&sheet, |lines| {
        let line = lines[random.below(7) as usize].clone();
        lines.insert(random.below(8) as usize, line);
    })
}

fn lines_exchanged(sheet: Vec<u8>, random: &mut Random) -> Vec<u8> {
    by_lines(&sheet, |lines| {
        let (one, step) = (random.below(7), 1 + random.below(6));
        lines.swap(one as usize, ((one + step) % 7) as usize);
    })
}

fn upper_case(mut sheet: Vec<u8>, random: &mut Random) -> Vec<u8> {
    let lower = |at: &usize| sheet[*at].is_ascii_lowercase();
    let places: Vec<usize> = (0..sheet.len()).filter(lower).collect();
    let at = places[random.below(places.len() as u64) as usize];
    sheet[at].make_ascii_uppercase();
    sheet
}

fn numbers_65(sheet: Vec<u8>, random: &mut Random) -> Vec<u8> {
    let count = 64 + random.below(3) as usize;
    let line = 4 + random.below(3) as usize;
    by_lines(&sheet, |lines| {
        let key = ["uniforms", "normals", "exponentials"][line - 4];
        let draws = list(&vec![0.5; count]);
        lines[line] = format!("{key}={draws}\n").into_bytes();
    })
}

fn trailing_comma(sheet: Vec<u8>, random: &mut Random) -> Vec<u8> {
    by_lines(&sheet, |lines| {
        let line = &mut lines[4 + random.below(3) as usize];
        line.insert(line.len() - 1, b',');
    })
}

fn cut_short(mut sheet: Vec<u8>, random: &mut Random) -> Vec<u8> {
    let at = place(&sheet, random);
    sheet.truncate(at);
    sheet
}

fn no_last_feed(mut sheet: Vec<u8>, _: &mut Random) -> Vec<u8> {
    sheet.pop();
    sheet
}

// Wrong for two of the samplers: b is another number than 0, or the other zero.
fn b_set(sheet: Vec<u8>, random: &mut Random) -> Vec<u8> {
    let b = match random.below(3) {
        0 => 1 << 63,
        1 => 1,
        _ => random.word(),
    };
    by_lines(&sheet, |lines| {
        lines[3] = format!("b={b:016x}\n").into_bytes();
    })
}

fn bytes_after(mut sheet: Vec<u8>, random: &mut Random) -> Vec<u8> {
    let count = 1 + random.below(4);
    sheet.extend((0..count).map(|_| byte(random)));
    sheet
}

fn long(mut sheet: Vec<u8>, random: &mut Random) -> Vec<u8> {
    let bytes = LONGEST - random.below(2) as usize;
    sheet.resize_with(bytes, || byte(random));
    sheet
}

fn no_sheet(_: Vec<u8>, random: &mut Random) -> Vec<u8> {
    let count = random.below(4);
    (0..count).map(|_| byte(random)).collect()
}

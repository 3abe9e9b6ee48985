//! Document 01's sheet: read line by line, and answered by the Rust's samplers. Written from the document's section and the
//! readings in docs/TRACE.md, not from the proved reader.

use crate::{
    beta, chi_squared, fisher_f, gamma, sample, student_t, Lent, Outcome, Positions, Refusal,
};

const MOST_BYTES: usize = 4096;
const MOST_DRAWS: usize = 64;

#[derive(Clone, Copy, Debug, PartialEq, Eq)]
pub enum Name {
    Gamma,
    Beta,
    Chi,
    Fisher,
    Student,
}

impl Name {
    /// As line 2 of a sheet has it.
    pub const ALL: [(&'static str, Name); 5] = [
        ("gamma", Name::Gamma),
        ("beta", Name::Beta),
        ("chi", Name::Chi),
        ("fisher", Name::Fisher),
        ("student", Name::Student),
    ];

    fn of(word: &[u8]) -> Option<Name> {
        let found = Self::ALL.iter().find(|(name, _)| name.as_bytes() == word);
        found.map(|(_, name)| *name)
    }

    fn has_b(self) -> bool {
        !matches!(self, Name::Chi | Name::Student)
    }
}

#[derive(Clone, Debug, PartialEq)]
pub struct Sheet {
    pub name: Name,
    pub a: f64,
    pub b: f64,
    pub uniforms: Vec<f64>,
    pub normals: Vec<f64>,
    pub exponentials: Vec<f64>,
}

/// The number of the first wrong line: 0 of a sheet that is too long, 8 where anything follows line 7.
type Wrong = usize;

// What is left of a sheet, and how many of its lines were read.
struct Lines<'a> {
    rest: &'a [u8],
    read: usize,
}

impl<'a> Lines<'a> {
    // The value of the next line, which is wrong without its line feed, its key, or a value that is understood.
    fn value<T>(
        &mut self,
        key: &str,
        understood: impl Fn(&'a [u8]) -> Option<T>,
    ) -> Result<T, Wrong> {
        self.read += 1;
        let wrong = self.read;
        let end = self.rest.iter().position(|byte| *byte == b'\n');
        let (line, after) = self.rest.split_at(end.ok_or(wrong)?);
        self.rest = &after[1..];
        let value = line.strip_prefix(key.as_bytes());
        value.and_then(understood).ok_or(wrong)
    }

    fn end(&self) -> Result<(), Wrong> {
        match self.rest {
            [] => Ok(()),
            _ => Err(self.read + 1),
        }
    }
}

fn number(digits: &[u8]) -> Option<f64> {
    let lowercase = |byte: &u8| matches!(byte, b'0'..=b'9' | b'a'..=b'f');
    if digits.len() != 16 || !digits.iter().all(lowercase) {
        return None;
    }
    let digits = std::str::from_utf8(digits).ok()?;
    u64::from_str_radix(digits, 16).ok().map(f64::from_bits)
}

fn list(line: &[u8]) -> Option<Vec<f64>> {
    if line.is_empty() {
        return Some(Vec::new());
    }
    let numbers: Vec<f64> = line
        .split(|byte| *byte == b',')
        .map(number)
        .collect::<Option<_>>()?;
    (numbers.len() <= MOST_DRAWS).then_some(numbers)
}

pub fn read(bytes: &[u8]) -> Result<Sheet, Wrong> {
    if bytes.len() > MOST_BYTES {
        return Err(0);
    }
    let mut lines = Lines {
        rest: bytes,
        read: 0,
    };
    lines.value("edition=", |value| (value == b"1").then_some(()))?;
    let name = lines.value("sampler=", Name::of)?;
    let sheet = Sheet {
        name,
        a: lines.value("a=", number)?,
        b: lines.value("b=", |value| {
            number(value).filter(|b| name.has_b() || b.to_bits() == 0)
        })?,
        uniforms: lines.value("uniforms=", list)?,
        normals: lines.value("normals=", list)?,
        exponentials: lines.value("exponentials=", list)?,
    };
    lines.end()?;
    Ok(sheet)
}

impl Sheet {
    /// One sample from the start of the lists.
    pub fn outcome(&self) -> Outcome<u64> {
        let lent = Lent {
            uniforms: &self.uniforms,
            normals: &self.normals,
            exponentials: &self.exponentials,
        };
        let at = Positions::default();
        match self.name {
            Name::Gamma => sample(gamma(self.a, self.b), lent, at),
            Name::Beta => sample(beta(self.a, self.b), lent, at),
            Name::Chi => sample(chi_squared(self.a), lent, at),
            Name::Fisher => sample(fisher_f(self.a, self.b), lent, at),
            Name::Student => sample(student_t(self.a), lent, at),
        }
    }
}

fn refused(refusal: Refusal) -> String {
    let Refusal {
        number,
        kind,
        index,
    } = refusal;
    format!("answer=refused\ncode={number}\nkind={kind}\nat={index}\n")
}

fn sampled(bits: u64, used: Positions) -> String {
    let Positions {
        uniforms,
        normals,
        exponentials,
    } = used;
    format!(
        "answer=sample\nbits={bits:016x}\nuniforms-used={uniforms}\nnormals-used={normals}\nexponentials-used={exponentials}\n"
    )
}

/// The whole answer to a sheet.
///
/// ```
/// assert_eq!(oracle::sheet::answer(b""), "answer=refused\ncode=20\nkind=0\nat=1\n");
/// ```
pub fn answer(bytes: &[u8]) -> String {
    let sheet = match read(bytes) {
        Ok(sheet) => sheet,
        Err(line) => return refused(Refusal::of_element(20, line)),
    };
    let Outcome { answer, at } = sheet.outcome();
    match answer {
        Ok(bits) => sampled(bits, at),
        Err(refusal) => refused(refusal),
    }
}

//! Planted faults: a list of them, and each put into the text that it is a fault of.
//!
//! ```text
//! fault: NAME
//! rule: the words of document 01 or 02 that it breaks
//! file: the text, from the root of the copy that it is planted in
//! old: what stands there exactly once
//! new: what is put for it
//! unseen: why no answer can show it, where none can
//! ```
//!
//! `old` and `new` may come several times, and \n in them is a line feed; an empty line ends a fault, and a line that starts
//! with # says something to a reader.

#[derive(Clone, Debug, Default, PartialEq, Eq)]
pub struct Fault {
    pub name: String,
    pub rule: String,
    pub file: String,
    pub swaps: Vec<Swap>,
    pub unseen: Option<String>,
}

#[derive(Clone, Debug, PartialEq, Eq)]
pub struct Swap {
    pub old: String,
    pub new: String,
}

impl Fault {
    /// The text with the fault in it. What is to be replaced has to stand there exactly once, so that a fault can't go
    /// unplanted or be another one than it says.
    pub fn planted(&self, text: &str) -> Result<String, String> {
        self.swaps
            .iter()
            .try_fold(text.to_string(), |text, Swap { old, new }| {
                match text.matches(old).count() {
                    1 => Ok(text.replacen(old, new, 1)),
                    n => Err(format!("{}: {n} times in {}: {old}", self.name, self.file)),
                }
            })
    }

    fn whole(&self) -> bool {
        let words = [&self.name, &self.rule, &self.file];
        words.iter().all(|word| !word.is_empty()) && !self.swaps.is_empty()
    }

    // One line of the list.
    fn read(&mut self, line: &str) -> Result<(), String> {
        let unknown = || format!("unknown line: {line}");
        let (key, value) = line.split_once(": ").ok_or_else(unknown)?;
        let value = value.replace("\\n", "\n");
        match key {
            "fault" => self.name = value,
            "rule" => self.rule = value,
            "file" => self.file = value,
            "unseen" => self.unseen = Some(value),
            "old" => self.swaps.push(Swap {
                old: value,
                new: String::new(),
            }),
            "new" => match self.swaps.last_mut() {
                Some(swap) if swap.new.is_empty() => swap.new = value,
                _ => return Err(unknown()),
            },
            _ => return Err(unknown()),
        }
        Ok(())
    }
}

pub fn read(list: &str) -> Result<Vec<Fault>, String> {
    let mut faults = Vec::new();
    for block in list.split("\n\n") {
        let mut fault = Fault::default();
        for line in block.lines().filter(|line| !line.starts_with('#')) {
            fault.read(line)?;
        }
        match fault {
            fault if fault == Fault::default() => (),
            fault if fault.whole() => faults.push(fault),
            fault => return Err(format!("not a whole fault: {fault:?}")),
        }
    }
    Ok(faults)
}

#[cfg(test)]
mod tests {
    use super::*;

    const LIST: &str = "# Two faults.\n\nfault: one\nrule: a sentence: of two parts\nfile: a.rs\nold: x < y\nnew: x <= y\n\n\
        fault: two\nrule: r\nfile: b.rs\nold: x\\n\nnew: y\nold: z\nnew: x\nunseen: why\n";

    #[test]
    fn a_list_is_read() {
        let faults = read(LIST).unwrap();
        assert_eq!(faults.len(), 2);
        assert_eq!(faults[0].rule, "a sentence: of two parts");
        assert_eq!(faults[0].unseen, None);
        assert_eq!(faults[1].swaps.len(), 2);
        assert_eq!(faults[1].unseen.as_deref(), Some("why"));
    }

    #[test]
    fn what_is_no_list_is_refused() {
        for list in [
            "fault: one\n",
            "rule\n",
            "fault: one\nnew: y\n",
            "what: x\n",
        ] {
            assert!(read(list).is_err(), "{list}");
        }
    }

    #[test]
    fn a_fault_is_planted_where_its_text_stands_once() {
        let faults = read(LIST).unwrap();
        assert_eq!(
            faults[0].planted("if x < y {").as_deref(),
            Ok("if x <= y {")
        );
        assert!(faults[0].planted("if x > y {").is_err());
        assert!(faults[0].planted("x < y, x < y").is_err());
        assert_eq!(faults[1].planted("x\n z").as_deref(), Ok("y x"));
    }
}

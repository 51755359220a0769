//! Faults and warnings in words, each with its place. All are gathered; the first does not stop the rest.
use geaidnosa::Refusal;
use serde::Serialize;
use std::fmt;

#[derive(Clone, Debug, Serialize, PartialEq)]
pub struct Fault {
    pub file: String,
    pub line: Option<u64>,
    pub words: String,
    /// The number of the table's row by which the library would refuse it.
    pub refusal: Option<u32>,
}

impl fmt::Display for Fault {
    fn fmt(&self, f: &mut fmt::Formatter) -> fmt::Result {
        match self.line {
            Some(line) => write!(f, "{}:{line}: {}", self.file, self.words)?,
            None => write!(f, "{}: {}", self.file, self.words)?,
        }
        match self.refusal {
            Some(number) => write!(f, " (refusal {number})"),
            None => Ok(()),
        }
    }
}

#[derive(Clone, Debug, Default, Serialize)]
pub struct Found {
    pub faults: Vec<Fault>,
    pub warnings: Vec<Fault>,
}

impl Found {
    pub fn fault(&mut self, file: &str, line: Option<u64>, words: impl Into<String>, refusal: Option<Refusal>) {
        self.faults.push(Fault { file: file.into(), line, words: words.into(), refusal: refusal.map(Refusal::number) });
    }

    pub fn warn(&mut self, file: &str, line: Option<u64>, words: impl Into<String>) {
        self.warnings.push(Fault { file: file.into(), line, words: words.into(), refusal: None });
    }

    /// An error with every fault's words, if there is one.
    pub fn judged(&self) -> anyhow::Result<()> {
        if self.faults.is_empty() {
            return Ok(());
        }
        let words: Vec<String> = self.faults.iter().map(Fault::to_string).collect();
        anyhow::bail!("{}", words.join("\n"))
    }
}

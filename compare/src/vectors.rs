//! Vectors: cases in a text format, made apart from both the library and the
//! second program, and held against both. `vectors/README.md` in the folder of
//! this package says what the format is.

mod hold;
mod party;
mod reader;
mod settings;
mod text;

pub use hold::{hold, Difference};
pub use party::{Party, Second};
pub use reader::{read, Calls, Case, Offers, Run, Step};
use std::fmt::{self, Display, Formatter};
use std::fs;
pub use text::Problem;

/// A file of vectors that was read.
pub struct File {
    pub name: String,
    pub cases: Vec<Case>,
}

impl File {
    /// # Errors
    ///
    /// Why it cannot be read, with its name and the line.
    pub fn open(name: &str) -> Result<Self, String> {
        let bytes = fs::read(name).map_err(|why| format!("{name}: {why}"))?;
        File::new(name, &bytes)
    }

    /// # Errors
    ///
    /// As for `open`.
    pub fn new(name: &str, bytes: &[u8]) -> Result<Self, String> {
        let told = |Problem { line, what }| format!("{name}:{line}: {}", what.escape_debug());
        Ok(File {
            name: name.to_string(),
            cases: read(bytes).map_err(told)?,
        })
    }

    /// Holds the library and the second program against every case.
    pub fn hold<L: Party>(&self, library: &L) -> Report<'_> {
        let mut report = Report {
            name: &self.name,
            cases: self.cases.len(),
            calls: self.cases.iter().map(|case| case.calls.count()).sum(),
            differences: Vec::new(),
        };
        for case in &self.cases {
            report.tell(case, L::NAME, hold(library, case));
            report.tell(case, Second::NAME, hold(&Second, case));
        }
        report
    }
}

/// What came of a file.
pub struct Report<'a> {
    name: &'a str,
    pub cases: usize,
    pub calls: usize,
    /// Each in words, with its place.
    pub differences: Vec<String>,
}

impl Report<'_> {
    fn tell(&mut self, case: &Case, party: &str, differences: Vec<Difference>) {
        for Difference { line, call, why } in differences {
            let place = format!("{}:{line}, case {}", self.name, case.number);
            let mut lines = vec![format!("DIFFERENCE at {place}: {party}")];
            lines.extend(case.note.iter().map(|note| format!("note: {note}")));
            lines.push(format!("call: {call}"));
            lines.extend(why);
            self.differences.push(lines.join("\n  "));
        }
    }
}

impl Display for Report<'_> {
    fn fmt(&self, to: &mut Formatter) -> fmt::Result {
        for text in &self.differences {
            writeln!(to, "{text}")?;
        }
        let (cases, calls, differences) = (self.cases, self.calls, self.differences.len());
        let name = self.name;
        write!(
            to,
            "{name}: {cases} cases, {calls} calls, {differences} differences"
        )
    }
}

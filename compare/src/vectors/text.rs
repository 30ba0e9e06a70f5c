//! Lines and words of a file of vectors, and the forms that a word can have.

use std::iter::Peekable;
use std::vec;

/// What is wrong with a file, and in which line.
#[derive(Clone, Debug, PartialEq, Eq)]
pub struct Problem {
    pub line: usize,
    pub what: String,
}

/// A line: its words, of which there is at least one.
#[derive(Clone, Debug)]
pub struct Line<'a> {
    pub number: usize,
    first: &'a str,
    rest: Vec<&'a str>,
}

impl<'a> Line<'a> {
    /// One blank stands between two words. The text of a note is one word.
    fn new(number: usize, text: &'a str) -> Result<Self, Problem> {
        let (first, rest) = text.split_once(' ').unwrap_or((text, ""));
        let rest = match first {
            _ if first == text => Vec::new(),
            NOTE => vec![rest],
            _ => rest.split(' ').collect(),
        };
        let line = Line {
            number,
            first,
            rest,
        };
        if first.is_empty() || line.rest.contains(&"") {
            return Err(line.problem("a blank that stands between no two words"));
        }
        Ok(line)
    }

    pub fn first(&self) -> &'a str {
        self.first
    }

    /// The words behind the first.
    pub fn rest(&self) -> &[&'a str] {
        &self.rest
    }

    /// The words behind the first, which must be so many.
    pub fn words<const N: usize>(&self) -> Result<[&'a str; N], Problem> {
        let words = <[&str; N]>::try_from(&self.rest[..]);
        words.map_err(|_| self.miscounted(&N.to_string()))
    }

    pub fn miscounted(&self, wanted: &str) -> Problem {
        let (first, count) = (self.first, self.rest.len());
        self.problem(format!("{count} words after `{first}`, not {wanted}"))
    }

    pub fn problem(&self, what: impl Into<String>) -> Problem {
        Problem {
            line: self.number,
            what: what.into(),
        }
    }

    /// A word of this line in the form that is wanted.
    pub fn read<F: Form>(&self, word: &str) -> Result<F, Problem> {
        F::read(word).map_err(|what| self.problem(what))
    }
}

pub const NOTE: &str = "note";

/// The lines of a file that are neither empty nor a comment.
pub struct Lines<'a> {
    lines: Peekable<vec::IntoIter<Line<'a>>>,
    /// The number of the line behind the last.
    end: usize,
}

impl<'a> Lines<'a> {
    pub fn new(file: &'a [u8]) -> Result<Self, Problem> {
        let text = ascii(file)?;
        let end = number_of_line(file, file.len());
        if !text.is_empty() && !text.ends_with('\n') {
            let what = "the last line does not end with a newline".to_string();
            return Err(Problem { line: end, what });
        }
        let numbered = text.split('\n').zip(1..);
        let lines: Result<Vec<_>, _> = numbered
            .filter(|(text, _)| !text.is_empty() && !text.starts_with('#'))
            .map(|(text, number)| Line::new(number, text))
            .collect();
        let lines = lines?.into_iter().peekable();
        Ok(Lines { lines, end })
    }

    pub fn at_end(&mut self) -> bool {
        self.lines.peek().is_none()
    }

    /// The next line, where it begins with this word.
    pub fn take_if(&mut self, first: &str) -> Option<Line<'a>> {
        self.lines.next_if(|line| line.first == first)
    }

    /// The next line, which must begin with one of the words that are due.
    pub fn take(&mut self, due: &[&str]) -> Result<Line<'a>, Problem> {
        let wanted = || format!("due is `{}`", due.join("`, `"));
        let Some(line) = self.lines.next() else {
            return Err(self.ended(&wanted()));
        };
        if due.contains(&line.first) {
            return Ok(line);
        }
        let (first, wanted) = (line.first, wanted());
        let what = format!("`{first}` is unknown or out of its place: {wanted}");
        Err(line.problem(what))
    }

    /// The problem of a file that ends here.
    pub fn ended(&self, wanted: &str) -> Problem {
        Problem {
            line: self.end,
            what: format!("the file ends: {wanted}"),
        }
    }
}

fn number_of_line(file: &[u8], offset: usize) -> usize {
    1 + file[..offset].iter().filter(|&&byte| byte == b'\n').count()
}

fn ascii(file: &[u8]) -> Result<&str, Problem> {
    match file.iter().position(|byte| !byte.is_ascii()) {
        None => Ok(std::str::from_utf8(file).expect("ASCII is UTF-8")),
        Some(offset) => Err(Problem {
            line: number_of_line(file, offset),
            what: "a byte that is not ASCII".to_string(),
        }),
    }
}

/// A form that a word can have. The field that a word goes to decides on it:
/// an integer is a NUMBER that fits it, a bool a FLAG, bytes are HEX, and what
/// may be missing is an OFFER.
pub trait Form: Sized {
    /// # Errors
    ///
    /// What is wrong with the word.
    fn read(word: &str) -> Result<Self, String>;
}

fn is_digit(byte: u8) -> bool {
    matches!(byte, b'0'..=b'9' | b'a'..=b'f')
}

impl Form for u64 {
    fn read(word: &str) -> Result<Self, String> {
        let (digits, radix) = match word.strip_prefix("0x") {
            Some(digits) => (digits, 16),
            None => (word, 10),
        };
        let number = u64::from_str_radix(digits, radix).ok();
        number
            .filter(|_| digits.bytes().all(is_digit))
            .ok_or_else(|| format!("`{word}` is no NUMBER below 2^64"))
    }
}

impl Form for Option<u64> {
    fn read(word: &str) -> Result<Self, String> {
        match word {
            "unreachable" => Ok(None),
            _ => u64::read(word).map(Some),
        }
    }
}

fn narrow<N: TryFrom<u64>>(word: &str) -> Result<N, String> {
    let number = u64::read(word)?;
    N::try_from(number).map_err(|_| format!("`{word}` is too large for its field"))
}

impl Form for u8 {
    fn read(word: &str) -> Result<Self, String> {
        narrow(word)
    }
}

impl Form for u16 {
    fn read(word: &str) -> Result<Self, String> {
        narrow(word)
    }
}

impl Form for usize {
    fn read(word: &str) -> Result<Self, String> {
        narrow(word)
    }
}

impl Form for bool {
    fn read(word: &str) -> Result<Self, String> {
        match u64::read(word) {
            Ok(0) => Ok(false),
            Ok(1) => Ok(true),
            _ => Err(format!("`{word}` is no FLAG: 0 or 1")),
        }
    }
}

impl Form for Vec<u8> {
    fn read(word: &str) -> Result<Self, String> {
        let pairs = !word.is_empty() && word.len() & 1 == 0;
        if !pairs || !word.bytes().all(is_digit) {
            return Err(format!("`{word}` is no HEX"));
        }
        let byte = |at| u8::from_str_radix(&word[at..at + 2], 16).expect("two digits");
        Ok((0..word.len()).step_by(2).map(byte).collect())
    }
}

impl<const N: usize> Form for [u8; N] {
    fn read(word: &str) -> Result<Self, String> {
        let bytes = Vec::read(word)?;
        let count = bytes.len();
        bytes
            .try_into()
            .map_err(|_| format!("`{word}` has {count} bytes, not {N}"))
    }
}

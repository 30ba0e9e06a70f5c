//! Descriptions: a regime, tables and one access, as text. `HELP` in `main.rs`
//! has the format.

use std::fmt;

use vmsa::{Access, AccessKind, Granule, OutputSize, PhysAddr, Regime, VirtAddr};

use crate::reader::Tables;

/// What is to be explained.
#[derive(Debug, PartialEq)]
pub struct Description {
    pub title: Option<String>,
    pub regime: Regime,
    pub access: Access,
    pub tables: Tables,
}

/// What is wrong with a description, and in which line, counted from 1.
#[derive(Debug, PartialEq)]
pub struct Error {
    pub line: usize,
    pub text: String,
}

impl fmt::Display for Error {
    fn fmt(&self, f: &mut fmt::Formatter<'_>) -> fmt::Result {
        write!(f, "line {}: {}", self.line, self.text)
    }
}

impl std::error::Error for Error {}

type Parsed<T> = Result<T, String>;

/// Reads a description.
pub fn parse(text: &str) -> Result<Description, Error> {
    let mut parser = Parser::default();
    let mut last = 1;
    for (number, line) in (1..).zip(text.lines()) {
        let told = line.split('#').next().unwrap_or_default();
        parser
            .line(told.trim())
            .map_err(|text| Error { line: number, text })?;
        last = number;
    }
    parser.end().map_err(|text| Error { line: last, text })
}

/// What the lines so far have said.
#[derive(Default)]
struct Parser {
    title: Option<String>,
    regime: Regime,
    /// The keys of the regime that were given.
    keys: Vec<String>,
    access: Option<Access>,
    tables: Tables,
}

impl Parser {
    fn line(&mut self, line: &str) -> Parsed<()> {
        let (word, rest) = line.split_once(char::is_whitespace).unwrap_or((line, ""));
        let rest = rest.trim();
        let words: Vec<&str> = rest.split_whitespace().collect();
        match word {
            "" => Ok(()),
            "title" => once(&mut self.title, rest.to_string(), word),
            "regime" => words.iter().try_for_each(|setting| self.setting(setting)),
            "tables" => self.area(&words),
            "at" => self.descriptor(&words),
            "access" => once(&mut self.access, access(&words)?, word),
            _ => Err(format!(
                "\"{word}\" is none of title, regime, tables, at, access"
            )),
        }
    }

    /// A range that has a root, and of which nothing else is said, is not
    /// disabled.
    fn end(mut self) -> Parsed<Description> {
        let given = |key: &str| self.keys.iter().any(|given| given == key);
        if given("root0") && !given("epd0") {
            self.regime.range0.disabled = false;
        }
        if given("root1") && !given("epd1") {
            self.regime.range1.disabled = false;
        }
        Ok(Description {
            title: self.title,
            regime: self.regime,
            access: self.access.ok_or("there is no access")?,
            tables: self.tables,
        })
    }

    fn area(&mut self, words: &[&str]) -> Parsed<()> {
        let [address, length] = words else {
            return Err("tables has an address and a length".to_string());
        };
        self.tables.area(number(address)?, number(length)?);
        Ok(())
    }

    fn descriptor(&mut self, words: &[&str]) -> Parsed<()> {
        let [place, descriptor] = words else {
            return Err("at has an address and a descriptor".to_string());
        };
        let address = number(place)?;
        if address % 8 != 0 {
            return Err(format!("{place} is no multiple of 8"));
        }
        match self.tables.put(address, number(descriptor)?) {
            None => Ok(()),
            Some(_) => Err(format!("a second descriptor at {place}")),
        }
    }

    /// One KEY=VALUE of the regime.
    fn setting(&mut self, setting: &str) -> Parsed<()> {
        let (key, value) = setting
            .split_once('=')
            .ok_or_else(|| format!("\"{setting}\" is not KEY=VALUE"))?;
        if self.keys.iter().any(|given| given == key) {
            return Err(format!("a second {key}"));
        }
        self.set(key, value)?;
        self.keys.push(key.to_string());
        Ok(())
    }

    fn set(&mut self, key: &str, value: &str) -> Parsed<()> {
        let regime = &mut self.regime;
        match key {
            "granule" => regime.granule = granule(value)?,
            "output" => regime.output = output(value)?,
            "mair" => regime.attributes = number(value)?.to_le_bytes(),
            "ha" => regime.ha = switch(value)?,
            "hd" => regime.hd = switch(value)?,
            "wxn" => regime.wxn = switch(value)?,
            "root0" => regime.range0.root = PhysAddr(number(value)?),
            "root1" => regime.range1.root = PhysAddr(number(value)?),
            "t0" => regime.range0.tsz = byte(value)?,
            "t1" => regime.range1.tsz = byte(value)?,
            "epd0" => regime.range0.disabled = switch(value)?,
            "epd1" => regime.range1.disabled = switch(value)?,
            "hpd0" => regime.range0.hpd = switch(value)?,
            "hpd1" => regime.range1.hpd = switch(value)?,
            _ => return Err(format!("a regime has no \"{key}\"")),
        }
        Ok(())
    }
}

/// Fills a place that is to be filled once.
fn once<T>(place: &mut Option<T>, value: T, name: &str) -> Parsed<()> {
    match place.replace(value) {
        None => Ok(()),
        Some(_) => Err(format!("a second {name}")),
    }
}

fn access(words: &[&str]) -> Parsed<Access> {
    let [address, size, level, kind] = words else {
        return Err("access has an address, a size, a level and a kind".to_string());
    };
    let kind = match *kind {
        "read" => AccessKind::Read,
        "write" => AccessKind::Write,
        "update" => AccessKind::Update,
        "fetch" => AccessKind::Fetch,
        "probe-read" => AccessKind::ProbeRead,
        "probe-write" => AccessKind::ProbeWrite,
        _ => return Err(format!("\"{kind}\" is no kind of access")),
    };
    let access = Access::new(kind, VirtAddr(number(address)?), number(size)?);
    match *level {
        "el0" => Ok(access.el0()),
        "el1" => Ok(access),
        _ => Err(format!("\"{level}\" is neither el0 nor el1")),
    }
}

/// A number in decimal, or in hexadecimal after 0x; underscores are left out.
fn number(word: &str) -> Parsed<u64> {
    let digits = word.replace('_', "");
    let parsed = match digits.strip_prefix("0x") {
        Some(digits) => u64::from_str_radix(digits, 16),
        None => digits.parse(),
    };
    parsed.map_err(|_| format!("\"{word}\" is no number of 64 bits"))
}

fn byte(word: &str) -> Parsed<u8> {
    u8::try_from(number(word)?).map_err(|_| format!("{word} is above 255"))
}

fn switch(word: &str) -> Parsed<bool> {
    match word {
        "on" => Ok(true),
        "off" => Ok(false),
        _ => Err(format!("\"{word}\" is neither on nor off")),
    }
}

fn granule(word: &str) -> Parsed<Granule> {
    match word {
        "4k" => Ok(Granule::Kib4),
        "16k" => Ok(Granule::Kib16),
        "64k" => Ok(Granule::Kib64),
        _ => Err(format!("\"{word}\" is none of 4k, 16k, 64k")),
    }
}

fn output(word: &str) -> Parsed<OutputSize> {
    let bits = number(word)?;
    let mut sizes = OutputSize::ALL.into_iter();
    sizes
        .find(|size| u64::from(size.bits()) == bits)
        .ok_or_else(|| format!("{word} is none of 32, 36, 40, 42, 44, 48"))
}

#[cfg(test)]
mod tests {
    use super::*;
    use vmsa::Range;

    const WHOLE: &str = "\
# The whole format.
title  Two words   # and a comment

regime granule=64k output=36 mair=0x_ff04 ha=on
regime hd=off wxn=on root0=0x10000 t0=22 hpd0=on
regime root1=131072 t1=0x16 epd1=on
tables 0x10000 0x1_0000
at 0x10008 3
  access 0x1abc 4 el0 write";

    #[test]
    fn a_whole_description() {
        let mut tables = Tables::default();
        tables.area(0x10000, 0x10000);
        tables.put(0x10008, 3);
        let expected = Description {
            title: Some("Two words".to_string()),
            regime: Regime::new()
                .granule(Granule::Kib64)
                .output(OutputSize::Bits36)
                .attributes([0x04, 0xff, 0, 0, 0, 0, 0, 0])
                .ha(true)
                .wxn(true)
                .range0(Range::new(PhysAddr(0x10000), 22).hpd(true))
                .range1(Range {
                    disabled: true,
                    ..Range::new(PhysAddr(0x20000), 22)
                }),
            access: Access::write(VirtAddr(0x1abc), 4).el0(),
            tables,
        };
        assert_eq!(parse(WHOLE), Ok(expected));
    }

    #[test]
    fn what_is_not_said() {
        let parsed = parse("access 0 1 el1 probe-read").unwrap();
        assert_eq!((parsed.title, parsed.regime), (None, Regime::new()));
        assert_eq!(parsed.tables, Tables::default());
        let disabled = |settings: &str| {
            let text = format!("regime {settings}\naccess 0 1 el1 read");
            let regime = parse(&text).unwrap().regime;
            (regime.range0.disabled, regime.range1.disabled)
        };
        assert_eq!(disabled("t0=20"), (true, true));
        assert_eq!(disabled("root0=0"), (false, true));
        assert_eq!(disabled("epd1=off"), (true, false));
        assert_eq!(disabled("epd0=on root0=0 root1=0"), (true, false));
    }

    #[test]
    fn each_kind() {
        for kind in AccessKind::ALL {
            let name = match kind {
                AccessKind::Read => "read",
                AccessKind::Write => "write",
                AccessKind::Update => "update",
                AccessKind::Fetch => "fetch",
                AccessKind::ProbeRead => "probe-read",
                AccessKind::ProbeWrite => "probe-write",
            };
            let parsed = parse(&format!("access 0x10 2 el1 {name}")).unwrap();
            assert_eq!(parsed.access, Access::new(kind, VirtAddr(0x10), 2));
        }
    }

    /// Lines that are wrong, and what is told of them.
    const WRONG: [(&str, &str); 19] = [
        (
            "acess",
            "\"acess\" is none of title, regime, tables, at, access",
        ),
        ("title again", "a second title"),
        ("regime ha", "\"ha\" is not KEY=VALUE"),
        ("regime hb=on", "a regime has no \"hb\""),
        ("regime ha=on wxn=off ha=on", "a second ha"),
        ("regime ha=1", "\"1\" is neither on nor off"),
        ("regime granule=8k", "\"8k\" is none of 4k, 16k, 64k"),
        ("regime output=52", "52 is none of 32, 36, 40, 42, 44, 48"),
        ("regime t0=256", "256 is above 255"),
        ("regime t0=", "\"\" is no number of 64 bits"),
        ("regime root0=-1", "\"-1\" is no number of 64 bits"),
        ("tables 0x1000", "tables has an address and a length"),
        ("at 0x1000", "at has an address and a descriptor"),
        ("at 0x1004 0", "0x1004 is no multiple of 8"),
        ("at 0x2000 0", "a second descriptor at 0x2000"),
        (
            "at 8 0x1_0000_0000_0000_0000",
            "\"0x1_0000_0000_0000_0000\" is no number of 64 bits",
        ),
        (
            "access 0 4 el0",
            "access has an address, a size, a level and a kind",
        ),
        ("access 0 4 el2 read", "\"el2\" is neither el0 nor el1"),
        ("access 0 4 el1 load", "\"load\" is no kind of access"),
    ];

    #[test]
    fn errors() {
        for (wrong, told) in WRONG {
            let text = format!("title one\nat 0x2000 1\n\n{wrong}\naccess 0 1 el1 read\n");
            let expected = Error {
                line: 4,
                text: told.to_string(),
            };
            assert_eq!(parse(&text), Err(expected), "{wrong}");
        }
        for (text, told) in [
            (
                "access 0 1 el1 read\naccess 0 1 el1 read",
                "line 2: a second access",
            ),
            ("title none\n\n", "line 2: there is no access"),
            ("", "line 1: there is no access"),
        ] {
            assert_eq!(parse(text).unwrap_err().to_string(), told);
        }
    }
}

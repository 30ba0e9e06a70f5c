//! The settings: for each line that has some, one table of their names and of
//! the fields that they go to.

use super::text::{Form, Line, Problem};
use crate::boundary::CAnswer;
use crate::geometry::Granule;
use crate::reference::{Pool, Range, Regime};

/// A name, and how the word behind it gets into its field.
pub type Setting<T> = (&'static str, fn(&mut T, &str) -> Result<(), String>);

pub const REGIME: &[Setting<Regime>] = &[
    ("start", |r, w| put(&mut r.pool.start, w)),
    ("length", |r, w| put(&mut r.pool.length, w)),
    ("address", |r, w| put(&mut r.pool.address, w)),
    ("root0", |r, w| put(&mut r.ranges[0].root, w)),
    ("t0", |r, w| put(&mut r.ranges[0].t, w)),
    ("disabled0", |r, w| put(&mut r.ranges[0].disabled, w)),
    ("hpd0", |r, w| put(&mut r.ranges[0].hpd, w)),
    ("root1", |r, w| put(&mut r.ranges[1].root, w)),
    ("t1", |r, w| put(&mut r.ranges[1].t, w)),
    ("disabled1", |r, w| put(&mut r.ranges[1].disabled, w)),
    ("hpd1", |r, w| put(&mut r.ranges[1].hpd, w)),
    ("code", |r, w| put(&mut r.output_code, w)),
    ("ha", |r, w| put(&mut r.ha, w)),
    ("hd", |r, w| put(&mut r.hd, w)),
    ("wxn", |r, w| put(&mut r.wxn, w)),
    ("ee", |r, w| put(&mut r.ee, w)),
    ("granule", |r, w| put(&mut r.granule, w)),
    ("attributes", |r, w| put(&mut r.attributes, w)),
];

/// Those that a line may leave out, as older files do: then they are as in
/// `NO_REGIME`.
const LATER: [&str; 4] = ["hpd0", "hpd1", "ee", "granule"];

pub const OK: &[Setting<CAnswer>] = &[
    ("output", |a, w| put(&mut a.output, w)),
    ("attribute", |a, w| put(&mut a.attribute, w)),
    ("shareability", |a, w| put(&mut a.shareability, w)),
    ("ng", |a, w| put_flag(&mut a.nonglobal, w)),
    ("level", |a, w| put(&mut a.level, w)),
    ("af", |a, w| put_flag(&mut a.accessed, w)),
    ("dirty", |a, w| put_flag(&mut a.dirtied, w)),
    ("may", |a, w| put_flag(&mut a.cacheable, w)),
    ("reads", |a, w| put(&mut a.reads, w)),
];

pub const FAULT: &[Setting<CAnswer>] = &[
    ("code", |a, w| put(&mut a.code, w)),
    ("level", |a, w| put(&mut a.level, w)),
    ("may", |a, w| put_flag(&mut a.cacheable, w)),
    ("reads", |a, w| put(&mut a.reads, w)),
];

/// The regime before any setting.
pub const NO_REGIME: Regime = Regime {
    pool: Pool {
        start: 0,
        length: 0,
        address: 0,
    },
    ranges: [Range {
        root: 0,
        t: 0,
        disabled: false,
        hpd: false,
    }; 2],
    output_code: 0,
    ha: false,
    hd: false,
    wxn: false,
    ee: false,
    granule: Granule::Kib4,
    attributes: [0; 8],
};

/// A granule is told by its size in KiB.
impl Form for Granule {
    fn read(word: &str) -> Result<Self, String> {
        match u64::read(word) {
            Ok(4) => Ok(Granule::Kib4),
            Ok(16) => Ok(Granule::Kib16),
            Ok(64) => Ok(Granule::Kib64),
            _ => Err(format!("`{word}` is no granule: 4, 16 or 64")),
        }
    }
}

fn put<F: Form>(field: &mut F, word: &str) -> Result<(), String> {
    *field = F::read(word)?;
    Ok(())
}

/// A flag in the library's form.
fn put_flag(field: &mut u8, word: &str) -> Result<(), String> {
    *field = u8::from(bool::read(word)?);
    Ok(())
}

/// What `to` becomes by the settings of a line: each of the table once, in
/// any order, but for those of `LATER`, which may be missing.
pub fn read<T>(table: &[Setting<T>], mut to: T, line: &Line, words: &[&str]) -> Result<T, Problem> {
    let mut seen: Vec<&str> = Vec::new();
    for setting in words {
        let Some((name, word)) = setting.split_once('=') else {
            return Err(line.problem(format!("`{setting}` is no SETTING")));
        };
        let Some((_, put)) = table.iter().find(|row| row.0 == name) else {
            return Err(line.problem(format!("unknown setting `{name}`")));
        };
        if seen.contains(&name) {
            return Err(line.problem(format!("setting `{name}` a second time")));
        }
        put(&mut to, word).map_err(|what| line.problem(format!("setting `{name}`: {what}")))?;
        seen.push(name);
    }
    let due = |name: &&str| !seen.contains(name) && !LATER.contains(name);
    match table.iter().map(|row| row.0).find(due) {
        Some(name) => Err(line.problem(format!("setting `{name}` is missing"))),
        None => Ok(to),
    }
}

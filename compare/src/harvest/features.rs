//! What harvests can meet.

use super::{Fit, MOST_PAGES};
use crate::counts::Countable;
use crate::geometry::{Granule, GREATEST_T, LAST_LEVEL, LEAST_T};
use crate::limits::{Limit, Octave};
use crate::reference::{FaultKind, POOL_LIMIT, TAKING};
use crate::refusals::{pairs, HARVEST};
use std::collections::BTreeSet;
use std::fmt;

/// A harvest, and the same right behind it.
#[derive(Clone, Copy, Debug, PartialEq, Eq, PartialOrd, Ord)]
pub enum Round {
    First,
    Second,
}

/// Why a harvest is refused with 10.
#[derive(Clone, Copy, Debug, PartialEq, Eq, PartialOrd, Ord)]
pub enum Bad {
    NoPage,
    OneTooMany,
    TooMany,
    /// The first page is a number that no page has.
    NoNumber,
    /// It is the first one behind its range 0, or the last one before range 1.
    Beside(usize),
    /// It is in neither range, and not beside one.
    Between,
    /// The last page is the first one behind the range.
    OnePast(usize),
    Past(usize),
}

impl Bad {
    const ALL: [Bad; 11] = [
        Bad::NoPage,
        Bad::OneTooMany,
        Bad::TooMany,
        Bad::NoNumber,
        Bad::Beside(0),
        Bad::Beside(1),
        Bad::Between,
        Bad::OnePast(0),
        Bad::OnePast(1),
        Bad::Past(0),
        Bad::Past(1),
    ];
}

/// Maps that are too short, and maps that are not.
#[derive(Clone, Copy, Debug, PartialEq, Eq, PartialOrd, Ord)]
pub enum Room {
    /// Refused with no map at all.
    None,
    /// Refused for one byte.
    OneShort,
    /// The same with as many pages as there can be.
    OneShortOfMost,
    Exact,
    /// There are later bytes.
    More,
}

impl Room {
    const ALL: [Room; 5] = [
        Room::None,
        Room::OneShort,
        Room::OneShortOfMost,
        Room::Exact,
        Room::More,
    ];
}

/// Where the pages that are asked for touch an end of their range, with a page
/// reported there.
#[derive(Clone, Copy, Debug, PartialEq, Eq, PartialOrd, Ord)]
pub enum Edge {
    First,
    Last,
    /// All pages of the range, with one reported anywhere.
    Whole,
}

impl Edge {
    const ALL: [Edge; 3] = [Edge::First, Edge::Last, Edge::Whole];
}

/// What alone a leaf lacks, that is not reported.
#[derive(Clone, Copy, Debug, PartialEq, Eq, PartialOrd, Ord)]
pub enum Lack {
    AfClear,
    DbmClear,
    Ap2Set,
}

impl Lack {
    const ALL: [Lack; 3] = [Lack::AfClear, Lack::DbmClear, Lack::Ap2Set];
}

/// Why a page has no first table.
#[derive(Clone, Copy, Debug, PartialEq, Eq, PartialOrd, Ord)]
pub enum NoTable {
    Disabled,
    RootBeyond,
}

/// A descriptor that is reached in two ways.
#[derive(Clone, Copy, Debug, PartialEq, Eq, PartialOrd, Ord)]
pub enum Shared {
    /// One that was cleaned was reported for two pages.
    TwoPages,
    /// One that was cleaned is a table on the way to another page.
    TableToo,
    /// One that was cleaned is its own table.
    OwnTable,
    /// One sticks out on one path and is whole on another.
    WholeAndOut,
}

impl Shared {
    fn all(granule: Granule) -> impl Iterator<Item = Self> {
        let each = [Shared::TwoPages, Shared::TableToo, Shared::OwnTable];
        // Blocks of two levels, which no other granule has.
        let out = (granule == Granule::Kib4).then_some(Shared::WholeAndOut);
        each.into_iter().chain(out)
    }
}

/// What the second of two harvests finds, where the first reported something.
#[derive(Clone, Copy, Debug, PartialEq, Eq, PartialOrd, Ord)]
pub enum Again {
    Nothing,
    /// Only what sticks out.
    SticksOut,
}

/// One thing to meet.
#[derive(Clone, Copy, Debug, PartialEq, Eq, PartialOrd, Ord)]
pub enum Feature {
    Reply(Granule, u8),
    /// A refusal, and a later row that applies too.
    FirstRow(u8, u8),
    Bad(Granule, Bad),
    Room(Room),
    /// Accepted with so many pages.
    Count(u64),
    /// Accepted with so many pages in the last byte, and a bit set behind them.
    SpareBits(u8),
    Edge(Granule, usize, Edge),
    /// A page is reported, by range and size field.
    Told(Granule, usize, u8),
    /// A leaf is reported, by byte order, level and how it lies.
    Fit(Granule, bool, u8, Fit),
    Lack(Granule, u8, Lack),
    NoTable(Granule, NoTable),
    /// A page reaches no leaf, by the fault that a walk would give.
    Stop(Granule, FaultKind, u8),
    Shared(Granule, Shared),
    /// A leaf is cleaned, by HA and HD.
    Updates(bool, bool),
    /// A leaf is cleaned below a table with this bit.
    TableBit(u32),
    Again(Granule, Again),
    /// The same in the other byte order, with a leaf cleaned.
    Turned(Granule, bool),
    /// A leaf is cleaned, by its place in the pool.
    Cleaned(Octave),
    Limit(Limit),
}

use Feature as F;

/// Counts of pages that must be met.
pub const COUNTS: [u64; 5] = [1, 7, 8, 9, MOST_PAGES];

fn order_name(ee: bool) -> &'static str {
    if ee {
        "with EE"
    } else {
        "without EE"
    }
}

impl fmt::Display for Feature {
    fn fmt(&self, out: &mut fmt::Formatter) -> fmt::Result {
        match *self {
            F::Reply(granule, 0) => write!(out, "{granule} accepted"),
            F::Reply(granule, number) => write!(out, "{granule} no. {number}"),
            F::FirstRow(number, other) => write!(out, "{number} before {other}"),
            F::Bad(granule, bad) => write!(out, "{granule} {bad:?}"),
            F::Room(room) => write!(out, "{room:?}"),
            F::Count(count) => write!(out, "{count}"),
            F::SpareBits(pages) => write!(out, "{pages}"),
            F::Edge(granule, range, edge) => write!(out, "{granule} {edge:?} of {range}"),
            F::Told(granule, range, t) => write!(out, "{granule} {range} T {t}"),
            F::Fit(granule, ee, level, fit) => {
                write!(out, "{granule} {} level {level} {fit:?}", order_name(ee))
            }
            F::Lack(granule, level, lack) => write!(out, "{granule} level {level} {lack:?}"),
            F::NoTable(granule, why) => write!(out, "{granule} {why:?}"),
            F::Stop(granule, kind, level) => write!(out, "{granule} {kind:?} {level}"),
            F::Shared(granule, how) => write!(out, "{granule} {how:?}"),
            F::Updates(ha, hd) => write!(out, "HA {} HD {}", u8::from(ha), u8::from(hd)),
            F::TableBit(place) => write!(out, "{place}"),
            F::Again(granule, again) => write!(out, "{granule} {again:?}"),
            F::Turned(granule, ee) => write!(out, "{granule} {}", order_name(ee)),
            F::Cleaned(octave) => write!(out, "{octave}"),
            F::Limit(limit) => write!(out, "{limit:?}"),
        }
    }
}

impl Countable for Feature {
    fn heading(&self) -> &'static str {
        match self {
            F::Reply(..) => "harvests",
            F::FirstRow(..) => "harvests refused before another row that applies",
            F::Bad(..) => "harvests refused with 10",
            F::Room(_) => "maps",
            F::Count(_) => "harvests of so many pages",
            F::SpareBits(_) => "bits set behind the last page, by the pages in its byte",
            F::Edge(..) => "pages reported at the ends of ranges",
            F::Told(..) => "pages reported, by range and T",
            F::Fit(..) => "leaves reported",
            F::Lack(..) => "leaves not reported",
            F::NoTable(..) => "pages without a table",
            F::Stop(..) => "pages that reach no leaf, by level",
            F::Shared(..) => "shared descriptors",
            F::Updates(..) => "leaves cleaned with",
            F::TableBit(_) => "leaves cleaned below a table with bit",
            F::Again(..) => "second harvests",
            F::Turned(..) => "leaves cleaned in the other byte order too",
            F::Cleaned(_) => "leaves cleaned, by 4 KiB of the pool",
            F::Limit(_) => "limits of memory and pool, by harvests",
        }
    }

    fn possible() -> BTreeSet<Self> {
        let mut all = BTreeSet::new();
        all.extend(pairs(HARVEST).map(|(row, other)| F::FirstRow(row, other)));
        all.extend(Room::ALL.map(F::Room));
        all.extend(COUNTS.map(F::Count));
        all.extend((1..8).map(F::SpareBits));
        let updates = [(false, false), (true, false), (true, true)];
        all.extend(updates.map(|(ha, hd)| F::Updates(ha, hd)));
        all.extend(TAKING.map(F::TableBit));
        all.extend(Octave::all(POOL_LIMIT).map(F::Cleaned));
        all.extend(Limit::all().map(F::Limit));
        for granule in Granule::ALL {
            replies(&mut all, granule);
            leaves(&mut all, granule);
            stops(&mut all, granule);
        }
        all
    }
}

/// What comes of harvests under a granule.
fn replies(all: &mut BTreeSet<Feature>, granule: Granule) {
    all.insert(F::Reply(granule, 0));
    all.extend(HARVEST.iter().map(|&row| F::Reply(granule, row)));
    all.extend(Bad::ALL.map(|bad| F::Bad(granule, bad)));
    for range in 0..2 {
        all.extend(Edge::ALL.map(|edge| F::Edge(granule, range, edge)));
        all.extend((LEAST_T..=GREATEST_T).map(|t| F::Told(granule, range, t)));
    }
    for ee in [false, true] {
        all.insert(F::Turned(granule, ee));
    }
    all.extend([Again::Nothing, Again::SticksOut].map(|again| F::Again(granule, again)));
}

/// How leaves lie. A page never sticks out, and what maps more pages than can be
/// asked for always does.
fn leaves(all: &mut BTreeSet<Feature>, granule: Granule) {
    for level in granule.leaf_levels() {
        let pages = (granule.span_mask(level) >> granule.page_bits()) + 1;
        let mut fits = Vec::new();
        if pages <= MOST_PAGES {
            fits.push(Fit::Whole);
        }
        if level < LAST_LEVEL {
            fits.extend([Fit::Before, Fit::Behind, Fit::Both]);
        }
        for fit in fits {
            all.extend([false, true].map(|ee| F::Fit(granule, ee, level, fit)));
        }
        all.extend(Lack::ALL.map(|lack| F::Lack(granule, level, lack)));
    }
    all.extend(Shared::all(granule).map(|how| F::Shared(granule, how)));
}

/// Why pages reach no leaf.
fn stops(all: &mut BTreeSet<Feature>, granule: Granule) {
    all.extend([NoTable::Disabled, NoTable::RootBeyond].map(|why| F::NoTable(granule, why)));
    for level in granule.levels() {
        let kinds = [
            FaultKind::Translation,
            FaultKind::AddressSize,
            FaultKind::WalkAbort,
        ];
        all.extend(kinds.map(|kind| F::Stop(granule, kind, level)));
    }
}

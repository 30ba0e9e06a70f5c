//! Plain walks under each granule (RULES 3.1 and 6.2): what their tally counts
//! by.

use crate::geometry::{Granule, GREATEST_T, LAST_LEVEL, LEAST_T};
use crate::orders::Turn;
use crate::reference::{
    bit, is_multiple, look, offset_in_memory, read_descriptor, Access, Answer, FaultKind, Range,
    Regime, Success, Walk,
};
use crate::refusals::{self, WALK};
use std::fmt;

/// How often each thing must be met under each granule.
pub const LEAST: u64 = 20;

/// The same regime with another granule.
pub fn with_granule(regime: &Regime, granule: Granule) -> Regime {
    Regime { granule, ..*regime }
}

/// A number of the regime that must be a multiple of the granule.
#[derive(Clone, Copy, Debug, PartialEq, Eq, PartialOrd, Ord)]
pub enum Field {
    Start,
    Length,
    Address,
    Root(usize),
}

impl Field {
    pub const ALL: [Field; 5] = [
        Field::Start,
        Field::Length,
        Field::Address,
        Field::Root(0),
        Field::Root(1),
    ];

    /// The row that looks at it.
    fn row(self) -> u8 {
        match self {
            Field::Start | Field::Length => 1,
            Field::Address => 2,
            Field::Root(_) => 4,
        }
    }

    fn of(self, regime: &Regime) -> u64 {
        match self {
            Field::Start => regime.pool.start as u64,
            Field::Length => regime.pool.length as u64,
            Field::Address => regime.pool.address,
            Field::Root(range) => regime.ranges[range].root,
        }
    }

    /// The one that is a multiple of a smaller granule, the largest such, and
    /// not of the regime's, where it is one alone and the reason why a row
    /// applies; `applies` tells whether the row does so to a regime.
    pub fn off(
        regime: &Regime,
        row: u8,
        applies: impl Fn(&Regime) -> bool,
    ) -> Option<(Field, Granule)> {
        let off = |field: &Field| !is_multiple(field.of(regime), regime.granule.bytes());
        let mut off = Field::ALL.into_iter().filter(off);
        let (Some(field), None) = (off.next(), off.next()) else {
            return None;
        };
        let fits = |smaller: &Granule| is_multiple(field.of(regime), smaller.bytes());
        let unit = regime.granule.smaller().filter(fits).last()?;
        let reason = field.row() == row && !applies(&with_granule(regime, unit));
        reason.then_some((field, unit))
    }
}

/// What is to be met under each granule.
#[derive(Clone, Copy, Debug, PartialEq, Eq, PartialOrd, Ord)]
pub enum Granular {
    Refused(u8),
    /// Refused for a number that is a multiple of a smaller granule alone.
    Off(Field, Granule),
    /// Not refused, though the bytes lie in two pages of a smaller granule.
    Across(Granule),
    /// Refused with 7, though the bytes lie in one page of a larger granule.
    Apart(Granule),
    /// First level and level of a success.
    Success(u8, u8),
    /// Success by range and size field.
    SizeField(usize, u8),
    /// Success in the page of a range that is next to the other range.
    Edge(usize),
    /// Translation fault before any read, just past that page.
    PastEdge(usize),
    /// First level and level of a fault met on the way.
    Fault(FaultKind, u8, u8),
    /// Translation fault for bits 1..0 = 01 at a level without blocks.
    NoBlock(u8),
    /// Success by way of an index with an address bit set, by level.
    Index(u8, u32),
    /// Success by way of a table, of a level, that has a bit set below its
    /// address.
    BelowTable(u8, u32),
    /// Success with a leaf, of a level, that has one; above the fields of all.
    BelowLeaf(u8, u32),
    /// Marks, by range, EE, and HPD of the range.
    Marks(usize, bool, bool),
    /// Not refused, and not refused under another granule, which decides.
    Turn(Granule, Turn),
}

/// The lowest bit of a table descriptor that is not its type.
const ABOVE_TYPE: u32 = 2;
/// The lowest bit of a leaf that may be part of its address.
const ABOVE_FIELDS: u32 = 12;

impl Granular {
    /// All that can occur.
    pub fn all(granule: Granule) -> Vec<Granular> {
        let mut all: Vec<Granular> = WALK.iter().copied().map(Granular::Refused).collect();
        for unit in granule.smaller() {
            all.extend(Field::ALL.map(|field| Granular::Off(field, unit)));
            all.push(Granular::Across(unit));
        }
        all.extend(granule.larger().map(Granular::Apart));
        for (first, level) in granule.ways() {
            all.push(Granular::Success(first, level));
            let faults = FaultKind::ALL.into_iter().filter(|kind| kind.is_of_leaf());
            all.extend(faults.map(|kind| Granular::Fault(kind, first, level)));
        }
        for t in LEAST_T..=GREATEST_T {
            all.extend([0, 1].map(|range| Granular::SizeField(range, t)));
        }
        all.extend([0, 1].map(Granular::Edge));
        all.extend([0, 1].map(Granular::PastEdge));
        for &(first, ..) in granule.first_levels() {
            let faults = FaultKind::ALL.into_iter().filter(|kind| !kind.is_of_leaf());
            for kind in faults {
                all.extend((first..=LAST_LEVEL).map(|level| Granular::Fault(kind, first, level)));
            }
        }
        all.extend(bits(granule));
        for range in 0..2 {
            let each = [(false, false), (false, true), (true, false), (true, true)];
            all.extend(each.map(|(ee, hpd)| Granular::Marks(range, ee, hpd)));
        }
        let turns = granule
            .others()
            .flat_map(|other| Turn::ALL.map(|turn| (other, turn)));
        all.extend(turns.map(|(other, turn)| Granular::Turn(other, turn)));
        all
    }

    /// What a walk over a memory meets.
    pub fn of(memory: &[u8], regime: &Regime, access: &Access, walk: &Walk) -> Vec<Granular> {
        if let Answer::Refused(number) = walk.answer {
            return of_refusal(memory.len(), regime, access, number);
        }
        let range = usize::from(bit(access.address, 55));
        let first = regime.granule.first_level(regime.ranges[range].t);
        let across = across(regime.granule, access).map(Granular::Across);
        let mut met: Vec<Granular> = across.collect();
        met.extend(at_edge(regime, access, &walk.answer));
        match walk.answer {
            Answer::Success(success) => {
                met.push(Granular::Success(first, success.level));
                met.push(Granular::SizeField(range, regime.ranges[range].t));
                met.extend(of_success(memory, regime, access, walk, &success));
            }
            Answer::Fault(fault) if fault.reads > 0 => {
                let (kind, level) = (fault.stop.kind, fault.stop.level);
                met.push(Granular::Fault(kind, first, level));
                if kind == FaultKind::Translation && last_read(memory, regime, walk) & 3 == 1 {
                    met.push(Granular::NoBlock(level));
                }
            }
            _ => {}
        }
        met.extend(turns(memory, regime, access, &walk.answer));
        met
    }
}

/// Whether an address is in a range's page that is next to the other range, or
/// just past it.
fn at_edge(regime: &Regime, access: &Access, answer: &Answer) -> Option<Granular> {
    let number = usize::from(bit(access.address, 55));
    let Range { t, disabled, .. } = regime.ranges[number];
    let span = 64 - u32::from(t);
    let (edge, past) = match number {
        0 => ((1 << span) - 1, 1 << span),
        _ => (u64::MAX << span, (u64::MAX << span) - 1),
    };
    let page = regime.granule.floor(access.address);
    let of = |address| page == regime.granule.floor(address);
    match answer {
        Answer::Success(_) if of(edge) => Some(Granular::Edge(number)),
        Answer::Fault(fault) if fault.reads == 0 && !disabled && of(past) => {
            Some(Granular::PastEdge(number))
        }
        _ => None,
    }
}

/// The bits of indices and descriptors that can be met in a success.
fn bits(granule: Granule) -> Vec<Granular> {
    let mut all = Vec::new();
    for level in granule.levels() {
        let (highest, lowest) = granule.index_range(level);
        all.extend((lowest..=highest).map(|place| Granular::Index(level, place)));
        if level < LAST_LEVEL {
            let below = ABOVE_TYPE..granule.page_bits();
            all.extend(below.map(|place| Granular::BelowTable(level, place)));
        }
        if !granule.has_blocks(level) {
            all.push(Granular::NoBlock(level));
        }
    }
    for level in granule.leaf_levels() {
        let below = ABOVE_FIELDS..granule.lowest_index_bit(level);
        all.extend(below.map(|place| Granular::BelowLeaf(level, place)));
    }
    all
}

/// The smaller granules of which the bytes of an access lie in two pages.
pub fn across(granule: Granule, access: &Access) -> impl Iterator<Item = Granule> {
    let (first, last) = (access.address, access.address + (access.size - 1));
    let two_pages = move |smaller: &Granule| smaller.floor(first) != smaller.floor(last);
    granule.smaller().filter(two_pages)
}

fn of_refusal(length: usize, regime: &Regime, access: &Access, number: u8) -> Vec<Granular> {
    let mut met = vec![Granular::Refused(number)];
    let applies =
        |other: &Regime| refusals::all_of_walk(length, other, access).any(|row| row == number);
    let off = Field::off(regime, number, applies);
    met.extend(off.map(|(field, unit)| Granular::Off(field, unit)));
    if number == 7 {
        met.extend(apart(regime.granule, access).map(Granular::Apart));
    }
    met
}

/// The larger granules of which the bytes of an access lie in one page.
pub fn apart(granule: Granule, access: &Access) -> impl Iterator<Item = Granule> {
    let (first, last) = (access.address, access.address.wrapping_add(access.size - 1));
    let one_page = move |larger: &Granule| larger.floor(first) == larger.floor(last);
    granule.larger().filter(one_page)
}

/// The descriptors that a walk has read.
fn descriptors<'a>(
    memory: &'a [u8],
    regime: &'a Regime,
    walk: &'a Walk,
) -> impl Iterator<Item = u64> + 'a {
    let visited = walk.visited.iter();
    let offsets = visited.filter_map(|&entry| offset_in_memory(&regime.pool, entry));
    offsets.map(|offset| read_descriptor(memory, offset, regime.ee))
}

fn last_read(memory: &[u8], regime: &Regime, walk: &Walk) -> u64 {
    descriptors(memory, regime, walk).last().unwrap_or(0)
}

/// The places of some bits that are set in a number.
fn places(number: u64, of: std::ops::Range<u32>) -> impl Iterator<Item = u32> {
    of.filter(move |&place| bit(number, place))
}

fn of_success(
    memory: &[u8],
    regime: &Regime,
    access: &Access,
    walk: &Walk,
    success: &Success,
) -> Vec<Granular> {
    let granule = regime.granule;
    let number = usize::from(bit(access.address, 55));
    let range = &regime.ranges[number];
    let mut met = Vec::new();
    for (level, descriptor) in
        (granule.first_level(range.t)..).zip(descriptors(memory, regime, walk))
    {
        let (_, lowest) = granule.index_range(level);
        let index = granule.index(range.t, level, access.address) << lowest;
        met.extend(places(index, 0..48).map(|place| Granular::Index(level, place)));
        if level < success.level {
            let below = places(descriptor, ABOVE_TYPE..granule.page_bits());
            met.extend(below.map(|place| Granular::BelowTable(level, place)));
        } else {
            let below = places(descriptor, ABOVE_FIELDS..lowest);
            met.extend(below.map(|place| Granular::BelowLeaf(level, place)));
        }
    }
    if success.accessed || success.dirtied {
        met.push(Granular::Marks(number, regime.ee, range.hpd));
    }
    met
}

/// What the granule decides.
fn turns<'a>(
    memory: &'a [u8],
    regime: &'a Regime,
    access: &'a Access,
    answer: &'a Answer,
) -> impl Iterator<Item = Granular> + 'a {
    regime.granule.others().filter_map(move |other| {
        let walked = look(memory, &with_granule(regime, other), access).answer;
        match walked {
            Answer::Refused(_) => None,
            _ => Turn::between(answer, &walked).map(|turn| Granular::Turn(other, turn)),
        }
    })
}

impl fmt::Display for Granular {
    fn fmt(&self, out: &mut fmt::Formatter) -> fmt::Result {
        match *self {
            Granular::Refused(number) => write!(out, "no. {number}"),
            Granular::Off(field, unit) => write!(out, "{field:?} of {unit}"),
            Granular::Across(smaller) => write!(out, "Across {smaller}"),
            Granular::Apart(larger) => write!(out, "no. 7, not with {larger}"),
            Granular::Success(first, level) => write!(out, "Success {first}>{level}"),
            Granular::SizeField(range, t) => write!(out, "{range}:{t}"),
            Granular::Edge(range) => write!(out, "Edge of {range}"),
            Granular::PastEdge(range) => write!(out, "PastEdge of {range}"),
            Granular::Fault(kind, first, level) => write!(out, "{kind:?} {first}>{level}"),
            Granular::NoBlock(level) => write!(out, "NoBlock {level}"),
            Granular::Index(level, place) => write!(out, "Index {level} bit {place}"),
            Granular::BelowTable(level, place) => write!(out, "BelowTable {level} bit {place}"),
            Granular::BelowLeaf(level, place) => write!(out, "BelowLeaf {level} bit {place}"),
            Granular::Marks(range, ee, hpd) => {
                let told = [(ee, " EE"), (hpd, " HPD")];
                let on = told.iter().filter(|(on, _)| *on).map(|(_, name)| *name);
                write!(out, "Marks {range}{}", on.collect::<String>())
            }
            Granular::Turn(other, turn) => write!(out, "{turn:?}, not with {other}"),
        }
    }
}

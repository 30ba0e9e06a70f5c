//! What walks a descriptor at a time can meet.

use super::MOST_OFFERS;
use crate::boundary::{CStepwise, FAULT, REFUSED, SUCCESS};
use crate::counts::Countable;
use crate::geometry::{Granule, LAST_LEVEL};
use crate::reference::{FaultKind, Kind, TAKING};
use crate::refusals::{pairs, STEPWISE};
use crate::tally::marks_name;
use std::collections::BTreeSet;
use std::fmt;

/// Where the values come from.
#[derive(Clone, Copy, Debug, PartialEq, Eq, PartialOrd, Ord)]
pub enum Source {
    Pool,
    /// A function of the address.
    Function,
    /// A feed that says something else each time.
    Changing,
}

impl Source {
    const ALL: [Source; 3] = [Source::Pool, Source::Function, Source::Changing];
}

/// How a walk of any bytes was made.
#[derive(Clone, Copy, Debug, PartialEq, Eq, PartialOrd, Ord)]
pub enum Origin {
    AnyBytes,
    /// As calls leave it, with a few bytes changed.
    LeftByCalls,
    /// Drawn field by field.
    Drawn,
}

/// What came of an offer.
#[derive(Clone, Copy, Debug, PartialEq, Eq, PartialOrd, Ord)]
pub enum Outcome {
    /// Nothing: the walk had ended.
    Late,
    GoesOn,
    Success,
    Fault,
    Refused,
}

impl Outcome {
    const ALL: [Outcome; 5] = [
        Outcome::Late,
        Outcome::GoesOn,
        Outcome::Success,
        Outcome::Fault,
        Outcome::Refused,
    ];
    /// Those of bytes that are drawn at random: never yet did all the regime's
    /// numbers fall within their bounds.
    const OF_ANY_BYTES: [Outcome; 2] = [Outcome::Late, Outcome::Refused];

    pub fn of(walk: &CStepwise) -> Self {
        match (walk.ended, walk.answer.tag) {
            (0, _) => Outcome::GoesOn,
            (_, SUCCESS) => Outcome::Success,
            (_, FAULT) => Outcome::Fault,
            _ => Outcome::Refused,
        }
    }
}

/// Numbers that are spelled by other bytes than the first that say so.
#[derive(Clone, Copy, Debug, PartialEq, Eq, PartialOrd, Ord)]
pub enum Spelt {
    /// A flag by a byte above 1.
    Truth,
    /// Update by a byte above 5.
    Kind,
    /// 4 KiB by a byte above 2.
    Granule,
}

impl Spelt {
    const ALL: [Spelt; 3] = [Spelt::Truth, Spelt::Kind, Spelt::Granule];
}

/// What no call leaves, in a walk that goes on or succeeds all the same.
#[derive(Clone, Copy, Debug, PartialEq, Eq, PartialOrd, Ord)]
pub enum Peculiar {
    /// Its range is disabled.
    Disabled,
    /// Its address lies outside its range.
    Outside,
    /// Its root lies beyond the output size.
    RootBeyond,
    /// An update at an address that is no multiple of 8.
    OddAddress,
    /// An update at an address not below 2^48.
    HighAddress,
    /// Bits 7..4 of `tables` alone; the other four would decide.
    IdleBits,
    /// A sum that would decide, where HPD is on.
    HpdSum,
    /// Fields that are to be 0 while it goes on.
    Filled,
}

impl Peculiar {
    const ALL: [Peculiar; 8] = [
        Peculiar::Disabled,
        Peculiar::Outside,
        Peculiar::RootBeyond,
        Peculiar::OddAddress,
        Peculiar::HighAddress,
        Peculiar::IdleBits,
        Peculiar::HpdSum,
        Peculiar::Filled,
    ];
}

/// What a walk of any bytes meets.
#[derive(Clone, Copy, Debug, PartialEq, Eq, PartialOrd, Ord)]
pub enum Foreign {
    From(Origin, Outcome),
    /// Ended, as 1 says it or another byte.
    Ended(bool),
    Refused(u8),
    /// A refusal, and a later row that applies too.
    FirstRow(u8, u8),
    /// Offers up to the end.
    Offers(usize),
    Code(u16),
    Update(bool, bool),
    /// First level and level.
    At(Granule, u8, u8),
    /// First level, with more levels left than it has.
    Clamped(Granule, u8),
    /// A bit of `tables` decides.
    Decides(u32),
    Spelt(Spelt),
    Peculiar(Peculiar),
}

/// One thing to meet.
#[derive(Clone, Copy, Debug, PartialEq, Eq, PartialOrd, Ord)]
pub enum Feature {
    Refused(u8),
    /// A refusal, and a later row that applies too.
    FirstRow(u8, u8),
    /// Row 1 or 2 refuses the plain walk; whether this one is walked.
    PoolRow(u8, bool),
    /// The end under another pool, which row 1 refuses: its tag, and whether
    /// an update is due.
    OtherPool(u8, bool),
    AtOnce(FaultKind),
    Code(Source, u16),
    /// Tag of the end, and offers up to it.
    Offers(Granule, u8, usize),
    /// A success: first level and level of the leaf.
    Way(Granule, u8, u8),
    Update(Source, Kind, bool, bool),
    /// An update of a descriptor of a pool, with EE or without.
    Order(Granule, bool),
    /// "Not reachable": first level and level.
    Unreachable(Granule, u8, u8),
    /// A bit of the tables so far, with so many levels left.
    Tables(u8, u32),
    /// A bit that the last table does not have.
    Kept(u8),
    /// Bits that do not count, by HPD.
    Hpd(u8),
    /// Offers after an end: its tag, and whether an update is due.
    Late(u8, bool),
    /// A table in the upper half of the physical addresses, in no pool.
    High(Granule),
    /// One descriptor named so often, with other values each time.
    Again(usize),
    Spelt(Spelt),
    Foreign(Foreign),
}

use Feature as F;

impl Countable for Feature {
    fn heading(&self) -> &'static str {
        match self {
            F::Refused(_) => "refusals",
            F::FirstRow(..) => "refusals before another row that applies",
            F::PoolRow(..) => "ends where row 1 or 2 refuses the plain walk",
            F::OtherPool(..) => "ends under another pool and EE",
            F::AtOnce(_) => "faults before any offer",
            F::Code(..) => "fault codes",
            F::Offers(..) => "offers",
            F::Way(..) => "successes by first level > level",
            F::Update(..) => "updates",
            F::Order(..) => "updates in a pool by EE",
            F::Unreachable(..) => "not reachable by first level > level",
            F::Tables(..) => "bits of the tables so far by levels left",
            F::Kept(_) => "bits that the last table does not have",
            F::Hpd(_) => "bits that HPD switches off",
            F::Late(..) => "offers after the end",
            F::High(_) => "tables in the upper half of all addresses",
            F::Again(_) => "one descriptor named again, with other values",
            F::Spelt(_) => "odd bytes",
            F::Foreign(_) => "walks of any bytes",
        }
    }

    fn possible() -> BTreeSet<Self> {
        possible()
    }
}

fn end_name(tag: u8, update: bool) -> &'static str {
    match (tag, update) {
        (SUCCESS, true) => "success with update",
        (SUCCESS, false) => "success",
        (FAULT, _) => "fault",
        _ => "refused",
    }
}

impl fmt::Display for Feature {
    fn fmt(&self, out: &mut fmt::Formatter) -> fmt::Result {
        match *self {
            F::Refused(number) => write!(out, "no. {number}"),
            F::FirstRow(number, other) => write!(out, "{number} before {other}"),
            F::PoolRow(row, true) => write!(out, "{row} walked"),
            F::PoolRow(row, false) => write!(out, "{row} refused"),
            F::OtherPool(tag, update) | F::Late(tag, update) => {
                write!(out, "{}", end_name(tag, update))
            }
            F::AtOnce(kind) => write!(out, "{kind:?}"),
            F::Code(source, code) => write!(out, "{source:?} {code}"),
            F::Offers(granule, tag, count) => {
                write!(out, "{granule} {} {count}", end_name(tag, false))
            }
            F::Way(granule, first, level) | F::Unreachable(granule, first, level) => {
                write!(out, "{granule} {first}>{level}")
            }
            F::Update(source, kind, accessed, dirtied) => {
                let marks = marks_name(accessed, dirtied);
                write!(out, "{source:?} {kind:?} {marks}")
            }
            F::Order(granule, ee) => write!(out, "{granule} {}", u8::from(ee)),
            F::Tables(left, bit) => write!(out, "{bit} {left}"),
            F::Kept(left) | F::Hpd(left) => write!(out, "{left}"),
            F::High(granule) => write!(out, "{granule}"),
            F::Again(count) => write!(out, "{count}"),
            F::Spelt(what) => write!(out, "{what:?}"),
            F::Foreign(what) => write!(out, "{what}"),
        }
    }
}

impl fmt::Display for Foreign {
    fn fmt(&self, out: &mut fmt::Formatter) -> fmt::Result {
        match *self {
            Foreign::From(origin, outcome) => write!(out, "{origin:?} {outcome:?}"),
            Foreign::Ended(by_1) => write!(out, "ended by {}", if by_1 { "1" } else { "another" }),
            Foreign::Refused(number) => write!(out, "no. {number}"),
            Foreign::FirstRow(number, other) => write!(out, "{number} before {other}"),
            Foreign::Offers(count) => write!(out, "offers {count}"),
            Foreign::Code(code) => write!(out, "code {code}"),
            Foreign::Update(accessed, dirtied) => {
                write!(out, "marks {}", marks_name(accessed, dirtied))
            }
            Foreign::At(granule, first, level) => write!(out, "{granule} {first}>{level}"),
            Foreign::Clamped(granule, first) => write!(out, "{granule} clamped to {first}"),
            Foreign::Decides(bit) => write!(out, "decides {bit}"),
            Foreign::Spelt(what) => write!(out, "{what:?}"),
            Foreign::Peculiar(what) => write!(out, "{what:?}"),
        }
    }
}

/// The ends that there are: tag, and whether an update is due.
const ENDS: [(u8, bool); 4] = [
    (SUCCESS, false),
    (SUCCESS, true),
    (FAULT, false),
    (REFUSED, false),
];

/// The codes of faults after an offer; leaves are at levels 1 to 3 only.
fn codes() -> impl Iterator<Item = u16> {
    let any_level = (0..4).flat_map(|level| [0, 4, 20].map(|base| base + level));
    let of_leaf = (1..4).flat_map(|level| [8, 12].map(|base| base + level));
    any_level.chain(of_leaf).chain([33])
}

/// The marks that an update makes.
fn marks(kind: Kind) -> &'static [(bool, bool)] {
    match kind {
        Kind::Read | Kind::Fetch => &[(true, false)],
        Kind::Write | Kind::Update => &[(true, false), (false, true), (true, true)],
        Kind::ProbeRead | Kind::ProbeWrite => &[],
    }
}

/// First levels and the levels that each leads to.
fn levels(granule: Granule) -> impl Iterator<Item = (u8, u8)> {
    let firsts = granule.first_levels().iter().map(|row| row.0);
    firsts.flat_map(|first| (first..=LAST_LEVEL).map(move |level| (first, level)))
}

/// Everything that RULES lets occur.
fn possible() -> BTreeSet<Feature> {
    let mut all = BTreeSet::new();
    all.extend(STEPWISE.iter().copied().map(F::Refused));
    all.extend(pairs(STEPWISE).map(|(row, other)| F::FirstRow(row, other)));
    for row in [1, 2] {
        all.extend([false, true].map(|walked| F::PoolRow(row, walked)));
    }
    for (tag, update) in ENDS {
        all.extend([F::OtherPool(tag, update), F::Late(tag, update)]);
    }
    all.extend([FaultKind::Translation, FaultKind::AddressSize].map(F::AtOnce));
    for source in Source::ALL {
        all.extend(codes().map(|code| F::Code(source, code)));
        for kind in Kind::ALL {
            let each = marks(kind).iter();
            all.extend(each.map(|&(af, dirty)| F::Update(source, kind, af, dirty)));
        }
    }
    Granule::ALL
        .into_iter()
        .for_each(|g| of_granule(&mut all, g));
    for place in TAKING {
        all.extend((0..LAST_LEVEL).map(|left| F::Tables(left, place)));
    }
    all.extend((0..LAST_LEVEL - 1).map(F::Kept));
    all.extend((0..LAST_LEVEL).map(F::Hpd));
    all.extend((2..=MOST_OFFERS).map(F::Again));
    all.extend(Spelt::ALL.map(F::Spelt));
    all.extend(foreign().into_iter().map(F::Foreign));
    all
}

fn of_granule(all: &mut BTreeSet<Feature>, granule: Granule) {
    let ways = granule.ways();
    all.extend(ways.map(|(first, level)| F::Way(granule, first, level)));
    all.extend(levels(granule).map(|(first, level)| F::Unreachable(granule, first, level)));
    all.extend([false, true].map(|ee| F::Order(granule, ee)));
    all.insert(F::High(granule));
    all.insert(F::Offers(granule, REFUSED, 0));
    all.insert(F::Offers(granule, FAULT, 0));
    for count in 1..=granule.levels().count() {
        all.extend([SUCCESS, FAULT].map(|tag| F::Offers(granule, tag, count)));
    }
}

/// What walks of any bytes can meet.
fn foreign() -> BTreeSet<Foreign> {
    let mut all = BTreeSet::new();
    let any_bytes = |outcome| Foreign::From(Origin::AnyBytes, outcome);
    all.extend(Outcome::OF_ANY_BYTES.map(any_bytes));
    for origin in [Origin::LeftByCalls, Origin::Drawn] {
        all.extend(Outcome::ALL.map(|outcome| Foreign::From(origin, outcome)));
    }
    all.extend([false, true].map(Foreign::Ended));
    all.extend(STEPWISE.iter().copied().map(Foreign::Refused));
    all.extend(pairs(STEPWISE).map(|(row, other)| Foreign::FirstRow(row, other)));
    all.extend((1..=MOST_OFFERS).map(Foreign::Offers));
    all.extend(codes().map(Foreign::Code));
    let updates = marks(Kind::Write).iter();
    all.extend(updates.map(|&(af, dirty)| Foreign::Update(af, dirty)));
    for granule in Granule::ALL {
        all.extend(levels(granule).map(|(first, level)| Foreign::At(granule, first, level)));
        let firsts = granule.first_levels().iter();
        all.extend(firsts.map(|row| Foreign::Clamped(granule, row.0)));
    }
    all.extend(TAKING.map(Foreign::Decides));
    all.extend(Spelt::ALL.map(Foreign::Spelt));
    all.extend(Peculiar::ALL.map(Foreign::Peculiar));
    all
}

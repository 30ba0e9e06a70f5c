//! What scripts can meet.

use super::granules::{self, Granular};
use super::harvests::Harvested;
use super::orders::{self, Ordered};
use super::play::Bytes;
use crate::boundary::{FAULT, SUCCESS, SUM_BITS};
use crate::counts::Countable;
use crate::decisions::Decision;
use crate::geometry::Granule;
use crate::limits::{Limit, Octave};
use crate::orders::with_each_order;
use crate::reference::{FaultKind, Kind, POOL_LIMIT, TAKING};
use crate::refusals::{pairs, ACCESS, HARVEST, SESSION_HARVEST, SET_REGIME, STORE};
use crate::rule3::Class;
use crate::tally::{level_name, under, End};
use std::collections::BTreeSet;
use std::fmt;

/// The totals that say most.
#[derive(Clone, Copy, Debug, PartialEq, Eq, PartialOrd, Ord)]
pub enum Sum {
    HitSuccess,
    HitFault,
    Rewalk,
    Fill,
    Eviction,
    NotRemembered,
    RefusedCall,
}

/// What an accepted regime is to the session.
#[derive(Clone, Copy, Debug, PartialEq, Eq, PartialOrd, Ord)]
pub enum Switch {
    First,
    SameAgain,
    Other,
    /// One that stood before, with another between.
    Back,
}

/// Where an accepted store goes.
#[derive(Clone, Copy, Debug, PartialEq, Eq, PartialOrd, Ord)]
pub enum Target {
    HeldLeaf,
    /// The leaf of more than one held page.
    SharedLeaf,
    HeldTable,
    LastOfPool,
    Elsewhere,
}

/// What a store does to the leaf of a held page.
#[derive(Clone, Copy, Debug, PartialEq, Eq, PartialOrd, Ord)]
pub enum Effect {
    SetsAf,
    ClearsAf,
    SetsAp2,
    ClearsAp2,
    MakesInvalid,
}

/// Why a store is refused with 8.
#[derive(Clone, Copy, Debug, PartialEq, Eq, PartialOrd, Ord)]
pub enum Off {
    Misaligned,
    JustBefore,
    JustBehind,
    /// In the pool but for bits 63..48.
    UpperBits,
    Elsewhere,
}

/// What a place held before a walk.
#[derive(Clone, Copy, Debug, PartialEq, Eq, PartialOrd, Ord)]
pub enum Before {
    Nothing,
    OtherPage,
    /// The page itself, with a dirty mark to come.
    SamePage,
}

/// What came between the walk of a page and a hit.
#[derive(Clone, Copy, Debug, PartialEq, Eq, PartialOrd, Ord)]
pub enum Since {
    Store,
    RefusedStore,
    RefusedRegime,
    RefusedAccess,
    RefusedHarvest,
    /// Another page at the place, not remembered.
    PasserBy,
    /// A walk of the page itself, not remembered.
    FailedRewalk,
}

/// What emptied a page's place before it is walked again.
#[derive(Clone, Copy, Debug, PartialEq, Eq, PartialOrd, Ord)]
pub enum Emptying {
    DropAll,
    SameRegime,
    OtherRegime,
    Harvest,
}

impl Emptying {
    const ALL: [Emptying; 4] = [
        Emptying::DropAll,
        Emptying::SameRegime,
        Emptying::OtherRegime,
        Emptying::Harvest,
    ];
}

/// The calls that row 1 is for.
#[derive(Clone, Copy, Debug, PartialEq, Eq, PartialOrd, Ord)]
pub enum Asked {
    SetRegime,
    Access,
    Store,
    Harvest,
}

#[derive(Clone, Copy, Debug, PartialEq, Eq, PartialOrd, Ord)]
pub enum Odd {
    /// A hit on a page whose walk reads a descriptor twice.
    ReadTwice,
    /// A re-walk that finds the leaf dirtied through another page.
    DirtiedElsewhere,
    /// A hit by another address than the walk's.
    OtherAddress,
    /// A hit with a dirty mark to come, by a write that faults.
    CleanFault,
    /// A hit with a dirty mark to come, by a probe-write.
    CleanProbe,
    /// More than 24 places hold a page.
    ManyHeld,
    /// Refused with 9, over a memory above its limit.
    NineBeforeOne,
    /// A hit over a memory of another length than its walk's.
    OtherLength,
    /// An access of which the second half says nothing, for that reason.
    Unsaid,
    /// A hit by a write on a leaf that would be writable-clean but for bit 62.
    CleanTaken,
    /// A re-walk that bit 62 stops, which the held sum did not have.
    RewalkTaken,
    /// A hit on a leaf that another page holds under another sum.
    TwoSums,
    /// A hit with HPD on, where bits of the tables would decide.
    HpdOn,
    /// A regime accepted with its granule spelled with a byte above 2.
    GranuleByte,
}

/// What is met in sessions of any bytes (RULES 10.5).
#[derive(Clone, Copy, Debug, PartialEq, Eq, PartialOrd, Ord)]
pub enum Foreign {
    /// A hit by bits 3..0 of its entry's `tables`.
    Sum(u8),
    /// A hit where bits 7..4 would decide if they were the sum.
    IdleBits,
    /// A hit that the held sum decides, though HPD is on.
    HpdOn,
    /// A success by a leaf of level 0, where no leaf stands, or no table.
    LevelZero(Granule),
    /// A walk of a page whose entry has its leaf at no level.
    NoLevel,
    /// A hit that tells an Access flag update, on a leaf with AF 0.
    ToldAccessed,
    /// A hit that is an Access flag fault.
    AccessFlag,
    /// A hit under a regime that a row would refuse.
    Hit(u8),
    /// A walk under one.
    Walked(u8),
    /// A hit with EE, or without.
    HitWith(bool),
    /// A walk to a leaf with EE, or without.
    WalkedWith(bool),
    /// A store accepted with EE, or without.
    StoredWith(bool),
    /// A walk to a leaf with EE spelled with a byte other than 1.
    OddEeWalked,
    /// A store accepted with such EE.
    OddEeStored,
    /// A hit with a granule.
    HitUnder(Granule),
    /// A walk to a leaf with a granule.
    WalkedUnder(Granule),
    /// Refused with 1, for a start or length that is a multiple of a smaller
    /// granule.
    OffPool(Granule, Asked),
    /// A walk that finds no table, for a root that is one.
    OffRoot(Granule),
    /// A hit, or a walk to a leaf, by the byte above 2 that says the granule.
    GranuleByte(u8),
    /// The reply to a harvest.
    Harvest(u8),
    /// A refusal of a harvest, and a later row that applies too.
    HarvestRow(u8, u8),
    /// A harvest that is accepted, and leaves entries empty that were not.
    HarvestEmpties,
    /// A leaf that is cleaned with EE spelled with a byte other than 1.
    OddEeCleaned,
}

impl Foreign {
    fn all() -> impl Iterator<Item = Self> {
        let rows = SET_REGIME.iter().copied().filter(|&row| row != 1);
        let under = rows.flat_map(|row| [Foreign::Hit(row), Foreign::Walked(row)]);
        let alone = [
            Foreign::IdleBits,
            Foreign::HpdOn,
            Foreign::NoLevel,
            Foreign::ToldAccessed,
            Foreign::AccessFlag,
            Foreign::OddEeWalked,
            Foreign::OddEeStored,
            Foreign::OddEeCleaned,
            Foreign::HarvestEmpties,
            Foreign::Harvest(0),
        ];
        let harvests = SESSION_HARVEST.iter().copied().map(Foreign::Harvest);
        let of_order = [Foreign::HitWith, Foreign::WalkedWith, Foreign::StoredWith];
        let orders = of_order.into_iter().flat_map(|of| [of(false), of(true)]);
        let sums = (0..=SUM_BITS).map(Foreign::Sum);
        let bytes = (3..=0xFF).map(Foreign::GranuleByte);
        let each = sums.chain(alone).chain(under).chain(orders).chain(bytes);
        let rows = pairs(HARVEST).chain([(9, 11)]);
        let rows = rows.map(|(row, other)| Foreign::HarvestRow(row, other));
        let each = each.chain(harvests).chain(rows);
        each.chain(Granule::ALL.into_iter().flat_map(Foreign::under))
    }

    /// What is to be met with a granule.
    fn under(granule: Granule) -> Vec<Self> {
        let mut all = vec![
            Foreign::HitUnder(granule),
            Foreign::WalkedUnder(granule),
            Foreign::LevelZero(granule),
        ];
        if granule.smaller().next().is_some() {
            all.push(Foreign::OffRoot(granule));
            all.extend([Asked::Access, Asked::Store].map(|asked| Foreign::OffPool(granule, asked)));
        }
        all
    }
}

/// One thing to meet.
#[derive(Clone, Copy, Debug, PartialEq, Eq, PartialOrd, Ord)]
pub enum Feature {
    Sum(Sum),
    /// Reply to set regime, and whether a regime stood.
    SetRegime(bool, u8),
    /// A refusal of set regime, and a later row that applies too.
    FirstRow(u8, u8),
    Switch(Switch),
    Store(u8),
    Into(Target),
    Effect(Effect),
    Off(Off),
    /// Drop all, with or without a regime; with or without a page held.
    DropAll(bool, bool),
    Harvested(Harvested),
    Refused(u8),
    /// A refused access of a held page.
    RefusedHeld(u8),
    Ended(End),
    Hit(End, bool, Kind),
    HitSince(Since),
    /// A hit where the plain walk would say otherwise.
    Stale(End),
    /// A hit that a bit of the held sum decides.
    HitDecided(Decision),
    /// A hit whose held sum has a bit that a walk would not meet (true), or
    /// the other way round.
    StaleSum(u32, bool),
    Rewalk(Kind, End, bool),
    Walked(Before, End, bool),
    Emptied(Emptying),
    /// The same, and the tables now take other things away.
    OtherSum(Emptying),
    /// Under a regime with EE or without.
    Ordered(bool, Ordered),
    /// Under a regime of a granule, or one that is to be set.
    Granular(Granule, Granular),
    Limit(Asked, Limit),
    /// A leaf that an access marked, by its place in the pool.
    Marked(Octave),
    /// A descriptor that was stored, by its place in the pool.
    Stored(Octave),
    Odd(Odd),
    Foreign(Foreign),
    FirstHalf(bool),
    InScript(Class),
    After(Class, Bytes),
    OneAnswer(u8),
}

use Feature as F;

fn yes(value: bool) -> &'static str {
    if value {
        "with"
    } else {
        "without"
    }
}

impl fmt::Display for Feature {
    fn fmt(&self, out: &mut fmt::Formatter) -> fmt::Result {
        match *self {
            F::Sum(sum) => write!(out, "{sum:?}"),
            F::SetRegime(stood, 0) => write!(out, "{} accepted", yes(stood)),
            F::SetRegime(stood, number) => write!(out, "{} no. {number}", yes(stood)),
            F::FirstRow(number, other) => write!(out, "{number} before {other}"),
            F::Switch(switch) => write!(out, "{switch:?}"),
            F::Store(0) => write!(out, "accepted"),
            F::Store(number) | F::Refused(number) | F::RefusedHeld(number) => {
                write!(out, "no. {number}")
            }
            F::Harvested(what) => write!(out, "{what}"),
            F::Into(target) => write!(out, "{target:?}"),
            F::Effect(effect) => write!(out, "{effect:?}"),
            F::Off(off) => write!(out, "{off:?}"),
            F::DropAll(stood, held) => write!(out, "{} / {}", yes(stood), yes(held)),
            F::Ended(end) | F::Stale(end) => write!(out, "{end}"),
            F::Hit(end, el0, kind) => write!(out, "{end} {} {kind:?}", level_name(el0)),
            F::HitSince(since) => write!(out, "{since:?}"),
            F::Rewalk(kind, end, dirtied) => {
                let mark = if dirtied { " dirty" } else { "" };
                write!(out, "{kind:?} {end}{mark}")
            }
            F::Walked(before, end, remembered) => {
                let kept = if remembered { "yes" } else { "no" };
                write!(out, "{before:?} {end} {kept}")
            }
            F::HitDecided(decision) => write!(out, "{decision}"),
            F::StaleSum(bit, true) => write!(out, "{bit} held"),
            F::StaleSum(bit, false) => write!(out, "{bit} not held"),
            F::Emptied(by) | F::OtherSum(by) => write!(out, "{by:?}"),
            F::Ordered(_, what) => write!(out, "{what}"),
            F::Granular(_, what) => write!(out, "{what}"),
            F::Limit(asked, limit) => write!(out, "{asked:?} {limit:?}"),
            F::Marked(octave) | F::Stored(octave) => write!(out, "{octave}"),
            F::Odd(odd) => write!(out, "{odd:?}"),
            F::Foreign(what) => write!(out, "{what:?}"),
            F::FirstHalf(said) => write!(out, "{}", if said { "said" } else { "not said" }),
            F::InScript(class) => write!(out, "{class:?}"),
            F::After(class, bytes) => write!(out, "{class:?} {bytes:?}"),
            F::OneAnswer(SUCCESS) => write!(out, "success"),
            F::OneAnswer(_) => write!(out, "fault"),
        }
    }
}

impl Countable for Feature {
    fn heading(&self) -> &'static str {
        match self {
            F::Sum(_) => "session",
            F::SetRegime(..) => "set regime, with and without one before",
            F::FirstRow(..) => "set regime refused before another row that applies",
            F::Switch(_) => "regimes accepted",
            F::Store(_) => "stores",
            F::Into(_) => "stores accepted into",
            F::Effect(_) => "stores into the leaf of a held page",
            F::Off(_) => "stores refused with 8",
            F::DropAll(..) => "drops, with and without a regime / a held page",
            F::Harvested(what) => what.heading(),
            F::Refused(_) => "accesses refused",
            F::RefusedHeld(_) => "accesses of a held page refused",
            F::Ended(_) => "accesses answered",
            F::Hit(..) => "hits",
            F::HitSince(_) => "hits by what came since the walk",
            F::Stale(_) => "hits where a walk would differ, by that walk",
            F::HitDecided(_) => "hits that a bit of the held sum decides",
            F::StaleSum(..) => "hits where a walk would meet another sum, by bit",
            F::Rewalk(..) => "re-walks",
            F::Walked(..) => "walks by what the place held, end, and remembered or not",
            F::Emptied(_) => "walks of a page held before an emptying",
            F::OtherSum(_) => "the same with another sum than it was held with",
            F::Ordered(true, _) => "with EE",
            F::Ordered(false, _) => "without EE",
            F::Granular(granule, _) => under(*granule),
            F::Limit(..) => "limits of memory and pool",
            F::Marked(_) => "leaves marked, by 4 KiB of the pool",
            F::Stored(_) => "stores accepted, by 4 KiB of the pool",
            F::Odd(_) => "odd",
            F::Foreign(_) => "sessions of any bytes",
            F::FirstHalf(_) => "rule 3, first half",
            F::InScript(_) => "rule 3, second half, in scripts",
            F::After(..) => "rule 3, second half, after scripts",
            F::OneAnswer(_) => "the one answers after scripts",
        }
    }

    fn possible() -> BTreeSet<Self> {
        let mut all = BTreeSet::new();
        replies(&mut all);
        hits(&mut all);
        walks(&mut all);
        lengths(&mut all);
        all.extend(Harvested::all().into_iter().map(F::Harvested));
        all.extend(with_each_order(Ordered::all()).map(|(ee, what)| F::Ordered(ee, what)));
        for granule in Granule::ALL {
            let granular = Granular::all(granule).into_iter();
            all.extend(granular.map(|what| F::Granular(granule, what)));
        }
        all.extend(Foreign::all().map(F::Foreign));
        all.extend([false, true].map(F::FirstHalf));
        all.insert(F::InScript(Class::NoRegime));
        for class in [
            Class::OneAnswer,
            Class::DirtyMark,
            Class::OtherPage,
            Class::Nothing,
        ] {
            all.insert(F::InScript(class));
            all.extend(Bytes::ALL.map(|bytes| F::After(class, bytes)));
        }
        all.extend([SUCCESS, FAULT].map(F::OneAnswer));
        all
    }

    fn least(&self) -> u64 {
        match self {
            F::Ordered(..) => orders::LEAST,
            F::Granular(..) => granules::LEAST,
            _ => 1,
        }
    }
}

/// Replies that can occur.
fn replies(all: &mut BTreeSet<Feature>) {
    all.extend([Sum::HitSuccess, Sum::HitFault, Sum::Rewalk].map(F::Sum));
    all.extend(
        [
            Sum::Fill,
            Sum::Eviction,
            Sum::NotRemembered,
            Sum::RefusedCall,
        ]
        .map(F::Sum),
    );
    for stood in [false, true] {
        all.insert(F::SetRegime(stood, 0));
        all.extend(SET_REGIME.iter().map(|&row| F::SetRegime(stood, row)));
    }
    all.extend(pairs(SET_REGIME).map(|(row, other)| F::FirstRow(row, other)));
    all.extend(
        [
            Switch::First,
            Switch::SameAgain,
            Switch::Other,
            Switch::Back,
        ]
        .map(F::Switch),
    );
    all.insert(F::Store(0));
    all.extend(STORE.iter().copied().map(F::Store));
    all.extend([Target::HeldLeaf, Target::SharedLeaf, Target::HeldTable].map(F::Into));
    all.extend([Target::LastOfPool, Target::Elsewhere].map(F::Into));
    all.extend([Effect::SetsAf, Effect::ClearsAf, Effect::MakesInvalid].map(F::Effect));
    all.extend([Effect::SetsAp2, Effect::ClearsAp2].map(F::Effect));
    all.extend([Off::Misaligned, Off::JustBefore, Off::JustBehind].map(F::Off));
    all.extend([Off::UpperBits, Off::Elsewhere].map(F::Off));
    all.extend(ACCESS.iter().copied().map(F::Refused));
    // Without a regime nothing is held.
    all.extend([F::DropAll(false, false), F::DropAll(true, false)]);
    all.insert(F::DropAll(true, true));
    let with_regime = ACCESS.iter().copied().filter(|&row| row != 9);
    all.extend(with_regime.map(F::RefusedHeld));
}

/// Answers from a place that can occur.
fn hits(all: &mut BTreeSet<Feature>) {
    for el0 in [false, true] {
        for kind in Kind::ALL {
            all.insert(F::Hit(End::Success, el0, kind));
            // No read from EL1 is ever denied.
            if el0 || !matches!(kind, Kind::Read | Kind::ProbeRead) {
                all.insert(F::Hit(End::Fault(FaultKind::Permission), el0, kind));
            }
            if kind.moves_data() {
                all.insert(F::Hit(End::Fault(FaultKind::Alignment), el0, kind));
            }
        }
    }
    all.extend([Since::Store, Since::RefusedStore, Since::RefusedRegime].map(F::HitSince));
    all.extend([Since::RefusedAccess, Since::PasserBy, Since::FailedRewalk].map(F::HitSince));
    all.insert(F::HitSince(Since::RefusedHarvest));
    all.insert(F::Stale(End::Success));
    all.extend(FaultKind::ALL.map(|kind| F::Stale(End::Fault(kind))));
    all.extend([Odd::ReadTwice, Odd::DirtiedElsewhere, Odd::OtherAddress].map(F::Odd));
    all.extend([Odd::CleanFault, Odd::CleanProbe, Odd::ManyHeld].map(F::Odd));
    all.extend([Odd::NineBeforeOne, Odd::OtherLength, Odd::Unsaid].map(F::Odd));
    all.extend([Odd::CleanTaken, Odd::RewalkTaken, Odd::TwoSums, Odd::HpdOn].map(F::Odd));
    all.insert(F::Odd(Odd::GranuleByte));
    all.extend(Decision::all().map(F::HitDecided));
    for held in [false, true] {
        all.extend(TAKING.map(|bit| F::StaleSum(bit, held)));
    }
}

/// Walks that can occur, and what they leave in the place.
fn walks(all: &mut BTreeSet<Feature>) {
    all.insert(F::Ended(End::Success));
    all.extend(FaultKind::ALL.map(|kind| F::Ended(End::Fault(kind))));
    for before in [Before::Nothing, Before::OtherPage, Before::SamePage] {
        all.insert(F::Walked(before, End::Success, true));
        // Only a probe succeeds without AF, and only a write walks again.
        if before != Before::SamePage {
            all.insert(F::Walked(before, End::Success, false));
        }
        for kind in FaultKind::ALL {
            // A re-walk has HA on.
            if kind != FaultKind::AccessFlag || before != Before::SamePage {
                all.insert(F::Walked(before, End::Fault(kind), false));
            }
            if matches!(kind, FaultKind::Permission | FaultKind::Alignment) {
                all.insert(F::Walked(before, End::Fault(kind), true));
            }
        }
    }
    for kind in [Kind::Write, Kind::Update] {
        all.insert(F::Rewalk(kind, End::Success, true));
        all.insert(F::Rewalk(kind, End::Success, false));
        for fault in FaultKind::ALL {
            if fault != FaultKind::AccessFlag {
                all.insert(F::Rewalk(kind, End::Fault(fault), false));
            }
        }
    }
    for by in Emptying::ALL {
        all.extend([F::Emptied(by), F::OtherSum(by)]);
    }
}

/// What has to do with the lengths of memory and pool.
fn lengths(all: &mut BTreeSet<Feature>) {
    for asked in [
        Asked::SetRegime,
        Asked::Access,
        Asked::Store,
        Asked::Harvest,
    ] {
        all.extend(Limit::KEPT.map(|limit| F::Limit(asked, limit)));
        all.extend(Limit::OF_MEMORY.map(|limit| F::Limit(asked, limit)));
    }
    // The pool of a session has passed no limit.
    all.extend(Limit::OF_POOL.map(|limit| F::Limit(Asked::SetRegime, limit)));
    for asked in [Asked::Access, Asked::Store, Asked::Harvest] {
        all.extend(Limit::OF_ADDRESS.map(|limit| F::Limit(asked, limit)));
    }
    all.extend(Octave::all(POOL_LIMIT).map(F::Marked));
    all.extend(Octave::all(POOL_LIMIT).map(F::Stored));
}

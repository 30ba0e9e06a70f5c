//! Plain walks in each byte order of descriptors (RULES 2.3): what their tally
//! counts by.

use crate::geometry::Granule;
use crate::reference::{bit, look, Access, Answer, FaultKind, Kind, Pool, Regime, Walk};
use crate::refusals::WALK;
use crate::reversed::other_order;
use crate::tally::marks_name;
use std::collections::BTreeSet;
use std::fmt;

/// How often each thing must be met in each order.
pub const LEAST: u64 = 100;

/// Things without EE, and the same with EE.
pub fn with_each_order<T: Clone>(things: Vec<T>) -> impl Iterator<Item = (bool, T)> {
    let with = things.clone().into_iter().map(|thing| (true, thing));
    things.into_iter().map(|thing| (false, thing)).chain(with)
}

/// How a walk ends that would end otherwise in another one, say in the other
/// order.
#[derive(Clone, Copy, Debug, PartialEq, Eq, PartialOrd, Ord)]
pub enum Turn {
    /// A success; in the other one a fault.
    ThisAlone,
    /// A fault; in the other one a success.
    OtherAlone,
    /// Two successes that differ.
    Both,
    /// Two faults that differ.
    Neither,
}

impl Turn {
    pub const ALL: [Turn; 4] = [Turn::ThisAlone, Turn::OtherAlone, Turn::Both, Turn::Neither];

    /// None where the order has no say.
    pub fn of(memory: &[u8], regime: &Regime, access: &Access, answer: &Answer) -> Option<Turn> {
        let other = look(memory, &other_order(regime), access).answer;
        Turn::between(answer, &other)
    }

    /// None where both answers are the same.
    pub fn between(answer: &Answer, other: &Answer) -> Option<Turn> {
        match (answer, other) {
            _ if answer == other => None,
            (Answer::Success(_), Answer::Success(_)) => Some(Turn::Both),
            (Answer::Success(_), _) => Some(Turn::ThisAlone),
            (_, Answer::Success(_)) => Some(Turn::OtherAlone),
            _ => Some(Turn::Neither),
        }
    }
}

/// What is to be met in each order.
#[derive(Clone, Copy, Debug, PartialEq, Eq, PartialOrd, Ord)]
pub enum Ordered {
    Refused(u8),
    /// First level and level of a success.
    Success(u8, u8),
    /// A fault after a read, and its level.
    Fault(FaultKind, u8),
    /// A success that makes marks: Access flag, dirty.
    Marks(Kind, bool, bool),
    /// Marks in the pool's first descriptor.
    MarksFirst,
    /// Marks in its last one.
    MarksLast,
    Turn(Turn),
}

impl Ordered {
    /// All that can occur.
    pub fn all() -> Vec<Ordered> {
        let mut all: Vec<Ordered> = WALK.iter().copied().map(Ordered::Refused).collect();
        let ways: BTreeSet<(u8, u8)> = Granule::ALL.into_iter().flat_map(Granule::ways).collect();
        all.extend(
            ways.into_iter()
                .map(|(first, level)| Ordered::Success(first, level)),
        );
        for level in 0..=3 {
            // Leaves are at levels 1 to 3 only.
            let on_way = |kind: &FaultKind| level > 0 || !kind.is_of_leaf();
            let faults = FaultKind::ALL.into_iter().filter(on_way);
            all.extend(faults.map(|kind| Ordered::Fault(kind, level)));
        }
        for kind in Kind::ALL.into_iter().filter(|kind| !kind.is_probe()) {
            all.push(Ordered::Marks(kind, true, false));
            if kind.changes_data() {
                all.extend([false, true].map(|accessed| Ordered::Marks(kind, accessed, true)));
            }
        }
        all.extend([Ordered::MarksFirst, Ordered::MarksLast]);
        all.extend(Turn::ALL.map(Ordered::Turn));
        all
    }

    /// What a walk over a memory meets.
    pub fn of(memory: &[u8], regime: &Regime, access: &Access, walk: &Walk) -> Vec<Ordered> {
        let mut met = Vec::new();
        match walk.answer {
            Answer::Refused(number) => met.push(Ordered::Refused(number)),
            Answer::Success(success) => {
                let range = usize::from(bit(access.address, 55));
                let first = regime.granule.first_level(regime.ranges[range].t);
                met.push(Ordered::Success(first, success.level));
                let (accessed, dirtied) = (success.accessed, success.dirtied);
                if accessed || dirtied {
                    met.push(Ordered::Marks(access.kind, accessed, dirtied));
                    met.extend(at_ends(&regime.pool, walk));
                }
            }
            Answer::Fault(fault) if fault.reads > 0 => {
                met.push(Ordered::Fault(fault.stop.kind, fault.stop.level));
            }
            Answer::Fault(_) => {}
        }
        met.extend(Turn::of(memory, regime, access, &walk.answer).map(Ordered::Turn));
        met
    }
}

/// The ends of the pool at which the leaf of a marking walk stands.
fn at_ends(pool: &Pool, walk: &Walk) -> impl Iterator<Item = Ordered> {
    let leaf = walk.visited.last().copied();
    let first = leaf == Some(pool.address);
    let last = leaf.map(|leaf| leaf + 8) == Some(pool.address + pool.length as u64);
    let first = first.then_some(Ordered::MarksFirst);
    first.into_iter().chain(last.then_some(Ordered::MarksLast))
}

impl fmt::Display for Ordered {
    fn fmt(&self, out: &mut fmt::Formatter) -> fmt::Result {
        match *self {
            Ordered::Refused(number) => write!(out, "no. {number}"),
            Ordered::Success(first, level) => write!(out, "Success {first}>{level}"),
            Ordered::Fault(kind, level) => write!(out, "{kind:?} {level}"),
            Ordered::Marks(kind, accessed, dirtied) => {
                write!(out, "{kind:?} {}", marks_name(accessed, dirtied))
            }
            Ordered::Turn(turn) => write!(out, "{turn:?}"),
            Ordered::MarksFirst | Ordered::MarksLast => write!(out, "{self:?}"),
        }
    }
}

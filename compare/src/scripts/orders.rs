//! Calls of scripts in each byte order of descriptors (RULES 2.3), and in one
//! order after the other: what their tally counts by.

use crate::boundary::Reply;
use crate::reference::{offset_in_memory, Access, Answer, FaultKind, Regime, Walk};
use crate::reversed::other_order;
use crate::rule3::{History, Past};
use crate::session::{Call, Way};
use crate::tally::{marks_name, End};
use std::fmt;

/// How often each thing must be met in each order.
pub const LEAST: u64 = 20;

/// What is to be met in each order.
#[derive(Clone, Copy, Debug, PartialEq, Eq, PartialOrd, Ord)]
pub enum Ordered {
    /// The reply to a store.
    Store(u8),
    /// A store into the pool's last descriptor.
    StoreLast,
    /// An answer from a place.
    Hit(End),
    /// An answer by a walk.
    Walked(End),
    /// A walk that makes marks: Access flag, dirty.
    Marks(bool, bool),
    /// A regime that differs from the one before in its order alone.
    Turned,
    /// A walk to a leaf, of a page held until the order was turned.
    HeldBefore,
    /// A walk to a leaf, by way of a descriptor stored in the other order.
    StoredBefore,
    /// A mark in a leaf stored in the other order.
    MarksStored,
    /// The reply to a harvest.
    Harvest(u8),
    /// A harvest that cleans a leaf.
    Cleaned,
}

impl Ordered {
    /// All that can occur.
    pub fn all() -> Vec<Ordered> {
        let mut all = [0, 1, 8].map(Ordered::Store).to_vec();
        all.extend([Ordered::StoreLast, Ordered::Hit(End::Success)]);
        let held = [FaultKind::Permission, FaultKind::Alignment];
        all.extend(held.map(|kind| Ordered::Hit(End::Fault(kind))));
        all.push(Ordered::Walked(End::Success));
        all.extend(FaultKind::ALL.map(|kind| Ordered::Walked(End::Fault(kind))));
        all.extend([(true, false), (false, true), (true, true)].map(|(a, d)| Ordered::Marks(a, d)));
        all.extend([Ordered::Turned, Ordered::HeldBefore]);
        all.extend([Ordered::StoredBefore, Ordered::MarksStored]);
        all.extend([0, 1, 10, 11].map(Ordered::Harvest));
        all.push(Ordered::Cleaned);
        all
    }
}

impl fmt::Display for Ordered {
    fn fmt(&self, out: &mut fmt::Formatter) -> fmt::Result {
        match *self {
            Ordered::Store(0) => write!(out, "Store accepted"),
            Ordered::Store(number) => write!(out, "Store no. {number}"),
            Ordered::Harvest(0) => write!(out, "Harvest accepted"),
            Ordered::Harvest(number) => write!(out, "Harvest no. {number}"),
            Ordered::Hit(end) => write!(out, "Hit {end}"),
            Ordered::Walked(end) => write!(out, "Walked {end}"),
            Ordered::Marks(accessed, dirtied) => {
                write!(out, "Marks {}", marks_name(accessed, dirtied))
            }
            other => write!(out, "{other:?}"),
        }
    }
}

/// What the last call of a list meets, and whether it does so with EE.
pub fn of(history: &History, seen: Option<&(Answer, Way)>) -> Option<(bool, Vec<Ordered>)> {
    let (event, earlier) = history.events().split_last()?;
    let past = history.before(earlier.len());
    let last = past.regime();
    match (event.call, event.reply) {
        (Call::SetRegime(regime), Reply::Changed(0)) => {
            let turned = last == Some(other_order(&regime));
            let met = turned.then_some(Ordered::Turned);
            Some((regime.ee, met.into_iter().collect()))
        }
        (Call::Store { address, .. }, Reply::Changed(number)) => {
            let Regime { pool, ee, .. } = last?;
            let end = pool.address + pool.length as u64;
            let at_end = number == 0 && address + 8 == end;
            let met = at_end.then_some(Ordered::StoreLast);
            Some((
                ee,
                [Ordered::Store(number)].into_iter().chain(met).collect(),
            ))
        }
        (Call::Access(access), _) => {
            let regime = last?;
            let (answer, way) = seen?;
            let met = of_access(history, past, &regime, &access, answer, way);
            Some((regime.ee, met))
        }
        _ => None,
    }
}

fn of_access(
    history: &History,
    past: Past,
    regime: &Regime,
    access: &Access,
    answer: &Answer,
    way: &Way,
) -> Vec<Ordered> {
    let end = match answer {
        Answer::Success(_) => End::Success,
        Answer::Fault(fault) => End::Fault(fault.stop.kind),
        Answer::Refused(_) => return Vec::new(),
    };
    let walk = match way {
        Way::Refused => return Vec::new(),
        Way::Held => return vec![Ordered::Hit(end)],
        Way::Walked(walk) | Way::WalkedAgain(walk) => walk,
    };
    let mut met = vec![Ordered::Walked(end)];
    let marks = match answer {
        Answer::Success(success) => (success.accessed, success.dirtied),
        _ => (false, false),
    };
    if marks != (false, false) {
        met.push(Ordered::Marks(marks.0, marks.1));
    }
    if was_held(history, past, regime, access) && walk.leaf.is_some() {
        met.push(Ordered::HeldBefore);
    }
    met.extend(of_stored(past, regime, walk, marks != (false, false)));
    met
}

/// Whether a page was held until the order was turned.
fn was_held(history: &History, past: Past, regime: &Regime, access: &Access) -> bool {
    let emptying = past.last_emptying();
    let before = emptying.map(|at| history.before(at)).filter(|before| {
        let last = before.regime();
        last.is_some_and(|last| last.ee != regime.ee)
    });
    before.is_some_and(|before| before.remembers(access.address))
}

/// What a walk to a leaf meets of stores in the other order.
fn of_stored(past: Past, regime: &Regime, walk: &Walk, marked: bool) -> Vec<Ordered> {
    let Some((_, leaf)) = walk.leaf else {
        return Vec::new();
    };
    let other = |offset| past.stored_with_ee(offset) == Some(!regime.ee);
    let mut met = Vec::new();
    let visited = walk.visited.iter();
    let mut offsets = visited.filter_map(|&at| offset_in_memory(&regime.pool, at));
    if offsets.any(other) {
        met.push(Ordered::StoredBefore);
    }
    if marked && other(leaf) {
        met.push(Ordered::MarksStored);
    }
    met
}

//! Harvests in scripts: what their tally counts by.

use super::features::{Asked, Feature as F, Feature};
use super::granules::Granular;
use super::orders::Ordered;
use crate::boundary::Reply;
use crate::geometry::Granule;
use crate::harvest::{survey, Fit, Harvest, Page, MOST_PAGES};
use crate::limits::{self, Limit};
use crate::reference::{bit, Regime, AP2};
use crate::refusals::all_of_session_harvest;
use crate::rule3::{Event, History, Past};
use crate::session::{Held, Session};
use std::collections::BTreeSet;
use std::fmt;

/// What is met in harvests that are accepted.
#[derive(Clone, Copy, Debug, PartialEq, Eq, PartialOrd, Ord)]
pub enum Reaped {
    /// No page is reported.
    Nothing,
    Cleaned,
    /// A leaf is reported that sticks out.
    SticksOut,
    /// A leaf is cleaned that a place holds as dirty.
    HeldDirty,
    /// No page is held.
    NoneHeld,
    /// It is the first emptying after an accepted store.
    AfterStore,
    MostPages,
    /// After it, a page that was held before is marked dirty.
    MarkedAgain,
}

impl Reaped {
    pub const ALL: [Reaped; 8] = [
        Reaped::Nothing,
        Reaped::Cleaned,
        Reaped::SticksOut,
        Reaped::HeldDirty,
        Reaped::NoneHeld,
        Reaped::AfterStore,
        Reaped::MostPages,
        Reaped::MarkedAgain,
    ];
}

/// How a page was written that a harvest must report.
#[derive(Clone, Copy, Debug, PartialEq, Eq, PartialOrd, Ord)]
pub enum Wrote {
    /// From its place.
    Held,
    /// By a walk that marked it dirty.
    Marked,
    /// By a walk that found it dirty.
    Walked,
}

impl Wrote {
    pub const ALL: [Wrote; 3] = [Wrote::Held, Wrote::Marked, Wrote::Walked];
}

/// The refusals of a harvest in a script. The other rows are those of a regime
/// that was not accepted.
const REFUSALS: [u8; 4] = [9, 1, 10, 11];
/// Those that can apply together; the first is given.
const TOGETHER: [(u8, u8); 4] = [(9, 11), (1, 10), (1, 11), (10, 11)];

/// What is to be met in harvests.
#[derive(Clone, Copy, Debug, PartialEq, Eq, PartialOrd, Ord)]
pub enum Harvested {
    Reply(u8),
    /// A refusal, and a later row that applies too.
    Row(u8, u8),
    Reaped(Reaped),
    /// A written page that must be reported, with EE or without.
    Owed(Granule, bool, Wrote),
}

impl Harvested {
    /// All that can occur.
    pub fn all() -> Vec<Self> {
        let mut all = vec![Harvested::Reply(0)];
        all.extend(REFUSALS.map(Harvested::Reply));
        all.extend(TOGETHER.map(|(row, other)| Harvested::Row(row, other)));
        all.extend(Reaped::ALL.map(Harvested::Reaped));
        for granule in Granule::ALL {
            for ee in [false, true] {
                all.extend(Wrote::ALL.map(|how| Harvested::Owed(granule, ee, how)));
            }
        }
        all
    }

    pub fn heading(self) -> &'static str {
        match self {
            Harvested::Reply(_) => "harvests in scripts",
            Harvested::Row(..) => "harvests in scripts refused before another row that applies",
            Harvested::Reaped(_) => "harvests in scripts accepted",
            Harvested::Owed(..) => "written pages that a harvest must report",
        }
    }
}

impl fmt::Display for Harvested {
    fn fmt(&self, out: &mut fmt::Formatter) -> fmt::Result {
        match *self {
            Harvested::Reply(0) => write!(out, "accepted"),
            Harvested::Reply(number) => write!(out, "no. {number}"),
            Harvested::Row(number, other) => write!(out, "{number} before {other}"),
            Harvested::Reaped(what) => write!(out, "{what:?}"),
            Harvested::Owed(granule, ee, how) => {
                write!(out, "{granule} EE {} {how:?}", u8::from(ee))
            }
        }
    }
}

/// As a feature of the scripts.
pub fn reaped(what: Reaped) -> Feature {
    F::Harvested(Harvested::Reaped(what))
}

/// What the last call of a list meets, a harvest, by the session before it.
pub fn of(history: &History, session: &Session, asked: &Harvest, number: u8) -> Vec<Feature> {
    let mut met = vec![F::Harvested(Harvested::Reply(number))];
    let Some((event, earlier)) = history.events().split_last() else {
        return met;
    };
    let regime = session.regime;
    if let Some(regime) = regime {
        met.push(F::Ordered(regime.ee, Ordered::Harvest(number)));
        met.push(F::Granular(regime.granule, Granular::Harvest(number)));
    }
    match (regime, number) {
        (Some(regime), 0) => {
            let memory = &history.found(event)[..event.lent];
            let pages: Vec<Page> = survey(memory, &regime, asked).collect();
            let past = history.before(earlier.len());
            met.extend(of_pages(&regime, session, &pages));
            met.extend(of_past(&past, earlier, session, asked));
            met.extend(owed(&past, earlier, &regime, asked));
        }
        _ => {
            let rows = all_of_session_harvest(event.lent, regime.as_ref(), asked);
            let row = |other| F::Harvested(Harvested::Row(number, other));
            met.extend(rows.skip(1).map(row));
        }
    }
    met
}

/// What its pages come to; each sort once.
fn of_pages(regime: &Regime, session: &Session, pages: &[Page]) -> BTreeSet<Feature> {
    let (granule, pool) = (regime.granule, &regime.pool);
    let mut met = BTreeSet::new();
    let held = |leaf: u64| {
        let same = |held: &Held| held.leaf.descriptor == leaf && !bit(leaf, AP2);
        session.places.iter().flatten().any(same)
    };
    for page in pages {
        let last = page.visited().last().copied().unwrap_or(0);
        if limits::is_behind(pool, last) {
            met.insert(F::Limit(Asked::Harvest, Limit::BehindPool));
        }
        let Some(reached) = page.dirty() else {
            continue;
        };
        if reached.fit != Fit::Whole {
            met.insert(reaped(Reaped::SticksOut));
            continue;
        }
        met.insert(reaped(Reaped::Cleaned));
        met.insert(F::Ordered(regime.ee, Ordered::Cleaned));
        met.insert(F::Granular(granule, Granular::Cleaned(reached.leaf.level)));
        if held(reached.leaf.descriptor) {
            met.insert(reaped(Reaped::HeldDirty));
        }
        if limits::is_last(pool, last) {
            met.insert(F::Limit(Asked::Harvest, Limit::LastOfPool));
        }
    }
    if pages.iter().all(|page| page.dirty().is_none()) {
        met.insert(reaped(Reaped::Nothing));
    }
    met
}

/// What came before it.
fn of_past(past: &Past, earlier: &[Event], session: &Session, asked: &Harvest) -> Vec<Feature> {
    let mut met = Vec::new();
    if asked.count == MOST_PAGES {
        met.push(Reaped::MostPages);
    }
    if session.places.iter().all(Option::is_none) {
        met.push(Reaped::NoneHeld);
    }
    let since = past.last_emptying().unwrap_or(0);
    if earlier[since..].iter().any(Event::is_accepted_store) {
        met.push(Reaped::AfterStore);
    }
    met.into_iter().map(reaped).collect()
}

/// The pages that it must report.
fn owed(past: &Past, earlier: &[Event], regime: &Regime, asked: &Harvest) -> Vec<Feature> {
    let wrote = past.owed(asked).into_iter().filter_map(|(_, at)| {
        let Reply::Answered(answer) = earlier[at].reply else {
            return None;
        };
        Some(match (answer.reads, answer.dirtied) {
            (0, _) => Wrote::Held,
            (_, 0) => Wrote::Walked,
            _ => Wrote::Marked,
        })
    });
    wrote
        .map(|how| F::Harvested(Harvested::Owed(regime.granule, regime.ee, how)))
        .collect()
}

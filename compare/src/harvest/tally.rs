//! What the harvests met. Everything that can occur must be met, and nothing
//! else may be.

pub use super::features::Round;
use super::features::{
    Again, Bad, Edge, Feature, Feature as F, Lack, NoTable, Room, Shared, COUNTS,
};
use super::{pages_of, Fit, Harvest, Page, Reached, MOST_PAGES};
use crate::counts::{report_families, Counts};
use crate::limits::{self, Limit, Octave};
use crate::reference::{bit, Regime, AF, AP2, DBM, TAKING};
use crate::refusals::all_of_harvest;
use std::collections::{BTreeMap, BTreeSet, HashMap, HashSet};

#[derive(Default)]
pub struct Tally {
    met: Counts<Feature>,
    families: BTreeMap<&'static str, u64>,
    pages: u64,
    /// Whether the last first round reported a page.
    reported: bool,
}

/// A harvest that was accepted.
struct Accepted<'a> {
    regime: &'a Regime,
    asked: &'a Harvest,
    /// What each page comes to, over the pool at entry.
    pages: &'a [Page],
}

impl Accepted<'_> {
    /// The leaves that are set again.
    fn cleaned(&self) -> impl Iterator<Item = (&Page, Reached)> {
        let dirty = |page: &Page| page.dirty().filter(|reached| reached.fit == Fit::Whole);
        let pages = self.pages.iter();
        pages.filter_map(move |page| dirty(page).map(|reached| (page, reached)))
    }

    fn range(&self) -> usize {
        let first = u128::from(self.asked.first);
        usize::from(!pages_of(self.regime, 0).contains(&first))
    }
}

impl Tally {
    fn meet(&mut self, feature: Feature) {
        self.met.meet(feature);
    }

    pub fn begin(&mut self, family: &'static str) {
        *self.families.entry(family).or_default() += 1;
    }

    /// How many harvests there were.
    pub fn harvests(&self) -> u64 {
        self.families.values().sum()
    }

    /// How many pages those that were accepted asked for.
    pub fn pages(&self) -> u64 {
        self.pages
    }

    pub fn report(&self) -> bool {
        report_families("harvests", &self.families);
        self.met.report()
    }

    pub fn missing(&self) -> Vec<Feature> {
        self.met.missing()
    }

    pub fn strangers(&self) -> Vec<Feature> {
        self.met.strangers()
    }

    /// A harvest that was held, and what its pages come to where it was
    /// accepted.
    pub fn note(
        &mut self,
        round: Round,
        length: usize,
        regime: &Regime,
        asked: &Harvest,
        number: u8,
        pages: &[Page],
    ) {
        self.meet(F::Reply(regime.granule, number));
        if number != 0 {
            return self.note_refusal(length, regime, asked, number);
        }
        self.pages += asked.count;
        limits::kept(length, &regime.pool).for_each(|limit| self.meet(F::Limit(limit)));
        let accepted = Accepted {
            regime,
            asked,
            pages,
        };
        self.note_map(asked);
        self.note_pages(&accepted);
        self.note_cleaned(&accepted);
        self.note_shared(&accepted);
        self.note_edges(&accepted);
        self.note_round(round, &accepted);
    }

    fn note_refusal(&mut self, length: usize, regime: &Regime, asked: &Harvest, number: u8) {
        let rows: Vec<u8> = all_of_harvest(length, regime, asked).collect();
        for &other in rows.iter().skip(1) {
            self.meet(F::FirstRow(number, other));
        }
        match number {
            1 => {
                let passed = limits::passed(length, regime);
                passed.map(F::Limit).into_iter().for_each(|f| self.meet(f));
            }
            10 => {
                let bad = why_10(regime, asked);
                bad.into_iter()
                    .for_each(|bad| self.meet(F::Bad(regime.granule, bad)));
            }
            11 => self.note_short(asked),
            _ => {}
        }
    }

    fn note_short(&mut self, asked: &Harvest) {
        if asked.room == 0 {
            self.meet(F::Room(Room::None));
        }
        if asked.room as u64 + 1 == asked.bytes() {
            self.meet(F::Room(Room::OneShort));
            if asked.count == MOST_PAGES {
                self.meet(F::Room(Room::OneShortOfMost));
            }
        }
    }

    /// The map of a harvest that was accepted.
    fn note_map(&mut self, asked: &Harvest) {
        let bytes = asked.bytes() as usize;
        self.meet(F::Room(match asked.room > bytes {
            true => Room::More,
            false => Room::Exact,
        }));
        if COUNTS.contains(&asked.count) {
            self.meet(F::Count(asked.count));
        }
        let pages = (asked.count % 8) as u8;
        if pages > 0 && asked.map()[bytes - 1] >> pages != 0 {
            self.meet(F::SpareBits(pages));
        }
    }

    /// What pages come to; each sort once for a harvest.
    fn note_pages(&mut self, accepted: &Accepted) {
        let regime = accepted.regime;
        let met: BTreeSet<Feature> = accepted
            .pages
            .iter()
            .filter_map(|page| of_page(regime, accepted.range(), page))
            .collect();
        met.into_iter().for_each(|feature| self.meet(feature));
        let behind = |page: &Page| {
            let last = page.visited().last();
            last.is_some_and(|&entry| limits::is_behind(&regime.pool, entry))
        };
        if accepted.pages.iter().any(behind) {
            self.meet(F::Limit(Limit::BehindPool));
        }
        let mut dirty = accepted.pages.iter().filter_map(Page::dirty);
        if dirty.next().is_some() {
            let range = accepted.range();
            self.meet(F::Told(regime.granule, range, regime.ranges[range].t));
        }
    }

    /// The leaves that are set again.
    fn note_cleaned(&mut self, accepted: &Accepted) {
        let regime = accepted.regime;
        let mut met = BTreeSet::new();
        for (page, reached) in accepted.cleaned() {
            met.insert(F::Updates(regime.ha, regime.hd));
            met.insert(F::Cleaned(Octave::of(reached.offset - regime.pool.start)));
            let last = page.visited().last();
            if last.is_some_and(|&entry| limits::is_last(&regime.pool, entry)) {
                met.insert(F::Limit(Limit::LastOfPool));
            }
            let taken = TAKING.into_iter().filter(|&at| bit(reached.leaf.taken, at));
            met.extend(taken.map(F::TableBit));
        }
        met.into_iter().for_each(|feature| self.meet(feature));
    }

    /// Descriptors that are reached in two ways.
    fn note_shared(&mut self, accepted: &Accepted) {
        let granule = accepted.regime.granule;
        let tables = tables(accepted.pages);
        let mut met = BTreeSet::new();
        let mut seen: HashMap<u64, (usize, bool, bool)> = HashMap::new();
        let pages = accepted.pages.iter();
        for (page, reached) in pages.filter_map(|page| Some((page, page.dirty()?))) {
            let Some((entry, above)) = page.visited().split_last() else {
                continue;
            };
            let (times, whole, out) = seen.entry(*entry).or_default();
            *times += usize::from(reached.fit == Fit::Whole && reached.leaf.level == 3);
            *whole |= reached.fit == Fit::Whole;
            *out |= reached.fit != Fit::Whole;
            if *times > 1 {
                met.insert(Shared::TwoPages);
            }
            if *whole && *out {
                met.insert(Shared::WholeAndOut);
            }
            if *whole && tables.contains(entry) {
                met.insert(Shared::TableToo);
            }
            if *whole && above.contains(entry) {
                met.insert(Shared::OwnTable);
            }
        }
        met.into_iter()
            .for_each(|how| self.meet(F::Shared(granule, how)));
    }

    /// The ends of the range.
    fn note_edges(&mut self, accepted: &Accepted) {
        let (regime, asked, range) = (accepted.regime, accepted.asked, accepted.range());
        let own = pages_of(regime, range);
        let is_dirty = |page: Option<&Page>| page.is_some_and(|page| page.dirty().is_some());
        let first = u128::from(asked.first) == own.start;
        let last = u128::from(asked.first) + u128::from(asked.count) == own.end;
        let pages = accepted.pages;
        for (edge, met) in [
            (Edge::First, first && is_dirty(pages.first())),
            (Edge::Last, last && is_dirty(pages.last())),
            (
                Edge::Whole,
                first && last && pages.iter().any(|page| is_dirty(Some(page))),
            ),
        ] {
            if met {
                self.meet(F::Edge(regime.granule, range, edge));
            }
        }
    }

    /// What a second harvest finds behind a first that reported something.
    fn note_round(&mut self, round: Round, accepted: &Accepted) {
        let dirty = accepted.pages.iter().filter_map(Page::dirty);
        let count = dirty.count();
        let before = std::mem::replace(&mut self.reported, count > 0);
        if round == Round::First || !before {
            return;
        }
        self.meet(F::Again(
            accepted.regime.granule,
            match count {
                0 => Again::Nothing,
                _ => Again::SticksOut,
            },
        ));
    }

    /// A harvest that was made in the other byte order too.
    pub fn note_turned(&mut self, turned: bool, regime: &Regime, pages: &[Page]) {
        let whole = |page: &Page| page.dirty().is_some_and(|dirty| dirty.fit == Fit::Whole);
        if turned && pages.iter().any(whole) {
            self.meet(F::Turned(regime.granule, regime.ee));
        }
    }
}

/// The addresses of all table descriptors on the way to pages.
fn tables(pages: &[Page]) -> HashSet<u64> {
    let mut tables = HashSet::new();
    let mut last: &[u64] = &[];
    for page in pages {
        let above = page.visited().split_last().map_or(&[][..], |way| way.1);
        // Most pages have the way of the one before.
        if above != last {
            tables.extend(above);
            last = above;
        }
    }
    tables
}

/// What a page comes to.
fn of_page(regime: &Regime, range: usize, page: &Page) -> Option<Feature> {
    let granule = regime.granule;
    match page.found {
        Ok(reached) if reached.is_dirty() => {
            let level = reached.leaf.level;
            Some(F::Fit(granule, regime.ee, level, reached.fit))
        }
        Ok(reached) => {
            let level = reached.leaf.level;
            lack(reached.leaf.descriptor).map(|lack| F::Lack(granule, level, lack))
        }
        Err(_) if page.visited().is_empty() => {
            let disabled = regime.ranges[range].disabled;
            let why = match disabled {
                true => NoTable::Disabled,
                false => NoTable::RootBeyond,
            };
            Some(F::NoTable(granule, why))
        }
        Err(stop) => Some(F::Stop(granule, stop.kind, stop.level)),
    }
}

/// What alone a leaf lacks.
fn lack(descriptor: u64) -> Option<Lack> {
    let has = [AF, DBM].map(|place| bit(descriptor, place));
    match (has, bit(descriptor, AP2)) {
        ([false, true], false) => Some(Lack::AfClear),
        ([true, false], false) => Some(Lack::DbmClear),
        ([true, true], true) => Some(Lack::Ap2Set),
        _ => None,
    }
}

/// Why row 10 applies, where one reason alone does.
fn why_10(regime: &Regime, asked: &Harvest) -> Option<Bad> {
    let first = u128::from(asked.first);
    let own = (0..2).find(|&range| pages_of(regime, range).contains(&first));
    let good = (1..=MOST_PAGES).contains(&asked.count);
    let numbers = pages_of(regime, 1).end;
    let (behind, before) = (pages_of(regime, 0).end, pages_of(regime, 1).start - 1);
    match (own, good) {
        (Some(range), true) => {
            let past = first + u128::from(asked.count) - pages_of(regime, range).end;
            Some(match past {
                1 => Bad::OnePast(range),
                _ => Bad::Past(range),
            })
        }
        (Some(_), false) => Some(match asked.count {
            0 => Bad::NoPage,
            count if count == MOST_PAGES + 1 => Bad::OneTooMany,
            _ => Bad::TooMany,
        }),
        (None, true) if first >= numbers => Some(Bad::NoNumber),
        (None, true) if first == behind => Some(Bad::Beside(0)),
        (None, true) if first == before => Some(Bad::Beside(1)),
        (None, true) => Some(Bad::Between),
        (None, false) => None,
    }
}

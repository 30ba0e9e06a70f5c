//! What the scripts met. Everything that can occur must be met, and nothing
//! else may be.

use super::features::{
    Asked, Before, Effect, Emptying, Feature, Feature as F, Foreign, Odd, Off, Since, Sum, Switch,
    Target,
};
use super::harvests::Reaped;
use super::play::Bytes;
use super::{granules, harvests, orders, Step};
use crate::boundary::{
    plain_answer, CAnswer, CEntry, CRegime, CSession, Reply, FAULT, REFUSED, SUCCESS, SUM_BITS,
};
use crate::counts::{report_families, Counts};
use crate::decisions::{decided, succeeds};
use crate::geometry::{Granule, PHYSICAL_LIMIT};
use crate::granules::Field;
use crate::harvest::Harvest;
use crate::limits::{self, Limit, Octave};
use crate::reference::{
    bit, look, offset_in_memory, read_descriptor, writable_clean, Access, Answer, FaultKind, Kind,
    Leaf, Regime, Walk, AF, AP2, AP_TABLE_1, MEMORY_LIMIT, PXN_TABLE, TAKING,
};
use crate::refusals::{all_of_session_harvest, all_of_set_regime, finds_no_table, row_1};
use crate::rule3::{Checked, Class, Event, History};
use crate::session::{first_of, page_of, place_of, Call, Held, Session, Way};
use crate::tally::End;
use std::collections::{BTreeMap, BTreeSet};

#[derive(Default)]
pub struct Tally {
    met: Counts<Feature>,
    families: BTreeMap<&'static str, u64>,
    calls: u64,
}

impl Tally {
    fn meet(&mut self, feature: Feature) {
        self.met.meet(feature);
    }

    pub fn begin(&mut self, family: &'static str) {
        *self.families.entry(family).or_default() += 1;
    }

    /// How many scripts were begun.
    pub fn scripts(&self) -> u64 {
        self.families.values().sum()
    }

    /// How many calls they made.
    pub fn calls(&self) -> u64 {
        self.calls
    }

    /// Counts the last call of a list: the library's reply, and what the
    /// reference held before it and how it came to its answer.
    pub fn note(
        &mut self,
        history: &History,
        session: &Session,
        seen: Option<&(Answer, Way)>,
        checked: &Checked,
    ) {
        let Some(event) = history.events().last() else {
            return;
        };
        self.calls += 1;
        self.note_lengths(event, session);
        self.note_order(history, seen);
        if !event.is_accepted() {
            self.meet(F::Sum(Sum::RefusedCall));
        }
        if session.places.iter().flatten().count() > 24 {
            self.meet(F::Odd(Odd::ManyHeld));
        }
        self.note_call(history, event, session, seen, checked);
    }

    /// What the call is, and what came of it.
    fn note_call(
        &mut self,
        history: &History,
        event: &Event,
        session: &Session,
        seen: Option<&(Answer, Way)>,
        checked: &Checked,
    ) {
        match (event.call, event.reply) {
            (Call::SetRegime(regime), Reply::Changed(number)) => {
                self.meet(F::SetRegime(session.regime.is_some(), number));
                match number {
                    0 => self.note_switch(history, &regime, session),
                    _ => self.note_rows(event.lent, &regime, number),
                }
            }
            (Call::Store { address, value }, Reply::Changed(number)) => {
                self.meet(F::Store(number));
                let memory = &history.found(event)[..event.lent];
                match (session.regime, number) {
                    (Some(regime), 0) => self.note_store(&regime, session, memory, address, value),
                    (Some(regime), 8) => self.note_off(&regime, address),
                    _ => {}
                }
            }
            (Call::Harvest(asked), Reply::Changed(number)) => {
                let met = harvests::of(history, session, &asked, number);
                met.into_iter().for_each(|feature| self.meet(feature));
            }
            (Call::DropAll, _) => {
                let held = session.places.iter().any(Option::is_some);
                self.meet(F::DropAll(session.regime.is_some(), held));
            }
            (Call::Access(access), Reply::Answered(answer)) => {
                self.meet(F::FirstHalf(checked.first_half));
                self.meet(checked.class.map_or(F::Odd(Odd::Unsaid), F::InScript));
                if let Some((wanted, way)) = seen {
                    self.note_access(history, session, &access, &answer, wanted, way);
                    self.note_mark(session, &answer, way);
                }
            }
            _ => {}
        }
    }

    /// How the granule of an accepted regime was spelled.
    pub fn note_spelling(&mut self, step: &Step, reply: &Reply) {
        if let (Call::SetRegime(regime), Reply::Changed(0)) = (step.call, reply) {
            if step.spelling.regime(&regime).granule > 2 {
                self.meet(F::Odd(Odd::GranuleByte));
            }
        }
    }

    /// What the last call meets with EE or without, and under its granule.
    fn note_order(&mut self, history: &History, seen: Option<&(Answer, Way)>) {
        if let Some((ee, met)) = orders::of(history, seen) {
            for what in met {
                self.meet(F::Ordered(ee, what));
            }
        }
        if let Some((granule, met)) = granules::of(history, seen) {
            for what in met {
                self.meet(F::Granular(granule, what));
            }
        }
    }

    /// The limits that a call is at, or the one that it is refused for.
    fn note_lengths(&mut self, event: &Event, session: &Session) {
        let (asked, regime, refusal) = match (event.call, event.reply) {
            (Call::SetRegime(regime), Reply::Changed(number)) => {
                (Asked::SetRegime, Some(regime), number)
            }
            (Call::Store { .. }, Reply::Changed(number)) => (Asked::Store, session.regime, number),
            (Call::Harvest(_), Reply::Changed(number)) => (Asked::Harvest, session.regime, number),
            (Call::Access(_), Reply::Answered(answer)) => {
                (Asked::Access, session.regime, answer.refusal)
            }
            _ => return,
        };
        let Some(regime) = regime else {
            return;
        };
        let at: Vec<Limit> = match refusal {
            0 => limits::kept(event.lent, &regime.pool).collect(),
            1 => limits::passed(event.lent, &regime).into_iter().collect(),
            _ => Vec::new(),
        };
        for limit in at {
            self.meet(F::Limit(asked, limit));
        }
    }

    /// A walk in a session: where it marks a leaf, or aborts.
    fn note_mark(&mut self, session: &Session, answer: &CAnswer, way: &Way) {
        let (Way::Walked(walk) | Way::WalkedAgain(walk)) = way else {
            return;
        };
        let (Some(regime), Some(&entry)) = (session.regime, walk.visited.last()) else {
            return;
        };
        let pool = &regime.pool;
        let aborted =
            matches!(walk.answer, Answer::Fault(fault) if fault.stop.kind == FaultKind::WalkAbort);
        if aborted && limits::is_behind(pool, entry) {
            self.meet(F::Limit(Asked::Access, Limit::BehindPool));
        }
        if answer.accessed != 0 || answer.dirtied != 0 {
            let offset = (entry - pool.address) as usize;
            self.meet(F::Marked(Octave::of(offset)));
            if limits::is_last(pool, entry) {
                self.meet(F::Limit(Asked::Access, Limit::LastOfPool));
            }
        }
    }

    fn note_switch(&mut self, history: &History, regime: &Regime, session: &Session) {
        let events = history.events();
        let earlier = &events[..events.len() - 1];
        let stood = |event: &Event| event.is_accepted() && event.call == Call::SetRegime(*regime);
        let switch = match session.regime {
            None => Switch::First,
            Some(last) if last == *regime => Switch::SameAgain,
            Some(_) if earlier.iter().any(stood) => Switch::Back,
            Some(_) => Switch::Other,
        };
        self.meet(F::Switch(switch));
    }

    /// A refused set regime: which other rows apply?
    fn note_rows(&mut self, lent: usize, regime: &Regime, number: u8) {
        for other in all_of_set_regime(lent, regime).skip(1) {
            self.meet(F::FirstRow(number, other));
        }
    }

    /// An accepted store: is the descriptor on the way to a held page?
    fn note_store(
        &mut self,
        regime: &Regime,
        session: &Session,
        memory: &[u8],
        address: u64,
        value: u64,
    ) {
        let offset = (address - regime.pool.address) as usize;
        self.meet(F::Stored(Octave::of(offset)));
        if limits::is_last(&regime.pool, address) {
            self.meet(F::Limit(Asked::Store, Limit::LastOfPool));
        }
        let mut leaf_of = 0;
        let mut table_of = 0;
        for held in session.places.iter().flatten() {
            let visited = look(memory, regime, &read_of(regime.granule, held.page)).visited;
            if visited.last() == Some(&address) {
                leaf_of += 1;
            } else if visited.contains(&address) {
                table_of += 1;
            }
        }
        match (leaf_of, table_of) {
            (0, 0) => self.meet(F::Into(Target::Elsewhere)),
            (0, _) => self.meet(F::Into(Target::HeldTable)),
            (1, _) => self.meet(F::Into(Target::HeldLeaf)),
            _ => self.meet(F::Into(Target::SharedLeaf)),
        }
        if address + 8 == regime.pool.address + regime.pool.length as u64 {
            self.meet(F::Into(Target::LastOfPool));
        }
        let offset = offset_in_memory(&regime.pool, address);
        if let (true, Some(offset)) = (leaf_of > 0, offset) {
            self.note_effect(read_descriptor(memory, offset, regime.ee), value);
        }
    }

    /// A store into the leaf of a held page: what it changes.
    fn note_effect(&mut self, old: u64, value: u64) {
        match (bit(old, AF), bit(value, AF)) {
            (false, true) => self.meet(F::Effect(Effect::SetsAf)),
            (true, false) => self.meet(F::Effect(Effect::ClearsAf)),
            _ => {}
        }
        match (bit(old, AP2), bit(value, AP2)) {
            (false, true) => self.meet(F::Effect(Effect::SetsAp2)),
            (true, false) => self.meet(F::Effect(Effect::ClearsAp2)),
            _ => {}
        }
        if bit(old, 0) && !bit(value, 0) {
            self.meet(F::Effect(Effect::MakesInvalid));
        }
    }

    /// A store refused with 8.
    fn note_off(&mut self, regime: &Regime, address: u64) {
        let pool = &regime.pool;
        let lower = address & (PHYSICAL_LIMIT - 1);
        let off = if address & 7 != 0 {
            Off::Misaligned
        } else if address.checked_add(8) == Some(pool.address) {
            Off::JustBefore
        } else if address == pool.address + pool.length as u64 {
            Off::JustBehind
        } else if offset_in_memory(pool, lower).is_some() {
            Off::UpperBits
        } else {
            Off::Elsewhere
        };
        self.meet(F::Off(off));
        if limits::is_behind(pool, address) {
            self.meet(F::Limit(Asked::Store, Limit::BehindPool));
        }
    }

    fn note_access(
        &mut self,
        history: &History,
        session: &Session,
        access: &Access,
        answer: &CAnswer,
        wanted: &Answer,
        way: &Way,
    ) {
        let granule = session
            .regime
            .map_or(Granule::Kib4, |regime| regime.granule);
        let page = page_of(granule, access.address);
        let place = session.places[place_of(page)];
        let held = place.filter(|held| held.page == page);
        let end = match wanted {
            Answer::Refused(_) => {
                self.meet(F::Refused(answer.refusal));
                let lent = history.events().last().map_or(0, |event| event.lent);
                if answer.refusal == 9 && lent > MEMORY_LIMIT {
                    self.meet(F::Odd(Odd::NineBeforeOne));
                }
                if held.is_some() {
                    self.meet(F::RefusedHeld(answer.refusal));
                }
                return;
            }
            Answer::Success(_) => End::Success,
            Answer::Fault(fault) => End::Fault(fault.stop.kind),
        };
        self.meet(F::Ended(end));
        let remembered = answer.cacheable != 0;
        let before = match (place, held) {
            (None, _) => Before::Nothing,
            (Some(_), None) => Before::OtherPage,
            (Some(_), Some(_)) => Before::SamePage,
        };
        if !matches!(way, Way::Held) {
            self.meet(F::Walked(before, end, remembered));
            self.meet(F::Sum(match (remembered, before) {
                (false, _) => Sum::NotRemembered,
                (true, Before::OtherPage) => Sum::Eviction,
                (true, _) => Sum::Fill,
            }));
        }
        match way {
            Way::Refused => {}
            Way::Held => {
                self.meet(F::Sum(match end {
                    End::Success => Sum::HitSuccess,
                    End::Fault(_) => Sum::HitFault,
                }));
                self.meet(F::Hit(end, access.el0, access.kind));
                self.note_hit(history, session, access, answer);
            }
            Way::Walked(walk) => self.note_emptied(history, access, walk),
            Way::WalkedAgain(walk) => {
                let dirtied = answer.dirtied != 0;
                self.meet(F::Sum(Sum::Rewalk));
                self.meet(F::Rewalk(access.kind, end, dirtied));
                self.note_rewalk(history, walk, dirtied);
                self.note_rewalk_sum(session, access, walk);
            }
        }
    }

    /// What came since the walk, and what a walk would say now.
    fn note_hit(
        &mut self,
        history: &History,
        session: &Session,
        access: &Access,
        answer: &CAnswer,
    ) {
        let events = history.events();
        let at = events.len() - 1;
        let Some(walked) = history.before(at).last_walk_at(access.address) else {
            return;
        };
        let Some(regime) = session.regime else { return };
        let page = page_of(regime.granule, access.address);
        let mut since = BTreeSet::new();
        for event in &events[walked + 1..at] {
            match (event.call, event.is_accepted()) {
                (Call::Store { .. }, true) => since.insert(Since::Store),
                (Call::Store { .. }, false) => since.insert(Since::RefusedStore),
                (Call::SetRegime(_), _) => since.insert(Since::RefusedRegime),
                (Call::Harvest(_), _) => since.insert(Since::RefusedHarvest),
                (Call::Access(_), false) => since.insert(Since::RefusedAccess),
                (Call::Access(other), true) if event.rememberable().is_none() => {
                    let passed = page_of(regime.granule, other.address);
                    let there = place_of(passed) == place_of(page);
                    if there && passed == page {
                        since.insert(Since::FailedRewalk);
                    } else if there {
                        since.insert(Since::PasserBy);
                    }
                    there
                }
                _ => false,
            };
        }
        for what in since {
            self.meet(F::HitSince(what));
        }
        if let Call::Access(first) = events[walked].call {
            if first.address != access.address {
                self.meet(F::Odd(Odd::OtherAddress));
            }
        }
        if events[walked].lent != events[at].lent {
            self.meet(F::Odd(Odd::OtherLength));
        }

        let held = session.places[place_of(page)];
        let clean = held.is_some_and(|held| writable_clean(&regime, &held.leaf));
        if clean && access.kind.changes_data() && answer.tag == FAULT {
            self.meet(F::Odd(Odd::CleanFault));
        }
        if clean && access.kind == Kind::ProbeWrite && answer.tag == SUCCESS {
            self.meet(F::Odd(Odd::CleanProbe));
        }
        let event = &events[at];
        let memory = &history.found(event)[..event.lent];
        let walk = look(memory, &regime, access);
        if let Some(held) = held {
            self.note_held_sum(session, &regime, access, &held.leaf, &walk);
            self.note_hpd(&regime, access, &held, memory);
        }
        let now = plain_answer(&walk.answer);
        if (CAnswer { reads: 0, ..now }) != *answer {
            let end = match walk.answer {
                Answer::Fault(fault) => End::Fault(fault.stop.kind),
                _ => End::Success,
            };
            self.meet(F::Stale(end));
        }
        let different: BTreeSet<u64> = walk.visited.iter().copied().collect();
        if different.len() < walk.visited.len() {
            self.meet(F::Odd(Odd::ReadTwice));
        }
    }

    /// A hit: what the held sum decides, and whether a walk would meet it.
    fn note_held_sum(
        &mut self,
        session: &Session,
        regime: &Regime,
        access: &Access,
        leaf: &Leaf,
        walk: &Walk,
    ) {
        for decision in decided(regime, access, leaf) {
            self.meet(F::HitDecided(decision));
        }
        if let Some((now, _)) = walk.leaf {
            for place in TAKING {
                let held = bit(leaf.taken, place);
                if held != bit(now.taken, place) {
                    self.meet(F::StaleSum(place, held));
                }
            }
        }
        let other_sum = |other: &Held| {
            other.leaf.descriptor == leaf.descriptor && other.leaf.taken != leaf.taken
        };
        if session.places.iter().flatten().any(other_sum) {
            self.meet(F::Odd(Odd::TwoSums));
        }
        let own = Leaf { taken: 0, ..*leaf };
        let taken = bit(leaf.taken, AP_TABLE_1) && writable_clean(regime, &own);
        if taken && access.kind.changes_data() {
            self.meet(F::Odd(Odd::CleanTaken));
        }
    }

    /// A hit with HPD on: would the bits of the tables decide?
    fn note_hpd(&mut self, regime: &Regime, access: &Access, held: &Held, memory: &[u8]) {
        let range = usize::from(bit(access.address, 55));
        if !regime.ranges[range].hpd {
            return;
        }
        let mut counting = *regime;
        counting.ranges[range].hpd = false;
        if let Some((now, _)) = look(memory, &counting, access).leaf {
            let ends = |taken| succeeds(regime, access, &held.leaf, taken);
            if ends(now.taken) != ends(held.leaf.taken) {
                self.meet(F::Odd(Odd::HpdOn));
            }
        }
    }

    /// A leaf that another page's write made dirty, and no store.
    fn note_rewalk(&mut self, history: &History, walk: &Walk, dirtied: bool) {
        let past = history.before(history.events().len() - 1);
        let start = past.last_emptying().unwrap_or(0);
        let stores = history.events()[start..].iter();
        if !dirtied
            && matches!(walk.answer, Answer::Success(_))
            && !stores.clone().any(Event::is_accepted_store)
        {
            self.meet(F::Odd(Odd::DirtiedElsewhere));
        }
    }

    /// A re-walk: the held sum left the writing, does the new one?
    fn note_rewalk_sum(&mut self, session: &Session, access: &Access, walk: &Walk) {
        if let (Some(regime), Some((leaf, _))) = (session.regime, walk.leaf) {
            if decided(&regime, access, &leaf).any(|by| by.bit == AP_TABLE_1) {
                self.meet(F::Odd(Odd::RewalkTaken));
            }
        }
    }

    /// A walk of a page that was held until the last emptying.
    fn note_emptied(&mut self, history: &History, access: &Access, walk: &Walk) {
        let at = history.events().len() - 1;
        let Some(emptying) = history.before(at).last_emptying() else {
            return;
        };
        let past = history.before(emptying);
        if past.remembers(access.address) {
            let by = match history.events()[emptying].call {
                Call::SetRegime(regime) if past.regime() == Some(regime) => Emptying::SameRegime,
                Call::SetRegime(_) => Emptying::OtherRegime,
                Call::Harvest(_) => Emptying::Harvest,
                _ => Emptying::DropAll,
            };
            self.meet(F::Emptied(by));
            let marked = matches!(walk.answer, Answer::Success(success) if success.dirtied);
            if by == Emptying::Harvest && marked {
                self.meet(harvests::reaped(Reaped::MarkedAgain));
            }
            if let (Some(was), Some((now, _))) = (held_sum(history, emptying, access), walk.leaf) {
                if was != now.taken {
                    self.meet(F::OtherSum(by));
                }
            }
        }
    }

    /// Counts a call on a session that began as any bytes, by what it said
    /// before the call.
    pub fn note_foreign(
        &mut self,
        bytes: &CSession,
        session: &Session,
        lent: usize,
        call: &Call,
        reply: &Reply,
        seen: Option<&(Answer, Way)>,
    ) {
        self.calls += 1;
        let Some(regime) = session.regime else { return };
        let way = seen.map(|(_, way)| way);
        self.note_foreign_order(&bytes.regime, &regime, call, reply, way);
        self.note_foreign_granule(&bytes.regime, &regime, lent, reply, way);
        let (Call::Access(access), Some((answer, way))) = (call, seen) else {
            return;
        };
        let page = page_of(regime.granule, access.address);
        let entry = &bytes.entries[place_of(page)];
        let rows = all_of_set_regime(0, &regime).filter(|&row| row != 1);
        match (way, session.places[place_of(page)]) {
            (Way::Refused, _) => {}
            (Way::Held, Some(held)) => {
                rows.for_each(|row| self.meet(F::Foreign(Foreign::Hit(row))));
                // An entry that no call has filled.
                if entry.read() == Some(held) {
                    self.note_foreign_hit(&regime, access, entry, &held.leaf, answer);
                }
            }
            _ => {
                rows.for_each(|row| self.meet(F::Foreign(Foreign::Walked(row))));
                if entry.page == page && entry.held != 0 && entry.left > 3 {
                    self.meet(F::Foreign(Foreign::NoLevel));
                }
            }
        }
    }

    /// A harvest on such a session, and whether it cleaned a leaf.
    pub fn note_foreign_harvest(
        &mut self,
        bytes: &CRegime,
        session: &Session,
        lent: usize,
        asked: &Harvest,
        cleaned: bool,
    ) {
        let mut rows = all_of_session_harvest(lent, session.regime.as_ref(), asked);
        let number = rows.next().unwrap_or(0);
        self.meet(F::Foreign(Foreign::Harvest(number)));
        rows.for_each(|other| self.meet(F::Foreign(Foreign::HarvestRow(number, other))));
        if number == 0 && session.places.iter().any(Option::is_some) {
            self.meet(F::Foreign(Foreign::HarvestEmpties));
        }
        // Until a regime is set.
        if cleaned && bytes.ee > 1 && session.regime == Some(bytes.read()) {
            self.meet(F::Foreign(Foreign::OddEeCleaned));
        }
    }

    /// The byte order of such a session, and how its bytes spell it.
    fn note_foreign_order(
        &mut self,
        bytes: &CRegime,
        regime: &Regime,
        call: &Call,
        reply: &Reply,
        way: Option<&Way>,
    ) {
        let stored = matches!((call, reply), (Call::Store { .. }, Reply::Changed(0)));
        let (with, odd) = match way {
            None if stored => (Foreign::StoredWith(regime.ee), Foreign::OddEeStored),
            Some(Way::Held) => return self.meet(F::Foreign(Foreign::HitWith(regime.ee))),
            Some(Way::Walked(walk) | Way::WalkedAgain(walk)) if walk.leaf.is_some() => {
                (Foreign::WalkedWith(regime.ee), Foreign::OddEeWalked)
            }
            _ => return,
        };
        self.meet(F::Foreign(with));
        // Until a regime is set.
        if bytes.ee > 1 && bytes.read() == *regime {
            self.meet(F::Foreign(odd));
        }
    }

    /// The granule of such a session, and how its bytes spell it.
    fn note_foreign_granule(
        &mut self,
        bytes: &CRegime,
        regime: &Regime,
        lent: usize,
        reply: &Reply,
        way: Option<&Way>,
    ) {
        let granule = regime.granule;
        let used = match way {
            Some(Way::Held) => Foreign::HitUnder(granule),
            Some(Way::Walked(walk) | Way::WalkedAgain(walk)) if walk.leaf.is_some() => {
                Foreign::WalkedUnder(granule)
            }
            _ => return self.note_foreign_off(regime, lent, reply, way),
        };
        self.meet(F::Foreign(used));
        // Until a regime is set.
        if bytes.granule > 2 && bytes.read() == *regime {
            self.meet(F::Foreign(Foreign::GranuleByte(bytes.granule)));
        }
    }

    /// Numbers of its regime that are multiples of a smaller granule alone.
    fn note_foreign_off(&mut self, regime: &Regime, lent: usize, reply: &Reply, way: Option<&Way>) {
        let off_pool = || Field::off(regime, 1, |other| row_1(lent, other)).is_some();
        let off_root = || Field::off(regime, 4, finds_no_table).is_some();
        let granule = regime.granule;
        let met = match (reply, way) {
            (Reply::Changed(1), _) if off_pool() => Foreign::OffPool(granule, Asked::Store),
            (Reply::Answered(answer), Some(Way::Refused)) if answer.refusal == 1 && off_pool() => {
                Foreign::OffPool(granule, Asked::Access)
            }
            (_, Some(Way::Walked(_))) if off_root() => Foreign::OffRoot(granule),
            _ => return,
        };
        self.meet(F::Foreign(met));
    }

    fn note_foreign_hit(
        &mut self,
        regime: &Regime,
        access: &Access,
        entry: &CEntry,
        leaf: &Leaf,
        answer: &Answer,
    ) {
        let range = usize::from(bit(access.address, 55));
        let ends = |taken| succeeds(regime, access, leaf, taken);
        self.meet(F::Foreign(Foreign::Sum(entry.tables & SUM_BITS)));
        let idle = u64::from(entry.tables >> TAKING.len()) << PXN_TABLE;
        if ends(idle) != ends(leaf.taken) {
            self.meet(F::Foreign(Foreign::IdleBits));
        }
        if regime.ranges[range].hpd && ends(0) != ends(leaf.taken) {
            self.meet(F::Foreign(Foreign::HpdOn));
        }
        if leaf.level == 0 && matches!(answer, Answer::Success(_)) {
            self.meet(F::Foreign(Foreign::LevelZero(regime.granule)));
        }
        match answer {
            Answer::Success(success) if success.accessed => {
                self.meet(F::Foreign(Foreign::ToldAccessed));
            }
            Answer::Fault(fault) if fault.stop.kind == FaultKind::AccessFlag => {
                self.meet(F::Foreign(Foreign::AccessFlag));
            }
            _ => {}
        }
    }

    /// Counts a new access after a script.
    pub fn note_probe(&mut self, class: Class, bytes: Bytes, answer: &CAnswer) {
        if class != Class::NoRegime {
            self.meet(F::After(class, bytes));
        }
        if class == Class::OneAnswer && answer.tag != REFUSED {
            self.meet(F::OneAnswer(answer.tag));
        }
    }

    /// All counts. True if nothing is missing and nothing strange.
    pub fn report(&self) -> bool {
        report_families("scripts", &self.families);
        self.met.report()
    }

    pub fn missing(&self) -> Vec<Feature> {
        self.met.missing()
    }

    pub fn strangers(&self) -> Vec<Feature> {
        self.met.strangers()
    }
}

/// The sum with which the page of an access was held before an event.
fn held_sum(history: &History, before: usize, access: &Access) -> Option<u64> {
    let walked = history.before(before).last_walk_at(access.address)?;
    let regime = history.before(walked).regime()?;
    let event = &history.events()[walked];
    let walk = look(&history.left(event)[..event.lent], &regime, access);
    walk.leaf.map(|(leaf, _)| leaf.taken)
}

/// A read of one byte of a page.
fn read_of(granule: Granule, page: u64) -> Access {
    Access {
        address: first_of(granule, page),
        size: 1,
        el0: false,
        kind: Kind::Read,
    }
}

//! What the walks a descriptor at a time met. Everything that can occur must
//! be met, and nothing else may be.

use super::features::{Feature as F, Foreign, Outcome, Peculiar, Spelt};
pub use super::features::{Feature, Origin, Source};
use super::hold::Asked;
use super::{states, State, Stepwise};
use crate::boundary::{CAccess, CRegime, CStepwise, REFUSED, SUM_BITS};
use crate::counts::Counts;
use crate::decisions::{decided, succeeds};
use crate::geometry::{LAST_LEVEL, PHYSICAL_LIMIT};
use crate::reference::{
    bit, first_wanted, go_on, output_limit, range_at, Answer, Leaf, Next, Range, Regime, Wanted,
    MEMORY_LIMIT, PXN_TABLE, TAKING, TAKING_FIELD,
};
use crate::refusals::{all_of_stepwise, row_1};
use std::collections::BTreeSet;

#[derive(Default)]
pub struct Tally {
    met: Counts<Feature>,
    walks: u64,
    foreign: u64,
}

impl Tally {
    fn meet(&mut self, feature: Feature) {
        self.met.meet(feature);
    }

    /// How many walks were started; those under another pool count too.
    pub fn walks(&self) -> u64 {
        self.walks
    }

    /// How many walks of any bytes there were.
    pub fn foreign(&self) -> u64 {
        self.foreign
    }

    pub fn report(&self) -> bool {
        self.met.report()
    }

    pub fn missing(&self) -> Vec<Feature> {
        self.met.missing()
    }

    pub fn strangers(&self) -> Vec<Feature> {
        self.met.strangers()
    }

    /// A walk from its start to its end, as it was held.
    pub fn note(&mut self, source: Source, asked: &Asked, end: &CStepwise) {
        self.walks += 1;
        let (regime, answer) = (asked.regime, &end.answer);
        let (granule, offers) = (regime.granule, asked.fed.len());
        self.meet(F::Late(answer.tag, end.update != 0));
        self.meet(F::Offers(granule, answer.tag, offers));
        match asked.course.answer {
            Answer::Refused(number) => return self.note_refusal(asked, number),
            Answer::Fault(fault) if offers == 0 => self.meet(F::AtOnce(fault.stop.kind)),
            Answer::Fault(fault) => self.meet(F::Code(source, fault.stop.code())),
            Answer::Success(_) => {
                let first = self.first_level(asked);
                self.meet(F::Way(granule, first, answer.level));
                let access = asked.spelling.access(asked.access);
                let odd = odd_bytes(&asked.spelling.regime(regime), &access);
                odd.for_each(|what| self.meet(F::Spelt(what)));
            }
        }
        if end.update != 0 {
            let (accessed, dirtied) = (answer.accessed != 0, answer.dirtied != 0);
            self.meet(F::Update(source, asked.access.kind, accessed, dirtied));
            if source == Source::Pool {
                self.meet(F::Order(granule, regime.ee));
            }
        }
        if asked.fed.last() == Some(&None) {
            let first = self.first_level(asked);
            self.meet(F::Unreachable(granule, first, answer.level));
        }
        let below = asked.course.visited.iter().skip(1);
        if source == Source::Function && below.max() >= Some(&(PHYSICAL_LIMIT / 2)) {
            self.meet(F::High(granule));
        }
        self.note_tables(asked);
        self.note_again(asked);
    }

    fn first_level(&self, asked: &Asked) -> u8 {
        let range = range_at(asked.regime, asked.access.address);
        asked.regime.granule.first_level(range.t)
    }

    fn note_refusal(&mut self, asked: &Asked, number: u8) {
        self.meet(F::Refused(number));
        for other in all_of_stepwise(asked.regime, asked.access).skip(1) {
            self.meet(F::FirstRow(number, other));
        }
    }

    /// What the sum is on the way, and what it is not.
    fn note_tables(&mut self, asked: &Asked) {
        let states = states(asked.regime, asked.access, asked.course, asked.fed);
        let hpd = range_at(asked.regime, asked.access.address).hpd;
        for (state, read) in states.iter().skip(1).zip(asked.fed) {
            let (State::Wants { left, bits, .. }, Some(table)) = (state, read) else {
                continue;
            };
            for place in TAKING.into_iter().filter(|&place| bit(*bits, place)) {
                self.meet(F::Tables(*left, place));
            }
            if bits & !table != 0 {
                self.meet(F::Kept(*left));
            }
            if hpd && table & TAKING_FIELD != 0 {
                self.meet(F::Hpd(*left));
            }
        }
    }

    /// The same address again and again, and never the same value.
    fn note_again(&mut self, asked: &Asked) {
        let visited = &asked.course.visited;
        let alike = visited.windows(2).all(|pair| pair[0] == pair[1]);
        let values: BTreeSet<&Option<u64>> = asked.fed.iter().collect();
        if alike && visited.len() > 1 && values.len() == visited.len() {
            self.meet(F::Again(visited.len()));
        }
    }

    /// A row that looks at the memory and the pool has no say here.
    pub fn note_pool_row(&mut self, row: Option<u8>, end: &CStepwise) {
        if let Some(row) = row {
            self.meet(F::PoolRow(row, end.answer.tag != REFUSED));
        }
    }

    /// The same offers under another pool.
    pub fn note_other_pool(&mut self, regime: &Regime, end: &CStepwise) {
        self.walks += 1;
        if row_1(MEMORY_LIMIT, regime) {
            self.meet(F::OtherPool(end.answer.tag, end.update != 0));
        }
    }

    fn meet_foreign(&mut self, what: Foreign) {
        self.meet(F::Foreign(what));
    }

    /// A walk that its bytes say has ended.
    pub fn note_foreign_ended(&mut self, origin: Origin, walk: &CStepwise) {
        self.foreign += 1;
        self.meet_foreign(Foreign::From(origin, Outcome::Late));
        self.meet_foreign(Foreign::Ended(walk.ended == 1));
    }

    /// The first offer to a walk of any bytes, or a later one, and what it left.
    pub fn note_foreign(
        &mut self,
        origin: Origin,
        before: &CStepwise,
        offered: Option<u64>,
        after: &CStepwise,
        offers: usize,
    ) {
        let outcome = Outcome::of(after);
        if offers == 1 {
            self.foreign += 1;
            self.meet_foreign(Foreign::From(origin, outcome));
        }
        if outcome != Outcome::GoesOn {
            self.meet_foreign(Foreign::Offers(offers));
        }
        let Some(walk) = before.read() else {
            return;
        };
        if outcome == Outcome::Refused {
            let number = after.answer.refusal;
            self.meet_foreign(Foreign::Refused(number));
            for other in all_of_stepwise(&walk.regime, &walk.access).skip(1) {
                self.meet_foreign(Foreign::FirstRow(number, other));
            }
            return;
        }
        self.note_level(&walk, before.left);
        if let Some(leaf) = leaf_of(&walk, before.left, offered) {
            self.note_foreign_leaf(&walk, before, &leaf);
        }
        if outcome == Outcome::Fault {
            return self.meet_foreign(Foreign::Code(after.answer.code));
        }
        for what in peculiar(&walk, before, after) {
            self.meet_foreign(Foreign::Peculiar(what));
        }
        self.note_foreign_success(before, after);
    }

    /// The level that it is at, and whether it says so.
    fn note_level(&mut self, walk: &Stepwise, left: u8) {
        let granule = walk.regime.granule;
        let (level, first) = walk.level(left);
        self.meet_foreign(Foreign::At(granule, first, level));
        if left > LAST_LEVEL - first {
            self.meet_foreign(Foreign::Clamped(granule, first));
        }
    }

    /// How the numbers of a success were spelled, and its update.
    fn note_foreign_success(&mut self, before: &CStepwise, after: &CStepwise) {
        if after.update != 0 {
            let (accessed, dirtied) = (after.answer.accessed != 0, after.answer.dirtied != 0);
            self.meet_foreign(Foreign::Update(accessed, dirtied));
        }
        let odd = odd_bytes(&before.regime, &before.access);
        odd.for_each(|what| self.meet_foreign(Foreign::Spelt(what)));
    }

    /// What the sum that a walk brought does to a leaf.
    fn note_foreign_leaf(&mut self, walk: &Stepwise, before: &CStepwise, leaf: &Leaf) {
        let (regime, access) = (&walk.regime, &walk.access);
        for decision in decided(regime, access, leaf) {
            self.meet_foreign(Foreign::Decides(decision.bit));
        }
        let ends = |tables| succeeds(regime, access, leaf, u64::from(tables) << PXN_TABLE);
        let (idle, sum) = (before.tables >> 4, before.tables & SUM_BITS);
        let hpd = range_at(regime, access.address).hpd;
        if hpd && ends(sum) != ends(0) {
            self.meet_foreign(Foreign::Peculiar(Peculiar::HpdSum));
        }
        if !hpd && sum == 0 && ends(0) != ends(idle) {
            self.meet_foreign(Foreign::Peculiar(Peculiar::IdleBits));
        }
    }
}

/// Numbers that are spelled otherwise than a call would by itself.
fn odd_bytes(regime: &CRegime, access: &CAccess) -> impl Iterator<Item = Spelt> {
    let odd = [
        (Spelt::Truth, regime.ha > 1),
        (Spelt::Kind, access.kind > 5),
        (Spelt::Granule, regime.granule > 2),
    ];
    odd.into_iter().filter_map(|(what, is)| is.then_some(what))
}

/// The leaf that an offer to a walk leads to; row 3 must not apply.
fn leaf_of(walk: &Stepwise, left: u8, offered: Option<u64>) -> Option<Leaf> {
    let State::Wants { entry, bits, .. } = walk.state else {
        return None;
    };
    let (level, _) = walk.level(left);
    let wanted = Wanted { entry, level, bits };
    match go_on(&walk.regime, walk.access.address, &wanted, offered) {
        Ok(Next::Leaf(leaf)) => Some(leaf),
        _ => None,
    }
}

/// What no call leaves, in a walk that goes on or succeeds.
fn peculiar(
    walk: &Stepwise,
    before: &CStepwise,
    after: &CStepwise,
) -> impl Iterator<Item = Peculiar> {
    let (regime, address) = (&walk.regime, walk.access.address);
    let range = range_at(regime, address);
    let enabled = Range {
        disabled: false,
        root: 0,
        ..*range
    };
    let in_range = Regime {
        ranges: [enabled; 2],
        ..*regime
    };
    let updates = after.update != 0;
    let noise = before.expected | before.value | u64::from(before.update);
    let met = [
        (Peculiar::Disabled, range.disabled),
        (Peculiar::Outside, first_wanted(&in_range, address).is_err()),
        (
            Peculiar::RootBeyond,
            range.root >= output_limit(regime.output_code),
        ),
        (Peculiar::OddAddress, updates && before.address & 7 != 0),
        (
            Peculiar::HighAddress,
            updates && before.address >= PHYSICAL_LIMIT,
        ),
        (Peculiar::Filled, after.ended == 0 && noise != 0),
    ];
    met.into_iter().filter_map(|(what, is)| is.then_some(what))
}

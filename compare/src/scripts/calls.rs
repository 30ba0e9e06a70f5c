//! The calls of a script, drawn one by one as the session goes on.

use super::opening;
use super::world::{draw_usable_leaf, lead_to, set_bit, vary, Leaves, World};
use super::{Step, CALLS};
use crate::boundary::Spelling;
use crate::cases::scene::{draw_access, draw_access_of, draw_table, HD_ALONE};
use crate::geometry::{Granule, LAST_LEVEL, PHYSICAL_LIMIT};
use crate::granules::with_granule;
use crate::harvest::{
    draw_fitting, draw_near, range_of, span_of, spoil_map, spoil_pages, with_map, Fit, MOST_PAGES,
};
use crate::random::Random;
use crate::reference::{
    find_leaf, is_device, offset_in_memory, output_limit, pool_reader, range_at, read_descriptor,
    writable_clean, Access, Kind, Regime, AF, AP1, AP2, DBM, PXN, TAKING, UXN,
};
use crate::refusals::{of_set_regime, row_1, SET_REGIME};
use crate::reversed::other_order;
use crate::session::{first_of, page_of, Call, Held, Session};
use crate::spoil::spoil;
use std::vec;

/// How often each sort of call comes.
#[derive(Clone, Copy)]
struct Mood {
    store: u64,
    drop: u64,
    regime: u64,
    /// The regime of the moment, in the other byte order.
    other_order: u64,
    /// The regime of the moment, with another granule.
    other_granule: u64,
    bad_regime: u64,
    bad_access: u64,
    harvest: u64,
    bad_harvest: u64,
    /// The rest, to 100, are accesses; of 8 of them, so many write.
    writes: u64,
    /// One call in so many is lent another length.
    odd_length: u64,
}

const EVEN: Mood = Mood {
    store: 16,
    drop: 3,
    regime: 3,
    other_order: 1,
    other_granule: 1,
    bad_regime: 3,
    bad_access: 3,
    harvest: 3,
    bad_harvest: 1,
    writes: 1,
    odd_length: 40,
};

const DIRTY: Mood = Mood {
    regime: 1,
    writes: 0,
    ..EVEN
};

const STORES: Mood = Mood { store: 35, ..EVEN };

const ORDERS: Mood = Mood {
    regime: 1,
    other_order: 8,
    writes: 2,
    ..EVEN
};

const GRANULES: Mood = Mood {
    store: 8,
    regime: 1,
    other_granule: 6,
    writes: 2,
    ..EVEN
};

const REGIMES: Mood = Mood {
    store: 10,
    drop: 8,
    regime: 10,
    bad_regime: 10,
    bad_access: 10,
    harvest: 1,
    odd_length: 8,
    ..EVEN
};

/// No store, so that the first half speaks all the way.
const QUIET: Mood = Mood {
    store: 0,
    harvest: 5,
    writes: 0,
    ..EVEN
};

const FILL: Mood = Mood {
    store: 2,
    drop: 0,
    regime: 0,
    other_order: 0,
    other_granule: 0,
    bad_regime: 1,
    bad_access: 1,
    harvest: 0,
    ..EVEN
};

const LENGTHS: Mood = Mood {
    odd_length: 8,
    ..EVEN
};

/// The family whose memories are the longest.
const LONG: &str = "long";

/// How many families there are, by their weights.
const TURNS: u64 = 18;

/// The granule of home, turn by turn of all families: 4 KiB two times out of
/// three.
fn granule_of(number: u64) -> Granule {
    match number / TURNS % 12 {
        0..=7 => Granule::Kib4,
        8 | 9 => Granule::Kib16,
        _ => Granule::Kib64,
    }
}

/// A family, its mood and a world, turn by turn.
fn draw_setting(number: u64, random: &mut Random) -> (&'static str, Mood, World) {
    let granule = granule_of(number);
    let mixed = |random: &mut Random| World::planned(random, granule, Leaves::Mixed);
    let clean = |random: &mut Random| World::planned(random, granule, Leaves::Clean);
    match number % TURNS {
        _ if number % 1500 == 8 => (LONG, EVEN, long_memory(random, number / 1500)),
        _ if number % 400 == 7 => ("pools", LENGTHS, long_pool(random, number / 400)),
        0..=2 => ("trees", EVEN, mixed(random)),
        3 => ("orders", ORDERS, World::either_way(random, granule)),
        4..=7 => ("dirty", DIRTY, clean(random)),
        8 | 9 => ("stores", STORES, clean(random)),
        10 | 11 => ("regimes", REGIMES, mixed(random)),
        12 => ("quiet", QUIET, clean(random)),
        13 => ("wide", FILL, World::wide(random, granule)),
        14 | 15 => ("granules", GRANULES, World::two_granules(random)),
        _ => ("noise", EVEN, World::unplanned(random, granule)),
    }
}

/// Four turns are for 4 KiB, those behind them for the largest granule.
fn long_memory(random: &mut Random, turn: u64) -> World {
    match turn {
        0..=3 => World::long_memory(random, Granule::Kib4, turn),
        _ => World::long_memory(random, Granule::Kib64, turn - 4),
    }
}

/// Twelve turns are for 4 KiB, those behind them for the others.
fn long_pool(random: &mut Random, turn: u64) -> World {
    match turn {
        0..=11 => World::long_pool(random, Granule::Kib4, turn),
        12..=15 => World::long_pool(random, Granule::Kib16, turn - 12),
        _ => World::long_pool(random, Granule::Kib64, turn - 16),
    }
}

/// Calls that are to come next, on one page.
#[derive(Clone, Copy)]
enum Planned {
    Store(u64),
    /// A bit that a table on the way takes something away with is turned.
    Turn(u64),
    /// The descriptor at which the way gets lost is stored the other way round.
    Reverse(u64),
    Write(u64),
    Look(u64),
    /// A look in its page of 4 KiB, whatever the granule is then.
    Near(u64),
    /// The regime of the moment is set in the other byte order.
    OtherOrder,
    /// It is set with another granule.
    OtherGranule,
    /// The page with a number is looked at, whatever the granule is then.
    Number(u64),
    Home,
    Drop,
    /// A harvest of a few pages around.
    Harvest(u64),
}

pub struct Script {
    pub family: &'static str,
    pub world: World,
    pub random: Random,
    mood: Mood,
    /// The first calls and their lengths, where the world asks for some.
    opening: vec::IntoIter<(Call, usize)>,
    /// The pages most accesses go to.
    hot: Vec<u64>,
    /// Descriptors that were stored over, and what they were.
    undone: Vec<(u64, u64)>,
    /// The last one comes first.
    plan: Vec<Planned>,
}

impl Script {
    pub fn draw(number: u64, mut random: Random) -> Script {
        let (family, mood, world) = draw_setting(number, &mut random);
        let pages = &world.pages;
        let hot = if family == "wide" {
            pages.clone()
        } else {
            // Pages that stand together have a table or a leaf in common.
            let start = random.below(pages.len() as u64 - 3) as usize;
            let mut hot = pages[start..start + 4].to_vec();
            hot.extend((0..4).map(|_| random.pick(pages)));
            hot.extend(&world.shared);
            hot
        };
        let opening = match &world.ends {
            Some(ends) => opening::draw(&mut random, &world, ends),
            None => Vec::new(),
        };
        Script {
            family,
            world,
            random,
            mood,
            opening: opening.into_iter(),
            hot,
            undone: Vec::new(),
            plan: Vec::new(),
        }
    }

    /// Whether its memory is so long that there are few calls, and no look at
    /// the pages afterwards.
    pub fn is_brief(&self) -> bool {
        self.family == LONG
    }

    /// How many calls are to come, before the first one.
    pub fn calls(&self) -> usize {
        if self.is_brief() {
            self.opening.len()
        } else {
            CALLS
        }
    }

    /// The next call, by the session and memory of this moment.
    pub fn next(&mut self, session: &Session, memory: &[u8]) -> Step {
        let (call, lent) = match self.opening.next() {
            Some(first) => first,
            None => self.draw_step(session, memory),
        };
        Step {
            call,
            lent,
            spelling: Spelling::draw(&mut self.random),
        }
    }

    /// A call and its length.
    fn draw_step(&mut self, session: &Session, memory: &[u8]) -> (Call, usize) {
        let (call, lent) = self.draw_call(session, memory);
        let lent = if self.random.once_in(self.mood.odd_length) {
            self.draw_length(session)
        } else {
            lent.unwrap_or_else(|| self.usual_length(session))
        };
        (call, lent)
    }

    /// As much as is lent as a rule; at times all, if the regime needs it.
    fn usual_length(&mut self, session: &Session) -> usize {
        match session.regime {
            Some(regime) if row_1(self.world.length, &regime) => {
                let length = self.world.length;
                let all = self.world.memory.len();
                self.random.pick(&[length, all, all])
            }
            _ => self.world.length,
        }
    }

    /// Lengths around the pool's end, and beyond what is lent as a rule.
    fn draw_length(&mut self, session: &Session) -> usize {
        let all = self.world.memory.len();
        let Some(regime) = session.regime else {
            return self.random.pick(&[0, all, all]);
        };
        let pool = regime.pool;
        let end = pool.start + pool.length;
        let any = self.random.below(all as u64 + 1) as usize;
        let lengths = [0, 1, pool.start, end - 1, end - 8, end, end + 1, all, any];
        self.random.pick(&lengths).min(all)
    }

    /// A call, and its length if that is not the usual one.
    fn draw_call(&mut self, session: &Session, memory: &[u8]) -> (Call, Option<usize>) {
        if session.regime.is_none() && self.random.once_in(2) {
            return self.draw_regime();
        }
        if let Some(call) = self.follow_plan(session, memory) {
            return (call, None);
        }
        let mood = self.mood;
        let mut left = self.random.below(100);
        let mut turn = |share: u64| {
            let taken = left < share;
            left = left.saturating_sub(share);
            taken
        };
        if turn(mood.store) {
            (self.draw_store(session, memory), None)
        } else if turn(mood.drop) {
            (Call::DropAll, None)
        } else if turn(mood.regime) {
            self.draw_regime()
        } else if turn(mood.other_order) {
            self.draw_other_order(session)
        } else if turn(mood.other_granule) {
            self.draw_other_granule(session)
        } else if turn(mood.bad_regime) {
            (Call::SetRegime(self.draw_bad_regime()), None)
        } else if turn(mood.bad_access) {
            (Call::Access(self.draw_bad_access(session)), None)
        } else if turn(mood.harvest) {
            let page = self.draw_page(session);
            (self.draw_harvest(page, session, memory), None)
        } else if turn(mood.bad_harvest) {
            (self.draw_bad_harvest(session), None)
        } else {
            (Call::Access(self.draw_good_access(session)), None)
        }
    }

    /// The next call of a plan, where there is one or one is made.
    fn follow_plan(&mut self, session: &Session, memory: &[u8]) -> Option<Call> {
        let regime = session.regime?;
        if self.plan.is_empty() {
            self.plan_ahead(&regime, session);
        }
        let (random, granule) = (&mut self.random, regime.granule);
        Some(match self.plan.pop()? {
            Planned::Store(page) => self.draw_store_for(page, session, memory),
            Planned::Turn(page) => self.draw_turn(page, session, memory),
            Planned::Reverse(page) => self.draw_reversed(page, &regime, memory),
            Planned::OtherOrder => Call::SetRegime(other_order(&regime)),
            Planned::OtherGranule => self.draw_other_granule(session).0,
            Planned::Home => Call::SetRegime(self.world.regimes[0]),
            Planned::Drop => Call::DropAll,
            Planned::Harvest(page) => self.draw_harvest(page, session, memory),
            Planned::Write(page) => Call::Access(draw_write(random, granule, page)),
            Planned::Look(page) => Call::Access(draw_access(random, granule, page)),
            Planned::Near(page) => Call::Access(draw_access(random, Granule::Kib4, page)),
            Planned::Number(number) => {
                let page = first_of(granule, number);
                Call::Access(draw_access(random, granule, page))
            }
        })
    }

    /// Perhaps makes a plan; none that stores, where nothing is stored.
    fn plan_ahead(&mut self, regime: &Regime, session: &Session) {
        let stores = self.mood.store > 0;
        let lost = regime.ee != self.world.regimes[0].ee && !self.world.either_way;
        if self.random.once_in(6) {
            self.plan_mark(regime, session);
        } else if stores && self.random.once_in(20) {
            self.plan_turn(session);
        } else if self.random.once_in(16) {
            self.plan_harvest(session);
        } else if stores && lost && self.random.once_in(8) {
            self.plan_reverse();
        } else if stores && self.world.either_way && self.random.once_in(12) {
            self.plan_other_order();
        } else if !self.world.shared.is_empty() && self.random.once_in(5) {
            self.plan_other_granule(regime.granule);
        }
    }

    /// Where a page is held with a dirty mark to come: its tables are changed,
    /// or a page with the same leaf is written; then it is written itself, and
    /// looked at.
    fn plan_mark(&mut self, regime: &Regime, session: &Session) {
        let places = session.places.iter().flatten().copied();
        let clean = places.filter(|held| writable_clean(regime, &held.leaf));
        let clean: Vec<Held> = clean.collect();
        if clean.is_empty() {
            return;
        }
        let held = self.random.pick(&clean);
        let page = first_of(regime.granule, held.page);
        let twin = |other: &&Held| {
            other.leaf.descriptor == held.leaf.descriptor && other.page != held.page
        };
        self.plan = vec![Planned::Look(page), Planned::Write(page)];
        match clean.iter().find(twin) {
            Some(twin) => {
                let other = first_of(regime.granule, twin.page);
                self.plan.push(Planned::Write(other));
            }
            None if self.mood.store == 0 || self.random.once_in(4) => {}
            None if self.random.once_in(3) => self.plan.push(Planned::Turn(page)),
            None => self.plan.push(Planned::Store(page)),
        }
    }

    /// Where a page is held: what its tables take away is changed, and it is
    /// looked at; then perhaps all is dropped, and it is looked at again.
    fn plan_turn(&mut self, session: &Session) {
        let held = self.held_pages(session);
        if held.is_empty() {
            return;
        }
        let page = self.random.pick(&held);
        let look = Planned::Look(page);
        self.plan = vec![look, look, Planned::Turn(page)];
        if self.mood.drop > 0 && self.random.once_in(3) {
            let emptying =
                self.random
                    .pick(&[Planned::Drop, Planned::Drop, Planned::Harvest(page)]);
            self.plan.insert(1, emptying);
        }
    }

    /// Where tables were laid in the other order: the way to a page is stored
    /// anew, one descriptor after the other, and the page written and looked
    /// at; then perhaps home is set again, where that way is lost.
    fn plan_reverse(&mut self) {
        let page = self.random.pick(&self.hot);
        let (look, reverse) = (Planned::Look(page), Planned::Reverse(page));
        self.plan = vec![look, Planned::Write(page)];
        self.plan.extend([reverse; 4]);
        if self.random.once_in(3) {
            self.plan.splice(0..0, [look, Planned::Home]);
        }
    }

    /// Where tables are tables in either order: the way to a page is changed in
    /// one, and the page is written and looked at in the other.
    fn plan_other_order(&mut self) {
        let page = self.random.pick(&self.hot);
        let (look, store) = (Planned::Look(page), Planned::Store(page));
        self.plan = vec![look, Planned::Write(page), Planned::OtherOrder, store, look];
    }

    /// Where two granules translate an address: it is walked and held under
    /// one, and walked under the other, as is the page that has there the
    /// number of the one held.
    fn plan_other_granule(&mut self, granule: Granule) {
        let page = self.random.pick(&self.world.shared);
        let (near, number) = (Planned::Near(page), page_of(granule, page));
        let write = Planned::Write(page);
        self.plan = vec![
            near,
            Planned::Number(number),
            Planned::OtherGranule,
            near,
            write,
        ];
    }

    /// A page is written, harvested with a few others, and written again; then
    /// harvested once more, at times after a look.
    fn plan_harvest(&mut self, session: &Session) {
        let page = self.draw_page(session);
        let (write, harvest) = (Planned::Write(page), Planned::Harvest(page));
        self.plan = vec![harvest, write, harvest, write];
        if self.random.coin() {
            self.plan.insert(1, Planned::Look(page));
        }
        if self.random.coin() {
            self.plan.push(Planned::Drop);
        }
    }

    /// Pages around one, or all or a part of what its leaf maps, and seldom as
    /// many as there can be.
    fn draw_harvest(&mut self, page: u64, session: &Session, memory: &[u8]) -> Call {
        let regime = session.regime.unwrap_or(self.world.regimes[0]);
        let random = &mut self.random;
        let number = page_of(regime.granule, page);
        let leaf = reached(page, &regime, memory);
        let level = leaf.filter(|&level| level > 1).unwrap_or(LAST_LEVEL);
        let block = level < LAST_LEVEL && random.once_in(3);
        Call::Harvest(match range_of(&regime, number) {
            Some(own) if random.once_in(150) => {
                let most = MOST_PAGES.min(own.end - own.start);
                let first = number.clamp(own.start, own.end - most);
                with_map(random, first, most)
            }
            Some(_) if block => {
                let span = span_of(regime.granule, level, number);
                let fit = random.pick(&[Fit::Whole, Fit::Whole, Fit::Before, Fit::Behind]);
                draw_fitting(random, &regime, &span, fit)
            }
            _ => draw_near(random, &regime, number),
        })
    }

    /// Refused with 10 or 11.
    fn draw_bad_harvest(&mut self, session: &Session) -> Call {
        let page = self.draw_page(session);
        let regime = session.regime.unwrap_or(self.world.regimes[0]);
        let random = &mut self.random;
        let mut asked = draw_near(random, &regime, page_of(regime.granule, page));
        if random.coin() {
            spoil_pages(random, &regime, &mut asked);
        } else {
            spoil_map(random, &mut asked);
        }
        Call::Harvest(asked)
    }

    /// The granule of the session, or else that of home.
    fn granule(&self, session: &Session) -> Granule {
        let regime = session.regime.as_ref();
        regime.unwrap_or(&self.world.regimes[0]).granule
    }

    /// The first addresses of the pages that are held.
    fn held_pages(&self, session: &Session) -> Vec<u64> {
        let granule = self.granule(session);
        let held = session.places.iter().flatten();
        held.map(|held| first_of(granule, held.page)).collect()
    }

    /// A held page, a hot one, or any.
    fn draw_page(&mut self, session: &Session) -> u64 {
        let held = self.held_pages(session);
        if self.family == "wide" && !self.random.once_in(8) {
            self.hot.rotate_left(1);
            return self.hot[0];
        }
        match self.random.below(12) {
            0..=3 if !held.is_empty() => self.random.pick(&held),
            11 => self.random.pick(&self.world.pages),
            _ => self.random.pick(&self.hot),
        }
    }

    fn draw_good_access(&mut self, session: &Session) -> Access {
        let page = self.draw_page(session);
        let granule = self.granule(session);
        if self.random.below(8) < self.mood.writes {
            let kind = self.random.pick(&[Kind::Write, Kind::Update]);
            draw_access_of(&mut self.random, granule, page, kind)
        } else {
            draw_access(&mut self.random, granule, page)
        }
    }

    /// Refused with 6 or 7.
    fn draw_bad_access(&mut self, session: &Session) -> Access {
        let mut access = self.draw_good_access(session);
        let page = self.granule(session).bytes();
        let random = &mut self.random;
        match random.below(5) {
            0 => access.size = random.pick(&[0, 3, 5, 17, 32, 1 << 32, u64::MAX]),
            1 => {
                access.kind = Kind::Fetch;
                access.size = random.pick(&[1, 2, 8, 16]);
            }
            2 => {
                access.kind = Kind::Fetch;
                access.address |= random.between(1, 3);
            }
            3 => {
                access.kind = random.pick(&[Kind::ProbeRead, Kind::ProbeWrite]);
                access.size = random.pick(&[0, 2, 4, 8, 16]);
            }
            _ => {
                access.kind = random.pick(&[Kind::Read, Kind::Write, Kind::Update]);
                access.size = random.pick(&[2, 4, 8, 16]);
                access.address = (access.address | (page - 1)) - random.below(access.size - 1);
            }
        }
        access
    }

    /// Home mostly, with the length it needs; seldom with HD on and HA off.
    fn draw_regime(&mut self) -> (Call, Option<usize>) {
        let home = self.world.regimes[0];
        let random = &mut self.random;
        match self.world.far {
            _ if random.once_in(24) => {
                let (ha, hd) = HD_ALONE;
                (Call::SetRegime(Regime { ha, hd, ..home }), None)
            }
            Some(far) if random.once_in(6) => (Call::SetRegime(far), Some(self.world.memory.len())),
            _ if random.once_in(3) => {
                let some = random.pick(&self.world.regimes);
                (Call::SetRegime(some), None)
            }
            _ => (Call::SetRegime(home), None),
        }
    }

    /// The regime of the moment, in the other byte order.
    fn draw_other_order(&mut self, session: &Session) -> (Call, Option<usize>) {
        match session.regime {
            Some(regime) => (Call::SetRegime(other_order(&regime)), None),
            None => self.draw_regime(),
        }
    }

    /// The regime of the moment, with another granule: mostly one of the
    /// world's, or one that is accepted, where there is such a one.
    fn draw_other_granule(&mut self, session: &Session) -> (Call, Option<usize>) {
        let Some(regime) = session.regime else {
            return self.draw_regime();
        };
        let (regimes, length) = (&self.world.regimes, self.world.length);
        let known = |other: &Regime| regimes.iter().any(|known| known.granule == other.granule);
        let accepted = |other: &Regime| of_set_regime(length, other).is_none();
        let wanted: &dyn Fn(&Regime) -> bool = match self.random.below(8) {
            0 => &|_| true,
            1 | 2 => &accepted,
            _ => &|other| known(other) && accepted(other),
        };
        let others = regime.granule.others();
        let others: Vec<Regime> = others.map(|other| with_granule(&regime, other)).collect();
        let from: Vec<Regime> = others.iter().copied().filter(wanted).collect();
        let from = if from.is_empty() { others } else { from };
        (Call::SetRegime(self.random.pick(&from)), None)
    }

    /// A regime to which a row applies, at times two, and which differs from
    /// home in more than that.
    fn draw_bad_regime(&mut self) -> Regime {
        let home = self.world.regimes[0];
        let mut regime = vary(&mut self.random, &home);
        self.spoil(&mut regime);
        if self.random.once_in(4) {
            self.spoil(&mut regime);
        }
        regime
    }

    /// Makes some row apply.
    fn spoil(&mut self, regime: &mut Regime) {
        let row = self.random.pick(SET_REGIME);
        spoil(&mut self.random, row, self.world.memory.len(), regime);
    }

    fn draw_store(&mut self, session: &Session, memory: &[u8]) -> Call {
        let page = self.draw_page(session);
        self.draw_store_for(page, session, memory)
    }

    /// Mostly into a descriptor on the way to a page.
    fn draw_store_for(&mut self, page: u64, session: &Session, memory: &[u8]) -> Call {
        let regime = session.regime.unwrap_or(self.world.regimes[0]);
        let pool = regime.pool;
        let fits = pool.start + pool.length <= memory.len();
        let visited = way_to(page, &regime, memory);
        let inside = pool.address + 8 * self.random.below(pool.length as u64 / 8);
        let last = visited.last().copied().unwrap_or(inside);
        let address = match self.random.below(20) {
            0..=9 => last,
            10..=12 if !visited.is_empty() => self.random.pick(&visited),
            13 | 14 => {
                if let Some((address, value)) = self.undone.pop() {
                    return Call::Store { address, value };
                }
                inside
            }
            15..=17 => self.draw_bad_address(&regime, last),
            18 => pool.address + pool.length as u64 - 8,
            _ => inside,
        };
        let offset = offset_in_memory(&pool, address);
        let old = match offset {
            Some(offset) if fits => read_descriptor(memory, offset, regime.ee),
            _ => self.random.bits(),
        };
        if offset.is_some() && address & 7 == 0 {
            self.undone.push((address, old));
        }
        let mut value = self.twist(&regime, old);
        while self.random.once_in(3) {
            value = self.twist(&regime, value);
        }
        Call::Store { address, value }
    }

    /// Turns one of the bits that a table on the way to a page takes something
    /// away with; any store, where there is no table.
    fn draw_turn(&mut self, page: u64, session: &Session, memory: &[u8]) -> Call {
        let regime = session.regime.unwrap_or(self.world.regimes[0]);
        let mut tables = way_to(page, &regime, memory);
        tables.pop();
        if tables.is_empty() {
            return self.draw_store_for(page, session, memory);
        }
        let address = self.random.pick(&tables);
        let offset = offset_in_memory(&regime.pool, address).expect("a table was read there");
        let old = read_descriptor(memory, offset, regime.ee);
        self.undone.push((address, old));
        let value = old ^ 1 << self.random.pick(&TAKING);
        Call::Store { address, value }
    }

    /// Stores the last descriptor of the way to a page the other way round,
    /// where that way reaches no leaf; or else looks at the page.
    fn draw_reversed(&mut self, page: u64, regime: &Regime, memory: &[u8]) -> Call {
        match lost_at(page, regime, memory) {
            Some((address, offset)) => {
                let old = read_descriptor(memory, offset, regime.ee);
                self.undone.push((address, old));
                let value = old.swap_bytes();
                Call::Store { address, value }
            }
            None => Call::Access(draw_access(&mut self.random, regime.granule, page)),
        }
    }

    /// Off the multiples of 8, beside the pool, or far from it.
    fn draw_bad_address(&mut self, regime: &Regime, good: u64) -> u64 {
        let first = regime.pool.address;
        let end = first + regime.pool.length as u64;
        let random = &mut self.random;
        match random.below(8) {
            0 | 1 => good | random.between(1, 7),
            2 => first.wrapping_sub(8),
            3 => first.wrapping_sub(random.between(1, 7)),
            4 => end,
            5 => end - random.between(1, 7),
            6 => good | 1 << random.between(48, 63),
            _ => random.pick(&[u64::MAX, u64::MAX - 7, 1 << 63, PHYSICAL_LIMIT]),
        }
    }

    /// A descriptor with something changed.
    fn twist(&mut self, regime: &Regime, old: u64) -> u64 {
        let random = &mut self.random;
        let (limit, granule) = (output_limit(regime.output_code), regime.granule);
        let table = regime.pool.address + granule.floor(random.below(regime.pool.length as u64));
        let lead_to = |address| lead_to(granule, old, address);
        let output = random.below(limit);
        let device = regime.attributes.iter().position(|&byte| is_device(byte));
        match random.below(34) {
            0 | 1 => set_bit(old, AF, true),
            2 | 3 => set_bit(old, AF, false),
            4 | 5 => set_bit(old, AP2, false),
            6 | 7 => set_bit(old, AP2, true),
            8 => old ^ 1 << DBM,
            9 => old ^ 1 << AP1,
            10 => old ^ 1 << random.pick(&[PXN, UXN]),
            11 => old & !1,
            12 => old ^ 2,
            13 | 14 => old ^ random.between(1, 7) << 2,
            15 => lead_to(output),
            16 => lead_to(limit | output),
            17 => lead_to(regime.pool.address + regime.pool.length as u64),
            18 => lead_to(table),
            19 => draw_usable_leaf(random, granule, 3, output, Leaves::Clean),
            20 => draw_usable_leaf(random, granule, 2, output, Leaves::Clean),
            21 => draw_table(random, granule, table),
            22 => 0,
            // Clean again.
            23 | 24 => set_bit(set_bit(old, AP2, true), DBM, true),
            // Device, and perhaps not accessed.
            25..=28 => {
                let index = device.unwrap_or(0) as u64;
                set_bit(old & !(7 << 2) | index << 2, AF, random.coin())
            }
            // In a table most of these have a say, in a leaf none.
            29..=31 => old ^ 1 << random.between(59, 63),
            32 => old.swap_bytes(),
            _ => random.bits(),
        }
    }
}

/// A write or update in a page, mostly from EL1, and half of the time at its
/// second byte.
fn draw_write(random: &mut Random, granule: Granule, page: u64) -> Access {
    let kind = random.pick(&[Kind::Write, Kind::Update]);
    let mut access = draw_access_of(random, granule, page, kind);
    access.el0 = random.once_in(4);
    if access.size > 1 && random.coin() {
        access.address = granule.floor(page) + 1;
    }
    access
}

/// The descriptor addresses on the way to a page, none where the memory is too
/// short for the pool; and whether they reach a leaf.
fn follow(page: u64, regime: &Regime, memory: &[u8]) -> (Vec<u64>, bool) {
    let pool = &regime.pool;
    let mut visited = Vec::with_capacity(4);
    let fits = pool.start + pool.length <= memory.len();
    let reached =
        fits && find_leaf(pool_reader(memory, regime), regime, page, &mut visited).is_ok();
    (visited, reached)
}

/// The level of the leaf that a page reaches, if it does.
fn reached(page: u64, regime: &Regime, memory: &[u8]) -> Option<u8> {
    let (visited, is_leaf) = follow(page, regime, memory);
    let t = range_at(regime, page).t;
    let first = usize::from(regime.granule.first_level(t));
    is_leaf.then(|| (first + visited.len() - 1) as u8)
}

fn way_to(page: u64, regime: &Regime, memory: &[u8]) -> Vec<u64> {
    follow(page, regime, memory).0
}

/// The last descriptor in the pool on a way that reaches no leaf: its address,
/// and its offset in the memory.
fn lost_at(page: u64, regime: &Regime, memory: &[u8]) -> Option<(u64, usize)> {
    let (visited, reached) = follow(page, regime, memory);
    let placed = |&at: &u64| Some((at, offset_in_memory(&regime.pool, at)?));
    visited.iter().rev().find_map(placed).filter(|_| !reached)
}

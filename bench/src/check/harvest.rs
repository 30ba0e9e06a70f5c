//! Harvests on both sides: of pages in and around random tables of each granule
//! and byte order, which share tables and point to themselves; by themselves and
//! in a session, among its accesses; refused ones too.

use super::{access, Random};
use crate::boundary::{self, Regime, KIB16, KIB64};
use crate::kernels;
use crate::plain::{self, PAGES_LIMIT};

const SCENES: u32 = 3_000;
const HARVESTS: u32 = 20;

/// What a harvest is asked for.
#[derive(Debug, Default)]
struct Asked {
    first: u64,
    count: u64,
    map: Vec<u8>,
}

/// Tables and a session for each side.
struct Scene {
    regime: Regime,
    memory: [Vec<u8>; 2],
    ours: boundary::Session,
    plain: plain::Session,
}

/// Gives the number of random harvests compared.
pub fn same_harvests(random: &mut Random) -> u32 {
    same_refusals();
    for _ in 0..SCENES {
        let mut scene = random.scene();
        for _ in 0..HARVESTS {
            let asked = random.asked(&scene.regime);
            scene.visit(random, &asked);
            let alone = random.below(2) == 0;
            scene.harvest(alone, &asked);
            if random.below(4) == 0 {
                scene.harvest(alone, &asked);
            }
            scene.visit(random, &asked);
        }
    }
    SCENES * HARVESTS
}

impl Scene {
    fn new(regime: Regime, memory: Vec<u8>) -> Scene {
        Scene {
            regime,
            memory: [memory.clone(), memory],
            ours: boundary::Session::empty(),
            plain: plain::Session::empty(),
        }
    }

    fn set_regime(&mut self) {
        let refusal = self.ours.set_regime(&self.memory[0], &self.regime);
        let plain_refusal = self.plain.set_regime(&self.memory[1], &self.regime);
        assert_eq!(refusal, plain_refusal, "{:?}", self.regime);
    }

    /// Writes and reads pages around those asked for, in the session.
    fn visit(&mut self, random: &mut Random, asked: &Asked) {
        for _ in 0..random.below(4) {
            let page = asked.first.wrapping_add(random.below(asked.count + 2));
            let address = page << page_bits(self.regime.granule);
            let access = access(address, 1, random.below(2) as u8);
            let [memory, plain_memory] = &mut self.memory;
            assert_eq!(
                self.ours.access(memory, &access),
                self.plain.access(plain_memory, &access),
                "{access:?}"
            );
        }
    }

    /// A harvest alone or in the session. Gives the refusal.
    fn harvest(&mut self, alone: bool, asked: &Asked) -> u8 {
        let [memory, plain_memory] = &mut self.memory;
        let Asked { first, count, map } = asked;
        let (mut map, mut plain_map) = (map.clone(), map.clone());
        let mut session = self.ours;
        let replies = if alone {
            [
                boundary::harvest(memory, &self.regime, *first, *count, &mut map),
                plain::harvest(plain_memory, &self.regime, *first, *count, &mut plain_map),
            ]
        } else {
            [
                self.ours.harvest(memory, *first, *count, &mut map),
                self.plain
                    .harvest(plain_memory, *first, *count, &mut plain_map),
            ]
        };
        if !alone && replies[0] == 0 {
            session.invalidate_all();
        }
        let told = || format!("{first:#x} {count} {:?}", self.regime);
        assert_eq!(replies[0], replies[1], "{}", told());
        assert!(map == plain_map, "other maps: {}", told());
        assert!(memory == plain_memory, "other bytes: {}", told());
        assert!(self.ours == session, "other session: {}", told());
        replies[0]
    }
}

fn page_bits(granule: u8) -> u8 {
    match granule {
        KIB64 => 16,
        KIB16 => 14,
        _ => 12,
    }
}

impl Random {
    /// Random tables, most often with a regime that is accepted; rarely the
    /// session has none.
    fn scene(&mut self) -> Scene {
        self.ee = self.below(2) as u8;
        let granule = [0, 0, KIB16, KIB64, 3][self.below(5) as usize];
        let page = page_bits(granule);
        let tables = self.below(5) + 2;
        let mut regime = self.tables_regime(granule, tables);
        let mut memory = vec![0; ((tables + 2) << page) as usize];
        for at in (0..memory.len()).step_by(8) {
            let value = self.entry(&regime, tables);
            plain::store(&mut memory, at, value, self.ee);
        }
        if self.rarely() {
            let (_, mistake) = MISTAKES[self.below(OF_THE_REGIME) as usize];
            mistake(&mut regime, &mut Asked::default());
        }
        let mut scene = Scene::new(regime, memory);
        if !self.rarely() {
            scene.set_regime();
        }
        scene
    }

    /// A regime over so many tables, its pool from the first or second one on.
    fn tables_regime(&mut self, granule: u8, tables: u64) -> Regime {
        let page = page_bits(granule);
        let mut regime = kernels::regime((tables << page) as usize);
        regime.start = (self.below(2) << page) as usize;
        regime.granule = granule;
        regime.ee = 4 * self.ee;
        regime.tsz0 = 16 + self.below(24) as u8;
        regime.tsz1 = 16 + self.below(24) as u8;
        regime.disabled0 = 2 * u8::from(self.rarely());
        regime.disabled1 = u8::from(self.rarely());
        regime.output = [5, 5, 5, 0, self.below(6) as u8][self.below(5) as usize];
        if self.rarely() {
            regime.address = (1 << 48) - regime.length as u64;
        }
        regime.root0 = regime.address + (self.below(tables) << page);
        regime.root1 = regime.address + (self.below(tables) << page);
        if self.below(2) == 0 {
            (regime.ha, regime.hd) = (self.below(2) as u8, 0);
        }
        regime
    }

    /// An entry: most often with the address of one of the tables, or of one
    /// just outside the pool; a leaf dirty as often as not.
    fn entry(&mut self, regime: &Regime, tables: u64) -> u64 {
        let any = self.next();
        let table = self.below(tables + 1) << page_bits(regime.granule);
        let address = match self.below(16) {
            0 => any & 0x0000_ffff_ffff_f000,
            1 => regime.address.wrapping_sub(table) & 0x0000_ffff_ffff_f000,
            // The end of the output addresses with code 0.
            2 => 1 << 32,
            _ => regime.address + table,
        };
        let mut flags = 1 << 10 | 1 << 51 | any & 0xf870_0000_0000_0b7c;
        if self.below(2) == 0 {
            flags ^= 1 << [7, 10, 51][self.below(3) as usize];
        }
        match self.below(16) {
            0 => any,
            1 => address | flags,
            2..=4 => address | flags | 1,
            _ => address | flags | 3,
        }
    }

    /// Most often few pages; now and then none, or too many.
    fn count(&mut self) -> u64 {
        match self.below(64) {
            0 => [0, PAGES_LIMIT, PAGES_LIMIT + 1][self.below(3) as usize],
            1..=4 => 1 + self.below(1 << 13),
            5..=14 => 1 + self.below(1 << 11),
            _ => 1 + self.below(40),
        }
    }

    /// The first of so many pages within a range of `size`: around a border of
    /// some level's entries or the end of the range, or any.
    fn within(&mut self, size: u64, stride: u64, count: u64) -> u64 {
        let any = self.below(size);
        let border = match self.below(8) {
            0 => return size.saturating_sub(count),
            1 => return any,
            2 => size,
            level => any >> (stride * (level % 4)) << (stride * (level % 4)),
        };
        border.saturating_sub(self.below(count + 1))
    }

    fn asked(&mut self, regime: &Regime) -> Asked {
        let page = u64::from(page_bits(regime.granule));
        let upper = self.below(2);
        let tsz = [regime.tsz0, regime.tsz1][upper as usize];
        let size = 1 << (64 - page - u64::from(tsz));
        let count = self.count();
        let mut first = self.within(size, page - 3, count) + upper * ((1 << (64 - page)) - size);
        if self.rarely() && self.rarely() {
            first = self.next() >> self.below(64);
        }
        let length = count.div_ceil(8) as usize + self.below(3) as usize;
        let short = if self.rarely() { self.below(4) } else { 0 };
        Asked {
            first,
            count,
            map: vec![self.next() as u8; length.saturating_sub(short as usize)],
        }
    }
}

/// Spoils a harvest, whatever else was changed.
type Mistake = fn(&mut Regime, &mut Asked);

/// What a harvest is refused with, in its order, and what brings it about; the
/// first ones by the regime alone.
const MISTAKES: [(u8, Mistake); 11] = [
    (1, |regime, _| regime.start = 8),
    (2, |regime, _| regime.address += 8),
    (3, |regime, _| regime.tsz1 = 40),
    (4, |regime, _| regime.root1 = 1 << 48),
    (5, |regime, _| regime.attributes = 0x10),
    (13, |regime, _| (regime.ha, regime.hd) = (0, 1)),
    (10, |_, asked| asked.count = 0),
    (10, |_, asked| asked.count = PAGES_LIMIT + 1),
    (10, |_, asked| asked.first = 1 << 36),
    (10, |_, asked| asked.first = u64::MAX >> 12),
    (11, |_, asked| asked.map.clear()),
];
const OF_THE_REGIME: u64 = 6;

/// Each mistake alone, and any two of them: the first counts. A session without
/// a regime comes before all.
fn same_refusals() {
    for (first, (number, mistake)) in MISTAKES.into_iter().enumerate() {
        for (_, later) in &MISTAKES[first..] {
            let mut scene = Scene::new(kernels::regime(kernels::MEMORY), kernels::memory());
            let mut asked = Asked {
                first: 0x400,
                count: 9,
                map: vec![0xa5; 2],
            };
            later(&mut scene.regime, &mut asked);
            mistake(&mut scene.regime, &mut asked);
            assert_eq!(scene.harvest(true, &asked), number, "{asked:?}");
            assert_eq!(scene.harvest(false, &asked), 9, "{asked:?}");
        }
    }
}

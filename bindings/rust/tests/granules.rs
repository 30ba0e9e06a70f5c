//! Granules: tables of 4, 16 and 64 KiB, from every first level down, in walks
//! and in sessions and in both byte orders; what goes by pages; and another
//! granule over the same memory.

mod tables;

use std::ops::RangeInclusive;

use tables::{get, put, read, regime, walk, Both, CLEAN, POOL};
use vmsa::{
    Access, Answer, FaultKind, Granule, PhysAddr, Pool, Range, Refusal, Regime, Session, Stop,
    Translation, VirtAddr, POOL_LIMIT,
};

const AP2: u64 = 1 << 7;
const AF: u64 = 1 << 10;

/// The address bits of a descriptor, whatever the granule.
const ADDRESS_BITS: u64 = 0xffff_ffff_f000;

/// Bits of an address at every level, for each granule.
const SOME: u64 = 0xb4d2_a59e_3c71;

/// A level of a granule's tables (`docs/RULES.md`, 6.2): the highest and the
/// lowest bit of its index, each T for which it is the first (no range has 40),
/// and whether it has blocks.
struct Level {
    level: u8,
    index: (u32, u32),
    first: RangeInclusive<u8>,
    blocks: bool,
}

const fn level(level: u8, index: (u32, u32), first: RangeInclusive<u8>, blocks: bool) -> Level {
    Level {
        level,
        index,
        first,
        blocks,
    }
}

const SHAPES: [(Granule, &[Level]); 3] = [
    (
        Granule::Kib4,
        &[
            level(0, (47, 39), 16..=24, false),
            level(1, (38, 30), 25..=33, true),
            level(2, (29, 21), 34..=39, true),
            level(3, (20, 12), 40..=40, false),
        ],
    ),
    (
        Granule::Kib16,
        &[
            level(0, (47, 47), 16..=16, false),
            level(1, (46, 36), 17..=27, false),
            level(2, (35, 25), 28..=38, true),
            level(3, (24, 14), 39..=39, false),
        ],
    ),
    (
        Granule::Kib64,
        &[
            level(1, (47, 42), 16..=21, false),
            level(2, (41, 29), 22..=34, true),
            level(3, (28, 16), 35..=39, false),
        ],
    ),
];

/// The bits of a number below one of its bits.
fn low(number: u64, bit: u32) -> u64 {
    number & ((1 << bit) - 1)
}

/// The way of an address through tables that lie one behind the other and are
/// the pool, the root first. Places are counted from it.
struct Way {
    granule: Granule,
    levels: &'static [Level],
    tsz: u8,
    address: u64,
}

impl Way {
    fn new(shape: (Granule, &'static [Level]), tsz: u8, address: u64) -> Self {
        let (granule, levels) = shape;
        let first = levels.iter().position(|level| level.first.contains(&tsz));
        Self {
            granule,
            levels: &levels[first.unwrap()..],
            tsz,
            address,
        }
    }

    /// The place of level 3.
    fn last(&self) -> usize {
        self.levels.len() - 1
    }

    fn unit(&self) -> usize {
        self.granule.bytes() as usize
    }

    fn pool(&self) -> Pool {
        Pool::new(0, self.levels.len() * self.unit(), PhysAddr(POOL))
    }

    /// Offset of the descriptor at a place.
    fn offset(&self, place: usize) -> usize {
        let (highest, lowest) = self.levels[place].index;
        let end = (highest + 1).min(64 - u32::from(self.tsz));
        let index = low(self.address, end) >> lowest;
        place * self.unit() + 8 * index as usize
    }

    /// The pool, with the tables down to a place, and a descriptor there. What
    /// a table's descriptor has between bit 12 and the granule has no say.
    fn memory(&self, place: usize, descriptor: u64) -> Vec<u8> {
        let mut memory = vec![0; self.pool().length];
        for above in 0..place {
            let table = POOL as usize + (above + 1) * self.unit();
            let no_say = self.unit() - 4096;
            put(&mut memory, self.offset(above), (table | no_say | 3) as u64);
        }
        put(&mut memory, self.offset(place), descriptor);
        memory
    }

    fn regime(&self) -> Regime {
        let range = Range::new(PhysAddr(POOL), self.tsz);
        regime()
            .pool(self.pool())
            .range0(range)
            .range1(range)
            .granule(self.granule)
    }

    /// What a leaf at a place makes of the address.
    fn output(&self, place: usize, leaf: u64) -> u64 {
        let (_, lowest) = self.levels[place].index;
        (low(leaf, 48) >> lowest << lowest) + low(self.address, lowest)
    }

    fn write(&self) -> Access {
        Access::write(VirtAddr(self.address), 1).el0()
    }

    /// A writable-clean leaf at a place: a write walks, misses, and hits.
    fn leads_to(&self, place: usize, leaf: u64) {
        let mut memory = self.memory(place, leaf);
        let after = self.memory(place, (leaf | AF) & !AP2);
        let found = walk(&mut memory, &self.regime(), &self.write()).unwrap();
        assert_eq!(found.output.0, self.output(place, leaf));
        assert_eq!(found.level, self.levels[place].level);
        assert_eq!(usize::from(found.reads), place + 1);
        assert!(found.accessed && found.dirtied && memory == after);

        let mut memory = self.memory(place, leaf);
        let mut session = Both::new();
        session.set_regime(&memory, &self.regime()).unwrap();
        let missed = session.access(&mut memory, &self.write());
        assert_eq!(missed, Ok(found));
        let held = Translation {
            accessed: false,
            dirtied: false,
            reads: 0,
            ..found
        };
        assert_eq!(session.access(&mut memory, &self.write()), Ok(held));
        assert!(memory == after);
    }

    /// A descriptor at a place that is none there.
    fn ends_at(&self, place: usize, descriptor: u64) {
        let mut memory = self.memory(place, descriptor);
        let answer = walk(&mut memory, &self.regime(), &self.write());
        let fault = answer.unwrap_err().fault().unwrap();
        assert_eq!(fault.kind, FaultKind::Translation);
        assert_eq!(fault.level, self.levels[place].level);
        assert_eq!(usize::from(fault.reads), place + 1);

        let mut session = Both::new();
        session.set_regime(&memory, &self.regime()).unwrap();
        assert_eq!(session.access(&mut memory, &self.write()), answer);
    }
}

#[test]
fn numbers() {
    assert_eq!(Granule::default(), Granule::Kib4);
    assert_eq!(Granule::ALL.map(Granule::page_bits), [12, 14, 16]);
    assert_eq!(Granule::ALL.map(Granule::tg0), [0, 2, 1]);
    let of = |from: fn(u8) -> Option<Granule>| [0, 1, 2, 3].map(from);
    let [kib4, kib16, kib64] = Granule::ALL.map(Some);
    assert_eq!(of(Granule::from_tg0), [kib4, kib64, kib16, None]);
    assert_eq!(of(Granule::from_tg1), [None, kib16, kib4, kib64]);
    for tg in 4..=255 {
        assert_eq!(Granule::from_tg0(tg), None);
        assert_eq!(Granule::from_tg1(tg), None);
    }
}

#[test]
fn to_a_page_from_every_first_level() {
    for shape in SHAPES {
        for tsz in 16..=39 {
            let bits = 64 - u32::from(tsz);
            for address in [SOME, !SOME, u64::MAX] {
                let inside = low(address, bits);
                for address in [inside, inside | u64::MAX << bits] {
                    let way = Way::new(shape, tsz, address);
                    way.leads_to(way.last(), CLEAN);
                }
            }
        }
    }
}

#[test]
fn the_ends_of_a_range() {
    for shape in SHAPES {
        for tsz in 16..=39 {
            let way = Way::new(shape, tsz, 0);
            let mut memory = way.memory(0, 0);
            let mut told = |address| {
                let access = Access::read(VirtAddr(address), 1);
                let answer = walk(&mut memory, &way.regime(), &access);
                let fault = answer.unwrap_err().fault().unwrap();
                assert_eq!(fault.kind, FaultKind::Translation);
                (fault.level, fault.reads)
            };
            let inside = (way.levels[0].level, 1);
            let size = 1_u64 << (64 - tsz);
            assert_eq!(told(size - 1), inside);
            assert_eq!(told(size), (0, 0));
            assert_eq!(told(size.wrapping_neg()), inside);
            assert_eq!(told(size.wrapping_neg() - 1), (0, 0));
        }
    }
}

#[test]
fn blocks() {
    // Bits 1..0 = 01 at every level: below tables, and as the first.
    for shape in SHAPES {
        for tsz in 16..=39 {
            let way = Way::new(shape, tsz, low(SOME, 64 - u32::from(tsz)));
            for (place, level) in way.levels.iter().enumerate() {
                if level.blocks {
                    way.leads_to(place, CLEAN & !2);
                } else {
                    way.ends_at(place, CLEAN & !2);
                }
            }
        }
    }
}

#[test]
fn the_bits_of_a_leafs_address() {
    // Those from 47 down to the level's lowest index bit; the address is the
    // first that the leaf maps.
    for shape in SHAPES {
        let way = Way::new(shape, 16, 0);
        for (place, level) in way.levels.iter().enumerate() {
            let page = level.level == 3;
            if !page && !level.blocks {
                continue;
            }
            let leaf = (CLEAN & !ADDRESS_BITS & !2) | u64::from(page) << 1;
            for bit in 12..48 {
                let leaf = leaf | 1 << bit;
                let counts = bit >= level.index.1;
                assert_eq!(way.output(place, leaf), u64::from(counts) << bit);
                way.leads_to(place, leaf);
            }
            way.leads_to(place, leaf | ADDRESS_BITS);
        }
    }
}

/// Asks in a walk, and in a session that holds the page or not.
fn asked(way: &Way, access: Access) -> Answer {
    let mut memory = way.memory(way.last(), CLEAN | AF);
    let answer = walk(&mut memory, &way.regime(), &access);
    let mut session = Both::new();
    session.set_regime(&memory, &way.regime()).unwrap();
    assert_eq!(session.access(&mut memory, &access), answer);
    let page = Access::read(VirtAddr(way.address), 1);
    session.access(&mut memory, &page).unwrap();
    let held = session.access(&mut memory, &access);
    let uncounted = answer.map(|found| Translation { reads: 0, ..found });
    assert_eq!(held, uncounted);
    answer
}

#[test]
fn an_access_lies_in_one_page() {
    for shape in SHAPES {
        let bytes = shape.0.bytes();
        let way = Way::new(shape, 16, 3 * bytes);
        let end = way.address + bytes;
        let across = Err(Stop::Refused(Refusal::PageCrossing));
        for size in [2, 4, 8, 16] {
            let at = |address| asked(&way, Access::read(VirtAddr(address), size));
            for inner in (way.address + 4096..end).step_by(4096) {
                assert!(at(inner - 1).is_ok());
            }
            assert!(at(end - size).is_ok());
            assert_eq!(at(end - size + 1), across);
            assert_eq!(at(end - 1), across);
            assert_eq!(at(way.address - 1), across);
            assert_eq!(at(u64::MAX), across);
        }
    }
}

/// The refusal of a walk and of a set regime.
fn refused(memory: &mut [u8], regime: &Regime) -> Option<Refusal> {
    let walked = walk(memory, regime, &read());
    let set = Session::new().set_regime(memory, regime).err();
    assert_eq!(walked.err().and_then(Stop::refusal), set);
    set
}

#[test]
fn what_is_to_be_a_multiple() {
    type Change = fn(&mut Regime, u64);
    let changes: [(Change, Refusal); 5] = [
        (|r, by| r.pool.start += by as usize, Refusal::MemoryPool),
        (|r, by| r.pool.length -= by as usize, Refusal::MemoryPool),
        (|r, by| r.pool.address.0 += by, Refusal::PoolAddress),
        (|r, by| r.range0.root.0 += by, Refusal::Root),
        (|r, by| r.range1.root.0 += by, Refusal::Root),
    ];
    for granule in Granule::ALL {
        let bytes = granule.bytes();
        let length = 2 * bytes as usize;
        let regime = regime().granule(granule);
        let regime = regime.pool(Pool::new(0, length, PhysAddr(POOL)));
        let mut memory = vec![0; 2 * length];
        for (change, refusal) in changes {
            for by in [8, 2048, 4096, 8192, 16_384, 32_768, 65_536] {
                let mut regime = regime;
                change(&mut regime, by.min(bytes));
                let expected = (by < bytes).then_some(refusal);
                assert_eq!(refused(&mut memory, &regime), expected);
            }
        }
    }
}

#[test]
fn the_end_of_the_largest_pool() {
    // Its last descriptor is a leaf, and so is the next, which is past it.
    for shape in SHAPES {
        let Way { granule, .. } = Way::new(shape, 16, 0);
        let (bytes, end) = (granule.bytes(), POOL + POOL_LIMIT as u64);
        let next = 1 << shape.1[shape.1.len() - 2].index.1;
        let way = Way::new(shape, 16, next - 1);
        let beyond = Way::new(shape, 16, next);
        let above = way.last() - 1;

        let mut memory = way.memory(above, (end - bytes) | 3);
        memory.resize(POOL_LIMIT + bytes as usize, 0);
        put(&mut memory, beyond.offset(above), end | 3);
        put(&mut memory, POOL_LIMIT - 8, CLEAN);
        put(&mut memory, POOL_LIMIT, CLEAN);
        let of = |length| way.regime().pool(Pool::new(0, length, PhysAddr(POOL)));

        let found = walk(&mut memory, &of(POOL_LIMIT), &way.write()).unwrap();
        assert_eq!(found.output.0, way.output(way.last(), CLEAN));
        assert_eq!(get(&memory, POOL_LIMIT - 8), (CLEAN | AF) & !AP2);
        let answer = walk(&mut memory, &of(POOL_LIMIT), &beyond.write());
        let fault = answer.unwrap_err().fault().unwrap();
        assert_eq!(fault.kind, FaultKind::ExternalAbort);
        assert_eq!(get(&memory, POOL_LIMIT), CLEAN);

        let longer = of(POOL_LIMIT + bytes as usize);
        assert_eq!(refused(&mut memory, &longer), Some(Refusal::MemoryPool));
    }
}

#[test]
fn entries_hold_pages_of_the_granule() {
    for shape in SHAPES {
        let bytes = shape.0.bytes();
        let page = |number: u64| Way::new(shape, 16, number * bytes);
        let mut memory = page(0).memory(page(0).last(), 0);
        let (first, next, same) = (page(3), page(4), page(3 + 64));
        for way in [&first, &next, &same] {
            put(&mut memory, way.offset(way.last()), CLEAN | AF);
        }
        let mut session = Both::new();
        session.set_regime(&memory, &first.regime()).unwrap();
        let mut reads = |way: &Way, offset| {
            let read = Access::read(VirtAddr(way.address + offset), 8);
            session.access(&mut memory, &read).unwrap().reads
        };
        let walked = first.levels.len() as u8;
        for way in [&first, &next] {
            assert_eq!(reads(way, 0), walked);
            assert_eq!(reads(way, bytes - 8), 0);
        }
        assert_eq!(reads(&first, bytes / 2), 0);
        assert_eq!(reads(&same, 0), walked);
        assert_eq!(reads(&first, 0), walked);
        assert_eq!(reads(&next, bytes / 2), 0);
    }
}

#[test]
fn a_page_is_not_taken_for_another() {
    // The address of page 64 has the number of the held page in pages of 4 KiB,
    // and both have the same entry.
    for shape in SHAPES {
        let bytes = shape.0.bytes();
        let number = 64 * bytes / 4096;
        let held = Way::new(shape, 16, number * bytes);
        let other = Way::new(shape, 16, number * 4096);
        let mut memory = held.memory(held.last(), CLEAN | AF);
        let mut session = Both::new();
        session.set_regime(&memory, &held.regime()).unwrap();
        session.access(&mut memory, &held.write()).unwrap();
        let answer = session.access(&mut memory, &other.write());
        assert_eq!(answer.is_ok(), held.address == other.address);
    }
}

#[test]
fn another_granule_over_the_same_memory() {
    // With T 39 the address has another entry of the root, a leaf, for each.
    let regimes = SHAPES.map(|shape| Way::new(shape, 39, 0x1_2340));
    let mut memory = vec![0; 0x1_0000];
    for way in &regimes {
        let page = u64::from(way.levels[0].level == 3) << 1;
        put(&mut memory, way.offset(0), (CLEAN | AF) & !2 | page);
    }
    let of = |way: &Way| regime().range0(way.regime().range0).granule(way.granule);
    let mut session = Both::new();
    for from in &regimes {
        for to in &regimes {
            for way in [from, to] {
                // Set, it empties every entry; refused, it does not.
                session.set_regime(&memory, &of(way)).unwrap();
                let read = Access::read(VirtAddr(way.address), 4);
                let found = session.access(&mut memory, &read).unwrap();
                assert_eq!((found.reads, found.level), (1, way.levels[0].level));
                assert_eq!(found.output.0, way.output(0, CLEAN));
                let bad = session.set_regime(&memory, &of(to).ha(false));
                assert_eq!(bad, Err(Refusal::DirtyState));
                let held = session.access(&mut memory, &read).unwrap();
                assert_eq!(held, Translation { reads: 0, ..found });
            }
        }
    }
}

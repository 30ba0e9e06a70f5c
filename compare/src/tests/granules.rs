//! The granules (RULES 3.1 and 6.2): the customer's rows held against each
//! other, and walks and sessions of 16 and 64 KiB worked by hand.

use super::{access, fault, start, success, write_descriptor, POOL};
use crate::cases::scene::{draw_access, draw_granule_size, short_pool};
use crate::geometry::{Granule, GREATEST_T, LAST_LEVEL, LEAST_T};
use crate::granules::{across, apart, with_granule, Field, Granular};
use crate::limits::longest_pool;
use crate::random::Random;
use crate::reference::{walk, Access, Answer, Kind, Regime, Walk};
use crate::refusals;
use crate::session::{first_of, page_of, place_of, Session, Way};
use std::collections::BTreeSet;
use Granule::{Kib16, Kib4, Kib64};

// ------------------------------------------------------------------ the rows

#[test]
fn pages_and_tables_have_one_size() {
    assert_eq!(Granule::ALL.map(Granule::bytes), [4096, 16_384, 65_536]);
    assert_eq!(Granule::ALL.map(Granule::page_bits), [12, 14, 16]);
    for granule in Granule::ALL {
        let (highest, lowest) = granule.index_range(LAST_LEVEL);
        assert_eq!(lowest, granule.page_bits());
        assert_eq!(8 << (highest - lowest + 1), granule.bytes());
    }
}

/// From bit 47 down to the page there is no gap, and below the first level all
/// tables are whole.
#[test]
fn index_bits_stand_side_by_side() {
    for granule in Granule::ALL {
        let levels: Vec<u8> = granule.levels().collect();
        assert_eq!(granule.index_range(levels[0]).0, 47);
        for pair in levels.windows(2) {
            assert_eq!(pair[0] + 1, pair[1]);
            let (highest, lowest) = granule.index_range(pair[1]);
            assert_eq!(granule.index_range(pair[0]).1, highest + 1);
            assert_eq!(8 << (highest - lowest + 1), granule.bytes());
        }
    }
}

/// Each size field has one first level: that with the highest address bit.
#[test]
fn first_levels_follow_from_size_fields() {
    for granule in Granule::ALL {
        for t in LEAST_T..=GREATEST_T {
            let rows = granule.first_levels().iter();
            let fits = rows.filter(|row| (row.1..=row.2).contains(&t));
            assert_eq!(fits.count(), 1, "{granule} {t}");
            let (highest, lowest) = granule.index_range(granule.first_level(t));
            let top = 63 - u32::from(t);
            assert!((lowest..=highest).contains(&top), "{granule} {t}");
            let bits = granule.index_bits(t, granule.first_level(t));
            assert_eq!(bits, top + 1 - lowest, "{granule} {t}");
        }
    }
}

#[test]
fn levels_with_leaves() {
    let of = |granule: Granule| granule.leaf_levels().collect::<Vec<u8>>();
    assert_eq!(of(Kib4), [1, 2, 3]);
    assert_eq!([of(Kib16), of(Kib64)], [[2, 3], [2, 3]]);
    let ways = |granule: Granule| granule.ways().count();
    assert_eq!(Granule::ALL.map(ways), [8, 7, 5]);
}

#[test]
fn fields_of_descriptors() {
    assert_eq!(Kib4.table_field(), 0xFFFF_FFFF_F000);
    assert_eq!(Kib16.table_field(), 0xFFFF_FFFF_C000);
    assert_eq!(Kib64.table_field(), 0xFFFF_FFFF_0000);
    for (granule, level, field) in [
        (Kib4, 1, 0xFFFF_C000_0000),
        (Kib4, 2, 0xFFFF_FFE0_0000),
        (Kib16, 2, 0xFFFF_FE00_0000),
        (Kib64, 2, 0xFFFF_E000_0000),
    ] {
        assert_eq!(granule.leaf_field(level), field, "{granule} {level}");
    }
    for granule in Granule::ALL {
        assert_eq!(granule.leaf_field(LAST_LEVEL), granule.table_field());
    }
}

// ----------------------------------------------------------------- the walk

/// A way worked by hand, for T 16 and a root where the pool starts. Each index
/// has its highest bit set, and each descriptor bits below its address.
struct Worked {
    granule: Granule,
    address: u64,
    length: usize,
    descriptors: &'static [(usize, u64)],
    output: u64,
    /// The output where the descriptor of level 2 is `BLOCK`.
    of_block: u64,
}

/// A block of level 2 with bits 47..12 of an address.
const BLOCK: u64 = 0x0008_1234_7F5A_53C1;

const SMALL: Worked = Worked {
    granule: Kib16,
    address: 1 << 47 | 0x401 << 36 | 0x602 << 25 | 0x703 << 14 | 0x2ABC,
    length: 0x1_0000,
    descriptors: &[
        (0x0008, 0x4000_7003),
        (0x6008, 0x4000_9003),
        (0xB010, 0x4000_E003),
        (0xF818, 0x0008_0000_8000_73C3),
    ],
    output: 0x8000_6ABC,
    of_block: 0x1234_7FC0_EABC,
};

const LARGE: Worked = Worked {
    granule: Kib64,
    address: 0x23 << 42 | 0x1801 << 29 | 0x1003 << 16 | 0xABCC,
    length: 0x3_0000,
    descriptors: &[
        (0x0_0118, 0x4001_F003),
        (0x1_C008, 0x4002_5003),
        (0x2_8018, 0x0008_0000_8005_53C3),
    ],
    output: 0x8005_ABCC,
    of_block: 0x1234_7003_ABCC,
};

impl Worked {
    fn start(&self) -> (Vec<u8>, Regime) {
        let (_, mut regime) = start();
        regime.granule = self.granule;
        regime.pool.length = self.length;
        let mut memory = vec![0; self.length];
        for &(offset, descriptor) in self.descriptors {
            write_descriptor(&mut memory, offset, descriptor);
        }
        (memory, regime)
    }

    fn access(&self, kind: Kind) -> Access {
        Access {
            address: self.address,
            ..access(kind)
        }
    }

    /// A walk with one descriptor changed.
    fn with(&self, step: usize, descriptor: u64) -> Walk {
        let (mut memory, regime) = self.start();
        write_descriptor(&mut memory, self.descriptors[step].0, descriptor);
        walk(&mut memory, &regime, &self.access(Kind::Read))
    }
}

#[test]
fn a_page_of_each_granule() {
    for worked in [SMALL, LARGE] {
        let (mut memory, regime) = worked.start();
        let walk = walk(&mut memory, &regime, &worked.access(Kind::Write));
        let success = success(&walk);
        assert_eq!(success.output, worked.output);
        assert_eq!((success.level, success.accessed), (3, true));
        let entries = worked.descriptors.iter().map(|row| POOL + row.0 as u64);
        assert!(walk.visited.iter().copied().eq(entries), "{walk:x?}");
    }
}

#[test]
fn blocks_at_level_2_alone() {
    for worked in [SMALL, LARGE] {
        let count = worked.descriptors.len();
        let block = worked.with(count - 2, BLOCK);
        assert_eq!(success(&block).output, worked.of_block);
        assert_eq!(success(&block).level, 2);
        for step in (0..count).filter(|step| *step != count - 2) {
            let level = 4 - count + step;
            let told = fault(&worked.with(step, worked.descriptors[step].1 & !2));
            let wanted = (4 + level as u16, level as u8, false, step as u8 + 1);
            assert_eq!(told, wanted, "{}", worked.granule);
        }
    }
}

/// At the first level an index has the bits below 64 - T alone.
#[test]
fn indices_are_cut_at_the_first_level() {
    for (granule, t, level, bits) in [
        (Kib16, 16, 0, 1),
        (Kib16, 17, 1, 11),
        (Kib16, 27, 1, 1),
        (Kib16, 38, 2, 1),
        (Kib16, 39, 3, 11),
        (Kib64, 16, 1, 6),
        (Kib64, 21, 1, 1),
        (Kib64, 22, 2, 13),
        (Kib64, 34, 2, 1),
        (Kib64, 35, 3, 13),
        (Kib64, 39, 3, 9),
    ] {
        assert_eq!(granule.first_level(t), level, "{granule} {t}");
        assert_eq!(granule.index_bits(t, level), bits, "{granule} {t}");
        assert_eq!(granule.index(t, level, u64::MAX), (1 << bits) - 1);
    }
}

// ----------------------------------------------------------------- refusals

#[test]
fn rows_1_2_and_4_go_by_the_granule() {
    type Change = fn(&mut Regime, u64);
    let changes: [(u8, Change); 5] = [
        (1, |regime, off| regime.pool.start = off as usize),
        (1, |regime, off| regime.pool.length -= off as usize),
        (2, |regime, off| regime.pool.address += off),
        (4, |regime, off| regime.ranges[0].root += off),
        (4, |regime, off| regime.ranges[1].root += off),
    ];
    for ((row, change), field) in changes.into_iter().zip(Field::ALL) {
        for (granule, off) in Granule::ALL.map(|g| Granule::ALL.map(|o| (g, o))).concat() {
            let (_, mut regime) = start();
            regime.granule = granule;
            regime.pool.length = 0x4_0000;
            change(&mut regime, off.bytes());
            let refusal = refusals::of_set_regime(0x8_0000, &regime);
            assert_eq!(refusal, (off < granule).then_some(row), "{granule} {off}");
            let told = Field::off(&regime, row, |_| false);
            assert_eq!(told, (off < granule).then_some((field, off)));
        }
    }
}

#[test]
fn row_7_goes_by_the_granule() {
    let (_, regime) = start();
    for (last, crossed) in [
        (0x0FFF, vec![Kib4]),
        (0x2FFF, vec![Kib4]),
        (0x3FFF, vec![Kib4, Kib16]),
        (0xBFFF, vec![Kib4, Kib16]),
        (0xFFFF, vec![Kib4, Kib16, Kib64]),
    ] {
        let asked = Access {
            address: last - 1,
            ..access(Kind::Read)
        };
        for granule in Granule::ALL {
            let regime = with_granule(&regime, granule);
            let refused = refusals::of_access(0x1_0000, Some(&regime), &asked) == Some(7);
            assert_eq!(refused, crossed.contains(&granule), "{last:x} {granule}");
        }
        let smaller = crossed.iter().copied().filter(|granule| *granule != Kib64);
        if !crossed.contains(&Kib64) {
            assert!(across(Kib64, &asked).eq(smaller));
        }
        let whole = Granule::ALL
            .into_iter()
            .filter(|granule| !crossed.contains(granule));
        assert!(apart(Kib4, &asked).eq(whole));
    }
}

// ---------------------------------------------------------------- in a session

#[test]
fn pages_and_places_go_by_the_granule() {
    let address = 0x0012_3456_789A_BCDE;
    let pages = Granule::ALL.map(|granule| page_of(granule, address));
    assert_eq!(pages, [0x0123_4567_89AB, 0x48_D159_E26A, 0x12_3456_789A]);
    assert_eq!(pages.map(place_of), [43, 42, 26]);
    for granule in Granule::ALL {
        let page = page_of(granule, address);
        assert_eq!(first_of(granule, page), granule.floor(address));
        assert_eq!(granule.floor(address), address & !(granule.bytes() - 1));
    }
}

/// A session over tables of 64 KiB, and a read of the worked page.
fn session_of_large() -> (Session, Vec<u8>, Regime) {
    let (mut memory, regime) = LARGE.start();
    // Pages 4 and 64 further on.
    for further in [4, 64] {
        let (leaf, descriptor) = LARGE.descriptors[2];
        write_descriptor(&mut memory, leaf + 8 * further, descriptor);
    }
    let mut session = Session::FRESH;
    assert_eq!(session.set_regime(memory.len(), &regime), None);
    let (answer, _) = session.access(&mut memory, &LARGE.access(Kind::Read));
    assert_eq!(reads(answer), 3);
    (session, memory, regime)
}

fn reads(answer: Answer) -> u8 {
    match answer {
        Answer::Success(success) => success.reads,
        other => panic!("{other:?} is no success"),
    }
}

fn read_at(address: u64) -> Access {
    Access {
        address,
        ..access(Kind::Read)
    }
}

#[test]
fn a_held_page_is_one_of_the_granule() {
    let (mut session, mut memory, _) = session_of_large();
    let page = Kib64.floor(LARGE.address);
    for offset in [0, 0x1000, 0x4000, 0x8FFE, 0xFFFC] {
        let (answer, way) = session.access(&mut memory, &read_at(page + offset));
        assert_eq!(reads(answer), 0, "{offset:x}");
        assert!(matches!(way, Way::Held));
    }
    // With 4 KiB it would share the place.
    let (answer, _) = session.access(&mut memory, &read_at(page + (4 << 16)));
    assert_eq!(reads(answer), 3);
    assert_eq!(reads(session.access(&mut memory, &read_at(page)).0), 0);
    // And here it does.
    let (answer, _) = session.access(&mut memory, &read_at(page + (64 << 16)));
    assert_eq!(reads(answer), 3);
    assert_eq!(reads(session.access(&mut memory, &read_at(page)).0), 3);
}

#[test]
fn another_granule_empties_all_places() {
    let (mut session, mut memory, regime) = session_of_large();
    let number = page_of(Kib64, LARGE.address);
    let smaller = with_granule(&regime, Kib4);
    assert_eq!(session.set_regime(memory.len(), &smaller), None);
    assert_eq!(session.places, Session::FRESH.places);
    // The same address, and the page that has the number of the one held.
    for address in [LARGE.address, first_of(Kib4, number)] {
        let (answer, way) = session.access(&mut memory, &read_at(address));
        assert!(matches!(answer, Answer::Fault(_)), "{answer:?}");
        assert!(matches!(way, Way::Walked(_)));
    }
    assert_eq!(session.set_regime(memory.len(), &regime), None);
    let (answer, _) = session.access(&mut memory, &LARGE.access(Kind::Read));
    assert_eq!(reads(answer), 3);
}

// --------------------------------------------------------------- what is drawn

#[test]
fn shares_of_the_granules() {
    let mut random = Random::new(1);
    let mut counts = [0; 3];
    for _ in 0..9000 {
        counts[draw_granule_size(&mut random) as usize] += 1;
    }
    for (count, wanted) in counts.into_iter().zip([6000, 2000, 1000]) {
        assert!(count * 10 > wanted * 9, "{counts:?}");
    }
    assert_eq!(Granule::ALL.map(longest_pool), [256, 64, 16]);
    assert!(Granule::ALL
        .map(short_pool)
        .iter()
        .all(|(most, few)| most >= few));
}

/// Accesses that are never refused, and cross borders of each smaller page.
#[test]
fn accesses_within_a_page() {
    let mut random = Random::new(1);
    let (_, regime) = start();
    for granule in Granule::ALL {
        let regime = with_granule(&regime, granule);
        let mut crossed = BTreeSet::new();
        for _ in 0..2000 {
            let asked = draw_access(&mut random, granule, LARGE.address);
            assert_eq!(
                page_of(granule, asked.address),
                page_of(granule, LARGE.address)
            );
            assert_eq!(refusals::of_access(0x1_0000, Some(&regime), &asked), None);
            crossed.extend(across(granule, &asked));
        }
        assert!(crossed.into_iter().eq(granule.smaller()));
    }
}

#[test]
fn what_is_counted_under_each_granule() {
    for worked in [SMALL, LARGE] {
        let (memory, regime) = worked.start();
        let asked = worked.access(Kind::Write);
        let walk = walk(&mut memory.clone(), &regime, &asked);
        let met = Granular::of(&memory, &regime, &asked, &walk);
        let all = Granular::all(worked.granule);
        assert!(met.iter().all(|what| all.contains(what)), "{met:?}");
        let first = regime.granule.first_level(16);
        assert!(met.contains(&Granular::Success(first, 3)));
        assert!(met.contains(&Granular::SizeField(0, 16)));
        assert!(met.contains(&Granular::BelowLeaf(3, 12)));
        assert!(met.contains(&Granular::Marks(0, false, false)));
        let places = [47, worked.granule.page_bits()];
        assert!(met.contains(&Granular::Index(first, places[0])));
        assert!(met.contains(&Granular::Index(3, places[1])));
    }
}

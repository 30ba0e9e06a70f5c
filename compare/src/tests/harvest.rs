//! The harvest, worked by hand from the numbers of the worked cases (RULES 12):
//! page 0x403 has its leaf at 0x40003018. Then all made harvests, with a second
//! way to search the tables; and that slips are told.

use super::{access, read_descriptor, start, write_descriptor, LEAF_OFFSET, POOL};
use crate::boundary::{Harvester, Spelling};
use crate::geometry::Granule;
use crate::harvest::{harvest, pages_of, Fill, Harvest, Second, Trial, MOST_PAGES};
use crate::random::Random;
use crate::reference::{
    self, offset_in_memory, output_limit, pool_reader, Found, Kind, Regime, AF, AP2, DBM,
};
use crate::refusals;
use crate::session::{first_of, Session};

/// The leaf with AF 1 and AP[2] 0, as a write leaves it.
const DIRTY: u64 = 0x0008_0000_8000_5743;
/// The same set again.
const CLEAN: u64 = 0x0008_0000_8000_57C3;

fn asked(first: u64, count: u64, room: usize) -> Harvest {
    Harvest {
        first,
        count,
        room,
        fill: Fill::Byte(0xA5),
    }
}

/// The tables of the worked cases with a dirty page.
fn dirty() -> (Vec<u8>, Regime) {
    let (mut memory, regime) = start();
    write_descriptor(&mut memory, LEAF_OFFSET, DIRTY);
    (memory, regime)
}

/// A harvest that is accepted: its map.
fn reap(memory: &mut [u8], regime: &Regime, asked: &Harvest) -> Vec<u8> {
    let mut map = asked.map();
    assert_eq!(harvest(memory, regime, asked, &mut map), None, "{asked:?}");
    map
}

/// One that is refused, which changes nothing.
fn refusal(regime: &Regime, asked: &Harvest) -> u8 {
    let (mut memory, _) = dirty();
    let (before, mut map) = (memory.clone(), asked.map());
    let number = harvest(&mut memory, regime, asked, &mut map);
    assert_eq!((memory, map), (before, asked.map()));
    number.unwrap_or(0)
}

/// The numbers of the pages that are reported.
fn told(map: &[u8], asked: &Harvest) -> Vec<u64> {
    let is_set = |n: &u64| map[*n as usize / 8] >> (n % 8) & 1 == 1;
    let numbers = (0..asked.count).filter(is_set);
    numbers.map(|n| asked.first + n).collect()
}

#[test]
fn a_written_page_is_reported_once() {
    let (mut memory, regime) = start();
    reference::walk(&mut memory, &regime, &access(Kind::Write));
    let one = asked(0x403, 1, 1);
    assert_eq!(reap(&mut memory, &regime, &one), [1]);
    assert_eq!(read_descriptor(&memory, LEAF_OFFSET), CLEAN);
    assert_eq!(reap(&mut memory, &regime, &one), [0]);
    reference::walk(&mut memory, &regime, &access(Kind::Write));
    assert_eq!(read_descriptor(&memory, LEAF_OFFSET), DIRTY);
    assert_eq!(reap(&mut memory, &regime, &one), [1]);
}

#[test]
fn bits_and_bytes_of_the_map() {
    for (first, count, room, wanted) in [
        (0x403, 3, 1, &[0x01][..]),
        (0x402, 3, 2, &[0x02, 0xA5]),
        (0x3FC, 8, 3, &[0x80, 0xA5, 0xA5]),
        (0x3FB, 9, 2, &[0x00, 0x01]),
        (0x3FB, 10, 4, &[0x00, 0x01, 0xA5, 0xA5]),
        (0x404, 8, 1, &[0x00]),
    ] {
        let (mut memory, regime) = dirty();
        let asked = asked(first, count, room);
        assert_eq!(reap(&mut memory, &regime, &asked), wanted, "{asked:?}");
    }
}

#[test]
fn what_a_leaf_must_have() {
    for (place, told) in [(AF, 0), (DBM, 0), (AP2, 0), (6, 1), (11, 1), (53, 1)] {
        let (mut memory, mut regime) = dirty();
        (regime.ha, regime.hd) = (false, false);
        let leaf = DIRTY ^ 1 << place;
        write_descriptor(&mut memory, LEAF_OFFSET, leaf);
        let map = reap(&mut memory, &regime, &asked(0x403, 1, 1));
        assert_eq!(map, [told], "{place}");
        let after = if told == 1 { leaf | 1 << AP2 } else { leaf };
        assert_eq!(read_descriptor(&memory, LEAF_OFFSET), after, "{place}");
    }
}

/// Only one byte of the memory changes, and in the other order another one.
#[test]
fn nothing_else_changes() {
    for (ee, at) in [(false, LEAF_OFFSET), (true, LEAF_OFFSET + 7)] {
        let (mut memory, mut regime) = dirty();
        regime.ee = ee;
        if ee {
            memory.chunks_mut(8).for_each(<[u8]>::reverse);
        }
        let mut wanted = memory.clone();
        wanted[at] |= 0x80;
        assert_eq!(reap(&mut memory, &regime, &asked(0x400, 8, 1)), [8]);
        assert!(memory == wanted);
    }
}

/// Page 0x400 has a block of 512 pages, in place of the third table.
#[test]
fn blocks_are_whole_or_stick_out() {
    let block = DIRTY & !(0x1F_F000) & !2;
    for (first, count, whole) in [
        (0x400, 512, true),
        (0x3FF, 514, true),
        (0x400, 511, false),
        (0x401, 511, false),
        (0x401, 600, false),
        (0x300, 511, false),
        (0x480, 1, false),
    ] {
        let (mut memory, regime) = dirty();
        write_descriptor(&mut memory, 0x2010, block);
        let asked = asked(first, count, 80);
        let map = reap(&mut memory, &regime, &asked);
        let end = (first + count).min(0x600);
        let wanted: Vec<u64> = (first.max(0x400)..end).collect();
        assert_eq!(told(&map, &asked), wanted);
        let clean = block | u64::from(whole) << AP2;
        assert_eq!(read_descriptor(&memory, 0x2010), clean, "{asked:?}");
    }
}

/// Two entries lead to the table of pages.
#[test]
fn a_shared_leaf_is_reported_for_each_page() {
    let (mut memory, regime) = dirty();
    write_descriptor(&mut memory, 0x2018, 0x4000_3003);
    let asked = asked(0x400, 1024, 128);
    let map = reap(&mut memory, &regime, &asked);
    assert_eq!(told(&map, &asked), [0x403, 0x603]);
    assert_eq!(read_descriptor(&memory, LEAF_OFFSET), CLEAN);
}

/// The last entry but one of the second table leads to that table, so its last
/// one is a block of level 1, which sticks out, and one of level 2.
#[test]
fn whole_on_one_path_is_enough() {
    let block = 0x0008_0000_8000_0741;
    let own = |memory: &mut [u8]| {
        write_descriptor(memory, 0x1000 + 8 * 510, 0x4000_1003);
        write_descriptor(memory, 0x1000 + 8 * 511, block);
    };
    let (level_1, level_2) = (511 << 18, 510 << 18 | 511 << 9);
    for (first, count, whole) in [
        (level_2, 513, true),
        (level_2, 512, true),
        (level_2 + 1, 512, false),
        (level_1, 1000, false),
    ] {
        let (mut memory, regime) = start();
        own(&mut memory);
        let asked = asked(first, count, 200);
        let map = reap(&mut memory, &regime, &asked);
        assert_eq!(told(&map, &asked).len() as u64, count);
        let clean = block | u64::from(whole) << AP2;
        assert_eq!(read_descriptor(&memory, 0x1FF8), clean, "{asked:?}");
    }
}

/// A table that maps itself as a page stays the table that it is.
#[test]
fn a_table_can_be_a_page() {
    let (mut memory, regime) = start();
    let own = 0x4000_2003 | 1 << AF | 1 << DBM;
    write_descriptor(&mut memory, 0x2010, own);
    let asked = asked(0x402, 1, 1);
    assert_eq!(reap(&mut memory, &regime, &asked), [1]);
    assert_eq!(read_descriptor(&memory, 0x2010), own | 1 << AP2);
    assert_eq!(reap(&mut memory, &regime, &asked), [0]);
}

#[test]
fn what_has_no_leaf_is_not_reported() {
    let changes: [fn(&mut Vec<u8>, &mut Regime); 6] = [
        |_, regime| regime.ranges[0].disabled = true,
        |_, regime| (regime.output_code, regime.ranges[0].root) = (0, 1 << 32),
        |memory, regime| {
            regime.output_code = 0;
            write_descriptor(memory, LEAF_OFFSET, DIRTY | 1 << 32);
        },
        |memory, _| write_descriptor(memory, 0x2010, 0x4001_0003),
        |memory, _| write_descriptor(memory, 0x1000, 0x4000_2002),
        |memory, _| write_descriptor(memory, LEAF_OFFSET, DIRTY & !2),
    ];
    for (number, change) in changes.iter().enumerate() {
        let (mut memory, mut regime) = dirty();
        change(&mut memory, &mut regime);
        let before = memory.clone();
        let map = reap(&mut memory, &regime, &asked(0x400, 8, 1));
        assert_eq!((map, memory), (vec![0], before), "{number}");
    }
}

/// The tables' bits and HPD have no say.
#[test]
fn tables_take_nothing_away() {
    for hpd in [false, true] {
        let (mut memory, mut regime) = dirty();
        regime.ranges[0].hpd = hpd;
        write_descriptor(&mut memory, 0, 0x4000_1003 | 0x1F << 59);
        assert_eq!(reap(&mut memory, &regime, &asked(0x403, 1, 1)), [1]);
        assert_eq!(read_descriptor(&memory, LEAF_OFFSET), CLEAN);
    }
}

#[test]
fn pages_of_the_ranges() {
    let (_, mut regime) = start();
    (regime.ranges[0].t, regime.ranges[1].t) = (36, 25);
    assert_eq!(pages_of(&regime, 0), 0..1 << 16);
    assert_eq!(pages_of(&regime, 1), (1 << 52) - (1 << 27)..1 << 52);
    regime.granule = Granule::Kib64;
    assert_eq!(pages_of(&regime, 0), 0..1 << 12);
    assert_eq!(pages_of(&regime, 1), (1 << 48) - (1 << 23)..1 << 48);
    // Size fields that row 3 refuses.
    (regime.ranges[0].t, regime.ranges[1].t) = (0, 255);
    assert_eq!(pages_of(&regime, 0), 0..1 << 48);
    assert_eq!(pages_of(&regime, 1), 1 << 48..1 << 48);
}

#[test]
fn first_pages_and_counts() {
    let (_, mut regime) = start();
    (regime.ranges[0].t, regime.ranges[1].t) = (36, 39);
    let (end, upper, last) = (1 << 16, (1 << 52) - (1 << 13), (1 << 52) - 1);
    for (first, count, wanted) in [
        (0, MOST_PAGES, 0),
        (0, MOST_PAGES + 1, 10),
        (0, 0, 10),
        (0, u64::MAX, 10),
        (1, MOST_PAGES, 10),
        (1, MOST_PAGES - 1, 0),
        (end - 1, 1, 0),
        (end - 1, 2, 10),
        (end, 1, 10),
        (1 << 51, 1, 10),
        (upper - 1, 2, 10),
        (upper, 1 << 13, 0),
        (upper, (1 << 13) + 1, 10),
        (last, 1, 0),
        (last, 2, 10),
        (last + 1, 1, 10),
        (1 << 63, 1, 10),
        (u64::MAX, 1, 10),
        (u64::MAX, u64::MAX, 10),
    ] {
        let asked = asked(first, count, 8192);
        let (mut memory, _) = dirty();
        let number = harvest(&mut memory, &regime, &asked, &mut asked.map());
        assert_eq!(number.unwrap_or(0), wanted, "{asked:?}");
    }
}

#[test]
fn rooms() {
    let (_, regime) = dirty();
    for (count, least) in [(1, 1), (8, 1), (9, 2), (16, 2), (MOST_PAGES, 8192)] {
        assert_eq!(refusal(&regime, &asked(0, count, least - 1)), 11);
        assert_eq!(refusal(&regime, &asked(0, count, 0)), 11);
        let enough = asked(0, count, least);
        assert_eq!(refusals::of_harvest(65_536, &regime, &enough), None);
    }
    // 10 comes first; and no page needs no map.
    assert_eq!(refusal(&regime, &asked(0, 0, 0)), 10);
    assert_eq!(refusal(&regime, &asked(1 << 40, 9, 1)), 10);
}

#[test]
fn a_session_is_emptied() {
    let (mut memory, regime) = start();
    let (good, bad) = (asked(0x400, 8, 1), asked(0x400, 9, 1));
    let mut session = Session::FRESH;
    assert_eq!(session.harvest(&mut memory, &good, &mut [0]), Some(9));
    session.set_regime(memory.len(), &regime);
    session.access(&mut memory, &access(Kind::Write));
    let before = session.clone();
    let mut map = [0xA5];
    assert_eq!(session.harvest(&mut memory, &bad, &mut map), Some(11));
    assert_eq!(session.harvest(&mut memory[1..], &good, &mut map), Some(1));
    assert_eq!((&session, map), (&before, [0xA5]));
    assert_eq!(session.harvest(&mut memory, &good, &mut map), None);
    assert_eq!(map, [8]);
    let empty = Session {
        places: Session::FRESH.places,
        ..before
    };
    assert_eq!(session, empty);
    // What was held as dirty is marked again.
    session.access(&mut memory, &access(Kind::Write));
    assert_eq!(read_descriptor(&memory, LEAF_OFFSET), DIRTY);
}

/// All rows under the session's regime, which only any bytes can say.
#[test]
fn a_session_asks_its_regime() {
    let (mut memory, mut regime) = start();
    regime.attributes[0] = 0xF0;
    let mut session = Session {
        regime: Some(regime),
        ..Session::FRESH
    };
    let good = asked(0x400, 8, 1);
    assert_eq!(session.harvest(&mut memory, &good, &mut [0]), Some(5));
}

#[test]
fn granules_have_their_own_pages() {
    let mut memory = vec![0; 65_536];
    let leaf = 0x4003 | 1 << AF | 1 << DBM;
    write_descriptor(&mut memory, 8 * 5, leaf);
    let (_, mut regime) = start();
    (regime.granule, regime.ranges[0].t) = (Granule::Kib16, 39);
    let map = reap(&mut memory, &regime, &asked(0, 9, 2));
    assert_eq!(map, [0x20, 0]);
    assert_eq!(read_descriptor(&memory, 8 * 5), leaf | 1 << AP2);
    assert_eq!(regime.ranges[0].root, POOL);
}

// ------------------------------------------------------- table by table

/// The same harvest, table by table: an entry that points to a table sends the
/// search back in, one level down.
struct Search<'a> {
    regime: &'a Regime,
    asked: &'a Harvest,
    before: &'a [u8],
    after: &'a mut [u8],
    map: &'a mut [u8],
}

impl Search<'_> {
    /// Whether pages are among those that are asked for: one of them, or all.
    fn overlap(&self, first: u64, pages: u64) -> (bool, bool) {
        let (start, end) = (self.asked.first, self.asked.first + self.asked.count);
        let some = first < end && start < first + pages;
        (some, start <= first && first + pages <= end)
    }

    /// All entries of a table whose first page this is.
    fn table(&mut self, table: u64, level: u8, first: u64, entries: u64) {
        let granule = self.regime.granule;
        let pages = 1 << (granule.lowest_index_bit(level) - granule.page_bits());
        for entry in 0..entries {
            let start = first + entry * pages;
            if self.overlap(start, pages).0 {
                self.entry(table + 8 * entry, level, start, pages);
            }
        }
    }

    fn entry(&mut self, address: u64, level: u8, first: u64, pages: u64) {
        let regime = self.regime;
        let Some(descriptor) = pool_reader(self.before, regime)(address) else {
            return;
        };
        let limit = output_limit(regime.output_code);
        match Found::of(regime.granule, level, descriptor) {
            Found::Table(next) if next < limit => {
                let entries = regime.granule.bytes() / 8;
                self.table(next, level + 1, first, entries);
            }
            Found::Leaf(output) if output < limit => {
                self.leaf(address, descriptor, first, pages);
            }
            _ => {}
        }
    }

    fn leaf(&mut self, address: u64, descriptor: u64, first: u64, pages: u64) {
        let bits = 1 << AF | 1 << DBM | 1 << AP2;
        if descriptor & bits != 1 << AF | 1 << DBM {
            return;
        }
        let asked = self.asked;
        for page in first.max(asked.first)..(first + pages).min(asked.first + asked.count) {
            let number = page - asked.first;
            self.map[number as usize / 8] |= 1 << (number % 8);
        }
        if self.overlap(first, pages).1 {
            let at = offset_in_memory(&self.regime.pool, address).expect("it was read");
            reference::write_descriptor(self.after, at, descriptor | 1 << AP2, self.regime.ee);
        }
    }
}

struct Tablewise;

impl Harvester for Tablewise {
    fn harvest(
        &self,
        memory: &mut [u8],
        regime: &Regime,
        asked: &Harvest,
        map: &mut [u8],
        _: Spelling,
    ) -> u8 {
        if let Some(number) = refusals::of_harvest(memory.len(), regime, asked) {
            return number;
        }
        map[..asked.count.div_ceil(8) as usize].fill(0);
        let number = usize::from(first_of(regime.granule, asked.first) >> 63 == 1);
        let range = &regime.ranges[number];
        if range.disabled || range.root >= output_limit(regime.output_code) {
            return 0;
        }
        let before = memory.to_vec();
        let mut search = Search {
            regime,
            asked,
            before: &before,
            after: memory,
            map,
        };
        let level = regime.granule.first_level(range.t);
        let entries = 1 << regime.granule.index_bits(range.t, level);
        let first = pages_of(regime, number).start as u64;
        search.table(range.root, level, first, entries);
        0
    }
}

#[test]
fn harvests_meet_all_that_can_occur() {
    let mut trial = Trial::new(Tablewise, 1, false);
    trial.run_all().unwrap_or_else(|told| panic!("{told}"));
    assert_eq!(trial.tally.missing(), []);
    assert_eq!(trial.tally.strangers(), []);
    let harvests = trial.tally.harvests();
    assert!(harvests >= 10_000, "{harvests} harvests");
}

// ---------------------------------------------------------------- slips

/// What a slip makes of the number, the memory and the map.
type Slip = fn(&mut u8, &mut [u8], &mut [u8], &Harvest);

struct Slips(Slip);

impl Harvester for Slips {
    fn harvest(
        &self,
        memory: &mut [u8],
        regime: &Regime,
        asked: &Harvest,
        map: &mut [u8],
        spelling: Spelling,
    ) -> u8 {
        let mut number = Second.harvest(memory, regime, asked, map, spelling);
        (self.0)(&mut number, memory, map, asked);
        number
    }
}

#[test]
fn slips_of_a_harvest_are_told() {
    let slips: [(&str, Slip); 6] = [
        ("it returns", |number, _, _, _| {
            if *number == 11 {
                *number = 10;
            }
        }),
        ("of the memory differ", |_, memory, _, _| {
            if let Some(last) = memory.last_mut() {
                *last ^= 1;
            }
        }),
        ("of the map differ", |_, _, map, asked| {
            let bytes = asked.bytes().min(map.len() as u64) as usize;
            map[bytes..].fill(0);
        }),
        ("of the map differ", |_, _, map, asked| {
            if asked.count % 8 == 7 && map.len() as u64 >= asked.bytes() {
                map[asked.count as usize / 8] |= 0x80;
            }
        }),
        ("of the map differ", |number, _, map, _| {
            if *number != 0 {
                map.fill(0);
            }
        }),
        ("of the map differ", |_, _, map, _| {
            map.iter_mut().for_each(|byte| *byte = byte.reverse_bits());
        }),
    ];
    for (words, slip) in slips {
        let told = Trial::new(Slips(slip), 1, false).run_all();
        let told = told.expect_err(words);
        assert!(told.contains(words), "{words}: {told}");
    }
}

/// The map as it is lent is the same each time, and full of noise.
#[test]
fn maps_are_noise() {
    let asked = Harvest {
        fill: Fill::Noise(Random::new(1).bits()),
        ..asked(0, 8, 64)
    };
    assert_eq!(asked.map(), asked.map());
    let first = asked.map()[0];
    assert!(asked.map().iter().any(|&byte| byte != first));
}

//! Harvests, plain and in a session: held against a model of steps 1 to 5 over
//! random tables of every granule, in both byte orders; what has a say and what
//! has none; that no written page is lost; and the dirty pages of a map.

mod tables;

use std::collections::BTreeSet;

use tables::kind::Kind;
use tables::{
    get, harvest, memory, put, put_in, regime, under, write, Both, Random, ADDRESS, CLEAN, LEAF,
    LENGTH, NO_EL0, NO_EL0_FETCH, NO_EL1_FETCH, NO_WRITE, POOL, TABLES,
};
use vmsa::{
    Access, Granule, OutputSize, Pages, PhysAddr, Pool, Range, Regime, Session, VirtAddr, VirtPage,
    HARVEST_LIMIT,
};

const AP2: u64 = 1 << 7;
const AF: u64 = 1 << 10;
const DBM: u64 = 1 << 51;

/// The leaf once written, and once harvested.
const DIRTY: u64 = (CLEAN | AF) & !AP2;
const HARVESTED: u64 = CLEAN | AF;

/// The page that the leaf maps.
const PAGE: VirtPage = VirtPage(0x403);

/// The dirty pages, by a harvest in both byte orders. The map has a byte more
/// than it needs, and lies before one that is not lent.
fn harvested(memory: &mut [u8], regime: &Regime, pages: Pages) -> Vec<VirtPage> {
    let length = pages.map_length() + 1;
    let mut room = vec![0x5a; length + 1];
    harvest(memory, regime, pages, &mut room[..length]).unwrap();
    assert!(room.ends_with(&[0x5a; 2]));
    pages.dirty(&room).collect()
}

/// The memory whose leaf is dirty.
fn dirty_memory() -> Vec<u8> {
    let mut memory = memory();
    put(&mut memory, LEAF, DIRTY);
    memory
}

#[test]
fn byte_for_byte() {
    let mut memory = dirty_memory();
    let mut expected = memory.clone();
    expected[LEAF..LEAF + 8].copy_from_slice(&[0xc3, 0x57, 0x00, 0x80, 0x00, 0x00, 0x08, 0x00]);
    let pages = Pages::new(VirtPage(PAGE.0 - 9), 12);
    let mut map = [0xff; 4];
    harvest(&mut memory, &regime(), pages, &mut map).unwrap();
    assert_eq!(map, [0, 0b10, 0xff, 0xff]);
    assert!(memory == expected);
    harvest(&mut memory, &regime(), pages, &mut map).unwrap();
    assert_eq!(map, [0, 0, 0xff, 0xff]);
    assert!(memory == expected);

    // The same leaf by range 1; its last page is the last number.
    let range1 = regime().range1(regime().range0);
    put(&mut memory, LEAF, DIRTY);
    let page = Pages::new(VirtPage(0xf_fff0_0000_0403), 1);
    assert_eq!(harvested(&mut memory, &range1, page), [page.first]);
    assert!(memory == expected);
    let last = Pages::new(VirtAddr(u64::MAX).page(Granule::Kib4), 1);
    assert_eq!(last.first, VirtPage((1 << 52) - 1));
    assert_eq!(harvested(&mut memory, &range1, last), []);
}

#[test]
fn settings_with_a_say() {
    // Each changed alone, the dirty leaf is not reached, and stays.
    let at = |start, length, address| Pool::new(start, length, PhysAddr(address));
    let range = |root, tsz| Range::new(PhysAddr(root), tsz);
    let disabled = Range {
        disabled: true,
        ..regime().range0
    };
    let pages = Pages::new(PAGE, 1);
    let mut memory = [dirty_memory(), vec![0; LENGTH]].concat();
    for other in [
        regime().pool(at(LENGTH, LENGTH, POOL)),
        regime().pool(at(0, 0x3000, POOL)),
        regime().pool(at(0, LENGTH, POOL - 0x1000)),
        regime().range0(range(POOL + 0x4000, 16)),
        regime().range0(range(POOL, 25)),
        regime().range0(disabled),
        regime().granule(Granule::Kib16),
    ] {
        assert_eq!(harvested(&mut memory, &other, pages), [], "{other:?}");
    }
    assert_eq!(get(&memory, LEAF), DIRTY);
    assert_eq!(harvested(&mut memory, &regime(), pages), [PAGE]);

    // The output size, for a leaf that is beyond it.
    put(&mut memory, LEAF, DIRTY | 1 << 40);
    let small = regime().output(OutputSize::Bits40);
    assert_eq!(harvested(&mut memory, &small, pages), []);
    let larger = regime().output(OutputSize::Bits42);
    assert_eq!(harvested(&mut memory, &larger, pages), [PAGE]);
}

#[test]
fn settings_with_no_say() {
    let all = NO_WRITE | NO_EL0 | NO_EL0_FETCH | NO_EL1_FETCH | 1 << 63;
    let pages = Pages::new(PAGE, 1);
    for other in [
        regime(),
        regime().hd(false),
        regime().ha(false).hd(false),
        regime().wxn(true),
        regime().range0(regime().range0.hpd(true)),
        regime().attributes([0; 8]),
        regime().range1(regime().range0),
    ] {
        for bits in [0, all, all | AF | DBM | AP2] {
            let mut memory = under([bits; 3]);
            put(&mut memory, LEAF, DIRTY);
            assert_eq!(harvested(&mut memory, &other, pages), [PAGE]);
            assert_eq!(get(&memory, LEAF), HARVESTED);
        }
    }
}

#[test]
fn what_is_not_reported() {
    // An Access flag that the guest has cleared, DBM clear, or clean.
    let pages = Pages::new(PAGE, 1);
    for leaf in [DIRTY & !AF, DIRTY & !DBM, DIRTY | AP2, DIRTY & !1, 0] {
        let mut memory = memory();
        put(&mut memory, LEAF, leaf);
        let before = memory.clone();
        assert_eq!(harvested(&mut memory, &regime(), pages), []);
        assert!(memory == before);
    }
}

#[test]
fn a_leaf_that_is_shared() {
    // Two entries of level 2 that lead to one table.
    let shared = || {
        let mut memory = dirty_memory();
        put(&mut memory, TABLES[2].0 + 8, TABLES[2].1);
        memory
    };
    let other = VirtPage(PAGE.0 + 512);
    let both = Pages::new(PAGE, 513);
    assert_eq!(harvested(&mut shared(), &regime(), both), [PAGE, other]);

    let mut memory = shared();
    assert_eq!(
        harvested(&mut memory, &regime(), Pages::new(other, 1)),
        [other]
    );
    assert_eq!(harvested(&mut memory, &regime(), both), []);
}

/// The dirty block of level 2 for the whole of pages 512 to 1023, and below it
/// nothing; with T 39 its table is the root.
fn block() -> (Vec<u8>, Regime) {
    let mut memory = vec![0; LENGTH];
    put(&mut memory, 8, 0x8020_0000 | DBM | AF | 1);
    (memory, regime().range0(Range::new(PhysAddr(POOL), 39)))
}

#[test]
fn a_block_is_clean_where_all_of_it_is_asked_for() {
    for first in [0, 511, 512, 513, 1023] {
        for end in [513, 1023, 1024, 1025, 8192] {
            let (mut memory, regime) = block();
            let pages = Pages::new(VirtPage(first), end - first.min(end - 1));
            let end = first + pages.count;
            let expected = (first.max(512)..end.min(1024)).map(VirtPage);
            assert!(expected.eq(harvested(&mut memory, &regime, pages)));
            let clean = first <= 512 && end >= 1024;
            assert_eq!(get(&memory, 8) & AP2 != 0, clean, "{pages:?}");
        }
    }
}

// The model

/// A leaf that steps 1 to 5 lead to: its offset in the memory, its descriptor,
/// and the address bits below what it maps.
struct Leaf {
    offset: usize,
    descriptor: u64,
    low: u32,
}

fn bits(value: u64, low: u32, end: u32) -> u64 {
    (value & ((1 << end) - 1)) >> low << low
}

/// What stands at a physical address, and its offset; none outside the pool.
fn descriptor(memory: &[u8], regime: &Regime, address: u64) -> Option<(usize, u64)> {
    let pool = &memory[regime.pool.start..][..regime.pool.length];
    let offset = usize::try_from(address.checked_sub(regime.pool.address.0)?).ok()?;
    let bytes: [u8; 8] = pool.get(offset..offset + 8)?.try_into().unwrap();
    let descriptor = match regime.ee {
        true => u64::from_be_bytes(bytes),
        false => u64::from_le_bytes(bytes),
    };
    Some((regime.pool.start + offset, descriptor))
}

fn locate(memory: &[u8], regime: &Regime, address: u64) -> Option<Leaf> {
    let upper = address >> 55 & 1 == 1;
    let range = if upper { regime.range1 } else { regime.range0 };
    let size = 64 - u32::from(range.tsz);
    let outside = address >> size != if upper { u64::MAX >> size } else { 0 };
    let beyond = |address: u64| address >> regime.output.bits() != 0;
    if range.disabled || outside || beyond(range.root.0) {
        return None;
    }
    let page = regime.granule.page_bits();
    let low_of = |level: u32| page + (3 - level) * (page - 3);
    let first = (0..4).find(|&level| low_of(level) < size)?;
    let mut table = range.root.0;
    for level in first..4 {
        let low = low_of(level);
        let index = bits(address, low, size.min(low + page - 3)) >> low;
        let (offset, descriptor) = descriptor(memory, regime, table + 8 * index)?;
        let blocks = level == 2 || level == 1 && regime.granule == Granule::Kib4;
        let leaf = match descriptor & 3 {
            1 if blocks => true,
            3 => level == 3,
            _ => return None,
        };
        table = bits(descriptor, if leaf { low } else { page }, 48);
        if beyond(table) {
            return None;
        }
        if leaf {
            return Some(Leaf {
                offset,
                descriptor,
                low,
            });
        }
    }
    None
}

/// The dirty pages; and the memory as a harvest is to leave it.
fn model(memory: &[u8], regime: &Regime, pages: Pages) -> (Vec<VirtPage>, Vec<u8>) {
    let mut dirty = Vec::new();
    let mut after = memory.to_vec();
    let page_bits = regime.granule.page_bits();
    let (first, end) = (pages.first.0, pages.first.0 + pages.count);
    for page in first..end {
        let Some(leaf) = locate(memory, regime, page << page_bits) else {
            continue;
        };
        if leaf.descriptor & (AF | DBM | AP2) != AF | DBM {
            continue;
        }
        dirty.push(VirtPage(page));
        let span = 1 << (leaf.low - page_bits);
        let start = page & !(span - 1);
        if first <= start && start + span <= end {
            put_in(regime.ee, &mut after, leaf.offset, leaf.descriptor | AP2);
        }
    }
    (dirty, after)
}

/// Pages near one that tables lead to; now and then a whole entry of level 2.
fn any_pages(random: &mut Random, kind: Kind, regime: Regime) -> Pages {
    let first = kind.access(random, Some(regime)).address;
    let first = first.page(regime.granule).0;
    let span = 1 << (regime.granule.page_bits() - 3);
    match random.below(8) {
        0 => Pages::new(VirtPage(first / span * span), span),
        1 => Pages::new(VirtPage(first / span * span), span - random.below(2)),
        _ => {
            let first = first - random.below(10).min(first);
            Pages::new(VirtPage(first), 1 + random.below(90))
        }
    }
}

#[test]
fn as_the_model() {
    let mut random = Random(0x9e37_79b9_7f4a_7c15);
    let (mut reported, mut cleaned, mut left) = ([0; 3], [0; 3], [0; 3]);
    for number in 0..400 {
        let kind = Kind::of(number);
        let mut memory = kind.memory(&mut random);
        for _ in 0..12 {
            let regime = kind.regime(&mut random);
            let pages = any_pages(&mut random, kind, regime);
            let mut map = vec![0x5a; pages.map_length() + 2];
            let before = memory.clone();
            let mut session = Session::new();
            let set = session.set_regime(&memory, &regime);
            if set.is_err() || pages.check(&regime, map.len()).is_err() {
                assert!(vmsa::harvest(&mut memory, &regime, pages, &mut map).is_err());
                assert!(memory == before && map.iter().all(|&byte| byte == 0x5a));
                continue;
            }
            let (dirty, after) = model(&memory, &regime, pages);
            session.harvest(&mut memory, pages, &mut map).unwrap();
            assert!(pages.dirty(&map).eq(dirty.iter().copied()), "{pages:?}");
            assert!(map.ends_with(&[0x5a; 2]) && memory == after, "{pages:?}");
            let mut plain = before.clone();
            let mut plain_map = vec![0x5a; map.len()];
            vmsa::harvest(&mut plain, &regime, pages, &mut plain_map).unwrap();
            assert!(plain == after && plain_map == map, "{pages:?}");

            let of = regime.granule as usize;
            reported[of] += dirty.len();
            cleaned[of] += usize::from(after != before);
            left[of] += usize::from(after == before && !dirty.is_empty());
        }
    }
    // The runs are worth something.
    let few = |counts: [usize; 3], least| counts.iter().any(|&count| count < least);
    assert!(
        !few(reported, 300) && !few(cleaned, 30) && !few(left, 10),
        "{reported:?}, {cleaned:?}, {left:?}"
    );
}

#[test]
fn no_written_page_is_lost() {
    // Two tables of leaves, all writable-clean. In each round pages are written
    // and read, in some order, some of them often; then all are harvested, in
    // two runs.
    let mut random = Random(0x2545_f491_4f6c_dd1d);
    let mut memory = memory();
    put(&mut memory, TABLES[2].0 + 8, POOL + 0x4003);
    for n in 0..1024 {
        put(&mut memory, 0x3000 + 8 * n, CLEAN + ((n as u64) << 12));
    }
    let mut session = Both::new();
    session.set_regime(&memory, &regime()).unwrap();
    let runs = [(0x400, 700), (0x400 + 700, 324)].map(|(n, count)| Pages::new(VirtPage(n), count));
    for round in 0..60 {
        let mut written = BTreeSet::new();
        for _ in 0..random.below(100) {
            let page = VirtPage(0x400 + random.below(if round % 2 == 0 { 1024 } else { 30 }));
            let address = page.address(Granule::Kib4);
            match random.below(3) {
                0 => session.access(&mut memory, &Access::read(address, 8)),
                1 => session.access(&mut memory, &Access::probe_write(address)),
                _ => {
                    written.insert(page);
                    session.access(&mut memory, &Access::write(address, 8))
                }
            }
            .unwrap();
        }
        let reported: Vec<VirtPage> = runs
            .into_iter()
            .flat_map(|pages| {
                let mut map = vec![0; pages.map_length()];
                session.harvest(&mut memory, pages, &mut map).unwrap();
                pages.dirty(&map).collect::<Vec<_>>()
            })
            .collect();
        assert!(written.into_iter().eq(reported), "round {round}");
    }
}

#[test]
fn a_plain_harvest_beside_a_session() {
    // What the session holds answers the next write, which makes no mark.
    let mut memory = memory();
    let pages = Pages::new(PAGE, 1);
    let mut session = Both::new();
    session.set_regime(&memory, &regime()).unwrap();
    assert!(session.access(&mut memory, &write()).unwrap().dirtied);
    assert_eq!(harvested(&mut memory, &regime(), pages), [PAGE]);
    assert!(!session.access(&mut memory, &write()).unwrap().dirtied);
    assert_eq!(harvested(&mut memory, &regime(), pages), []);

    // A drop helps, and so does the session's own harvest.
    session.invalidate_all();
    assert!(session.access(&mut memory, &write()).unwrap().dirtied);
    session.harvest(&mut memory, pages, &mut [0]).unwrap();
    assert!(session.access(&mut memory, &write()).unwrap().dirtied);
}

#[test]
fn pages_and_addresses() {
    for granule in Granule::ALL {
        for address in [0, ADDRESS.0, 0xffff_0000_0040_3abc, u64::MAX] {
            let page = VirtAddr(address).page(granule);
            assert_eq!(page.0, address / granule.bytes());
            let start = page.address(granule).0;
            assert_eq!(start, address - address % granule.bytes());
        }
    }
    assert_eq!(VirtPage(u64::MAX).address(Granule::Kib4), VirtAddr(!0xfff));
    assert_eq!(format!("{PAGE} {PAGE:?}"), "0x403 VirtPage(0x403)");
    assert_eq!(u64::from(VirtPage::from(7)), 7);
}

/// The dirty pages of a map, bit by bit.
fn plainly(pages: Pages, map: &[u8]) -> Vec<VirtPage> {
    (0..pages.count)
        .filter(|&n| map[n as usize / 8] >> (n % 8) & 1 == 1)
        .map(|n| VirtPage(pages.first.0 + n))
        .collect()
}

#[test]
fn dirty_pages_of_every_length() {
    let mut random = Random(0x9e37_79b9_7f4a_7c15);
    for count in 0..300 {
        for density in 0..4 {
            let pages = Pages::new(VirtPage(random.next() >> 12), count);
            // Bytes behind the last page's have something in them too.
            let mut map = vec![0xff; pages.map_length() + random.below(20) as usize];
            map.fill_with(|| {
                (0..density).fold(random.next(), |byte, _| byte & random.next()) as u8
            });
            let expected = plainly(pages, &map);
            let mut dirty = pages.dirty(&map);
            for (n, &page) in expected.iter().enumerate() {
                let left = expected.len() - n;
                assert_eq!((dirty.len(), dirty.size_hint()), (left, (left, Some(left))));
                assert_eq!(dirty.next(), Some(page));
            }
            for _ in 0..3 {
                assert_eq!((dirty.next(), dirty.len()), (None, 0));
            }
        }
    }
}

#[test]
fn dirty_pages_far_apart() {
    let pages = Pages::new(VirtPage(0x1000), HARVEST_LIMIT);
    assert_eq!(pages.map_length(), 8192);
    let mut map = vec![0; 8192];
    assert_eq!(pages.dirty(&map).len(), 0);
    map[8191] = 0x80;
    map[4100] = 0x01;
    let dirty = pages.dirty(&map);
    assert_eq!(
        format!("{dirty:?}"),
        "DirtyPages { pages: Pages { first: VirtPage(0x1000), count: 65536 }, left: 2, .. }"
    );
    assert_eq!(dirty.clone().count(), 2);
    assert!(dirty.eq([0x1000 + 32_800, 0x1000 + 65_535].map(VirtPage)));
    map.fill(0xff);
    let all = (0x1000..0x1000 + HARVEST_LIMIT).map(VirtPage);
    assert!(pages.dirty(&map).eq(all));
}

#[test]
fn dirty_pages_of_odd_pages() {
    // No harvest has such pages; they have an answer all the same.
    assert_eq!(Pages::new(VirtPage(0), 0).dirty(&[0xff]).next(), None);
    let wrapped = Pages::new(VirtPage(u64::MAX), 2);
    assert!(wrapped.dirty(&[0b11]).eq([u64::MAX, 0].map(VirtPage)));
    assert_eq!(Pages::new(PAGE, u64::MAX).map_length(), 1 << 61);
}

#[test]
#[should_panic(expected = "the map has a bit for each page")]
fn dirty_pages_of_a_short_map() {
    let _ = Pages::new(PAGE, 9).dirty(&[0]);
}

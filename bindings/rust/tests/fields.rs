//! Every field of a regime, an access and an answer, changed alone, shows in
//! the answer it should show in, in both byte orders.

mod tables;

use tables::{
    get, memory, put, put_in, read, regime, turned, under, walk, write, ADDRESS, CLEAN, LEAF,
    NO_EL0, NO_EL0_FETCH, NO_EL1_FETCH, NO_WRITE, POOL, TABLES,
};
use vmsa::{
    Access, AccessKind, Answer, Fault, FaultKind, Granule, OutputSize, PhysAddr, Pool, Range,
    Refusal, Regime, Shareability, Stop, Translation, VirtAddr,
};

const AP1: u64 = 1 << 6;
const AP2: u64 = 1 << 7;
const AF: u64 = 1 << 10;
const NG: u64 = 1 << 11;
const PXN: u64 = 1 << 53;
const UXN: u64 = 1 << 54;

/// The answer over a copy of the memory.
fn ask(memory: &[u8], regime: &Regime, access: &Access) -> Answer {
    walk(&mut memory.to_vec(), regime, access)
}

fn output(answer: Answer) -> u64 {
    answer.unwrap().output.0
}

fn code(answer: Answer) -> u16 {
    answer.unwrap_err().fault().unwrap().code
}

fn refusal(answer: Answer) -> Refusal {
    answer.unwrap_err().refusal().unwrap()
}

#[test]
fn version() {
    assert_eq!(vmsa::version(), vmsa::VERSION);
}

#[test]
fn pool_start() {
    // Two pools in one memory, alike but for the leaf.
    let mut memory = [memory(), memory(), memory()].concat();
    put(&mut memory, 0x10000 + LEAF, CLEAN + 0x1_0000);
    put(&mut memory, 0x20000 + LEAF, CLEAN + 0x2_0000);
    let at = |start| regime().pool(Pool::new(start, 0x10000, PhysAddr(POOL)));
    assert_eq!(output(ask(&memory, &at(0), &read())), 0x8000_5abc);
    assert_eq!(output(ask(&memory, &at(0x10000), &read())), 0x8001_5abc);
    assert_eq!(output(ask(&memory, &at(0x20000), &read())), 0x8002_5abc);

    // The mark goes to the pool that was walked.
    let mut after = memory.clone();
    walk(&mut after, &at(0x10000), &read()).unwrap();
    put(&mut memory, 0x10000 + LEAF, (CLEAN + 0x1_0000) | AF);
    assert!(after == memory);
}

#[test]
fn pool_length() {
    let of = |length| regime().pool(Pool::new(0, length, PhysAddr(POOL)));
    assert!(ask(&memory(), &of(0x4000), &read()).is_ok());
    assert_eq!(code(ask(&memory(), &of(0x3000), &read())), 23);
    assert_eq!(code(ask(&memory(), &of(0x2000), &read())), 22);
    assert_eq!(code(ask(&memory(), &of(0x1000), &read())), 21);
    assert_eq!(
        refusal(ask(&memory(), &of(0), &read())),
        Refusal::MemoryPool
    );
}

#[test]
fn pool_address() {
    // One page lower, the root is what was the second table, and its entry
    // leads to what was the fourth; a block of level 1 waits there.
    let mut memory = memory();
    put(&mut memory, 0x3000, 0xc000_0000 | AF | AP1 | 1);
    let at = |address| regime().pool(Pool::new(0, 0x10000, PhysAddr(address)));
    assert_eq!(output(ask(&memory, &at(POOL), &read())), 0x8000_5abc);
    assert_eq!(
        output(ask(&memory, &at(POOL - 0x1000), &read())),
        0xc040_3abc
    );
    assert_eq!(code(ask(&memory, &at(POOL + 0x1000), &read())), 20);
}

/// A second root at 0x40004000 that leads to a block of level 1, and in the
/// second table a block of level 2 for a walk that starts at level 1. Entries
/// 0 and 511 of each root are the same, for the two ranges.
fn roots() -> Vec<u8> {
    let mut memory = memory();
    put(&mut memory, 0x0ff8, 0x4000_1003);
    put(&mut memory, 0x1010, 0xa000_0000 | AF | AP1 | 1);
    put(&mut memory, 0x4000, 0x4000_5003);
    put(&mut memory, 0x4ff8, 0x4000_5003);
    put(&mut memory, 0x5000, 0xc000_0000 | AF | AP1 | 1);
    memory
}

/// The upper address whose bits 38 to 0 are those of `ADDRESS`; bits 47 to 39
/// are 1, so that it lies in range 1 for T 16 and T 25.
const UPPER: VirtAddr = VirtAddr(0xffff_ff80_0040_3abc);

/// For each range: its root, T and disable flag, and what they make of an
/// address with the low bits of `ADDRESS`.
const RANGES: [(u64, u8, bool, Result<u64, u16>); 4] = [
    (POOL, 16, false, Ok(0x8000_5abc)),
    (POOL + 0x4000, 16, false, Ok(0xc040_3abc)),
    (POOL, 25, false, Ok(0xa000_3abc)),
    (POOL, 16, true, Err(4)),
];

/// Sets one range by `set` to each of `RANGES`; `inside` lies in it, and the
/// address `outside`, which lies in the other, keeps its answer.
fn one_range(
    set: fn(Regime, Range) -> Regime,
    inside: Access,
    outside: Access,
    kept: Result<u64, u16>,
) {
    let memory = roots();
    let outcome = |regime: &Regime, access: &Access| {
        let answer = ask(&memory, regime, access);
        answer.map(|found| found.output.0).map_err(stop)
    };
    for (root, tsz, disabled, expected) in RANGES {
        let range = Range {
            root: PhysAddr(root),
            tsz,
            disabled,
            hpd: false,
        };
        let regime = set(regime(), range);
        assert_eq!(outcome(&regime, &inside), expected);
        assert_eq!(outcome(&regime, &outside), kept);
    }
}

#[test]
fn range_0() {
    let upper = Access::read(UPPER, 4).el0();
    one_range(Regime::range0, read(), upper, Err(4));
}

#[test]
fn range_1() {
    let upper = Access::read(UPPER, 4).el0();
    one_range(Regime::range1, upper, read(), Ok(0x8000_5abc));
}

fn stop(stop: Stop) -> u16 {
    stop.fault().unwrap().code
}

#[test]
fn size_fields() {
    // Every T picks its first level and its bits: the highest address inside
    // the range is walked, the next one is not.
    for tsz in 0..=255 {
        let range = Range::new(PhysAddr(POOL), tsz);
        let lower = regime().range0(range);
        let upper = regime().range1(range);
        if !(16..=39).contains(&tsz) {
            assert_eq!(
                refusal(ask(&memory(), &lower, &read())),
                Refusal::Sizes,
                "T0 {tsz}"
            );
            assert_eq!(
                refusal(ask(&memory(), &upper, &read())),
                Refusal::Sizes,
                "T1 {tsz}"
            );
            continue;
        }
        let level = match tsz {
            16..=24 => 0,
            25..=33 => 1,
            _ => 2,
        };
        let end = 1 << (64 - tsz);
        let reads = |regime: &Regime, address: u64| {
            let blank = vec![0; 0x10000];
            let fault = ask(&blank, regime, &Access::read(VirtAddr(address), 1));
            let fault = fault.unwrap_err().fault().unwrap();
            assert_eq!(fault.kind, FaultKind::Translation);
            assert_eq!(fault.level, if fault.reads == 0 { 0 } else { level });
            fault.reads
        };
        assert_eq!(reads(&lower, end - 1), 1, "T0 {tsz}");
        assert_eq!(reads(&lower, end), 0, "T0 {tsz}");
        assert_eq!(reads(&upper, 0_u64.wrapping_sub(end)), 1, "T1 {tsz}");
        assert_eq!(reads(&upper, 0_u64.wrapping_sub(end + 1)), 0, "T1 {tsz}");
    }
}

#[test]
fn output_size() {
    for (i, size) in OutputSize::ALL.into_iter().enumerate() {
        assert_eq!(usize::from(size.code()), i);
        assert_eq!(OutputSize::from_code(size.code()), Some(size));
        let regime = regime().output(size);
        for bit in 31..48 {
            let mut memory = memory();
            put(&mut memory, LEAF, 1 << bit | AP1 | 3);
            let answer = ask(&memory, &regime, &read());
            if bit < size.bits() {
                assert_eq!(output(answer), 1 << bit | 0xabc);
            } else {
                assert_eq!(code(answer), 3);
            }
        }
    }
}

#[test]
fn updates() {
    let memory = memory();
    for (ha, hd, read_code, write_code) in [
        (true, true, None, None),
        (true, false, None, Some(15)),
        (false, false, Some(11), Some(11)),
    ] {
        let regime = regime().ha(ha).hd(hd);
        let answer = |access| ask(&memory, &regime, &access).err().map(stop);
        assert_eq!(answer(read()), read_code);
        assert_eq!(answer(write()), write_code);
    }
    let alone = regime().ha(false).hd(true);
    for access in [read(), write()] {
        let refusal = refusal(ask(&memory, &alone, &access));
        assert_eq!(refusal, Refusal::DirtyState);
    }
}

#[test]
fn wxn() {
    let mut memory = memory();
    put(&mut memory, LEAF, 0x8000_5000 | AF | 3);
    let fetch = Access::fetch(ADDRESS);
    assert!(ask(&memory, &regime(), &fetch).is_ok());
    assert_eq!(code(ask(&memory, &regime().wxn(true), &fetch)), 15);
    put(&mut memory, LEAF, 0x8000_5000 | AF | AP2 | 3);
    assert!(ask(&memory, &regime().wxn(true), &fetch).is_ok());
}

#[test]
fn hpd() {
    // The page under a table with bit 62, from both ranges; only the range's
    // own flag counts.
    let mut memory = roots();
    put(&mut memory, 0x2010, 0x4000_3003 | NO_WRITE);
    let range = Range::new(PhysAddr(POOL), 16);
    assert!(!range.hpd && !Range::DISABLED.hpd);
    for (hpd0, hpd1) in [(false, false), (false, true), (true, false), (true, true)] {
        let regime = regime().range0(range.hpd(hpd0)).range1(range.hpd(hpd1));
        for (address, hpd) in [(ADDRESS, hpd0), (UPPER, hpd1)] {
            assert!(ask(&memory, &regime, &Access::read(address, 4).el0()).is_ok());
            let answer = ask(&memory, &regime, &Access::write(address, 4).el0());
            assert_eq!(answer.err().map(stop), (!hpd).then_some(15));
        }
    }
}

#[test]
fn ee() {
    // One flag for the tables of both ranges.
    let (little, big) = (roots(), turned(&roots()));
    let range = Range::new(PhysAddr(POOL), 16);
    let regime = regime().range0(range).range1(range);
    assert!(!regime.ee && !Regime::new().ee);
    for address in [ADDRESS, UPPER] {
        let asked = |memory: &[u8], ee| {
            let read = Access::read(address, 4).el0();
            vmsa::walk(&mut memory.to_vec(), &regime.ee(ee), &read)
        };
        assert_eq!(output(asked(&little, false)), 0x8000_5abc);
        assert_eq!(output(asked(&big, true)), 0x8000_5abc);
        assert_eq!(code(asked(&little, true)), 4);
        assert_eq!(code(asked(&big, false)), 4);
    }
}

#[test]
fn granule() {
    // One for the tables of both ranges. With T 39 an address has another entry
    // of the root, its leaf, for each.
    let mut memory = vec![0; 0x1_0000];
    put(&mut memory, 0x00, 0x8000_5000 | AF | AP1 | 1);
    put(&mut memory, 0x20, 0x8000_5000 | AF | AP1 | 3);
    put(&mut memory, 0x08, 0x8000_5000 | AF | AP1 | 3);
    let range = Range::new(PhysAddr(POOL), 39);
    let regime = regime().range0(range).range1(range);
    assert_eq!(regime.granule, Granule::Kib4);
    for address in [0x1_2340, 0xffff_ffff_fe01_2340] {
        let read = Access::read(VirtAddr(address), 4).el0();
        for (granule, level, frame) in [
            (Granule::Kib4, 2, 0x8001_2340),
            (Granule::Kib16, 3, 0x8000_6340),
            (Granule::Kib64, 3, 0x8000_2340),
        ] {
            let found = ask(&memory, &regime.granule(granule), &read).unwrap();
            assert_eq!((found.level, found.output.0), (level, frame));
        }
    }
}

#[test]
fn a_block_valid_in_both_orders() {
    // The same bytes are two leaves, each with its own marks.
    let little: u64 = 0xc10f_4000_8020_0b81;
    let big = 0x810b_2080_0040_0fc1;
    assert_eq!(little.swap_bytes(), big);
    let range = Range::new(PhysAddr(POOL), 39);
    let write = Access::write(VirtAddr(0x1_2340), 8);
    for (ee, leaf, frame, marks) in [
        (false, little, 0x4000_8020_0000, AF | AP2),
        (true, big, 0x2080_0040_0000, AP2),
    ] {
        let mut memory = memory();
        put_in(ee, &mut memory, 0, leaf);
        let mut expected = memory.clone();
        put_in(ee, &mut expected, 0, leaf ^ marks);

        let regime = regime().range0(range).ee(ee);
        let found = vmsa::walk(&mut memory, &regime, &write).unwrap();
        assert_eq!(found.output.0, frame + write.address.0);
        assert_eq!(found.accessed, marks & AF != 0);
        assert!(found.dirtied && memory == expected);
    }
}

/// Which accesses a writable page permits under these bits: read, write and
/// fetch from EL0, and then from EL1. The last is of a page of EL1 alone, since
/// EL1 fetches nothing that EL0 may write.
fn permitted(bits: [u64; 3]) -> [bool; 6] {
    let mut memory = under(bits);
    let mut ask = |leaf: u64, access: Access| {
        put(&mut memory, LEAF, 0x8000_5000 | AF | leaf | 3);
        ask(&memory, &regime(), &access).is_ok()
    };
    let fetch = Access::fetch(ADDRESS);
    [
        ask(AP1, read()),
        ask(AP1, write()),
        ask(AP1, fetch.el0()),
        ask(AP1, read().el1()),
        ask(AP1, write().el1()),
        ask(0, fetch),
    ]
}

#[test]
fn bits_of_tables() {
    for (bit, expected) in [
        (0, [true; 6]),
        (NO_WRITE, [true, false, true, true, false, true]),
        (NO_EL0, [false, false, true, true, true, true]),
        (NO_EL0_FETCH, [true, true, false, true, true, true]),
        (NO_EL1_FETCH, [true, true, true, true, true, false]),
        (1 << 63, [true; 6]),
    ] {
        assert_eq!(permitted([bit, 0, 0]), expected);
        assert_eq!(permitted([0, bit, 0]), expected);
        assert_eq!(permitted([0, 0, bit]), expected);
        assert_eq!(permitted([bit; 3]), expected);
    }
    let all = [NO_WRITE, NO_EL0 | NO_EL0_FETCH, NO_EL1_FETCH];
    assert_eq!(permitted(all), [false, false, false, true, false, false]);
}

#[test]
fn bits_with_no_say() {
    // In a table all but its address, bits 1 and 0, and 62 to 59; in the leaf
    // all but its fields.
    let accesses = AccessKind::ALL.map(|kind| {
        let probe = matches!(kind, AccessKind::ProbeRead | AccessKind::ProbeWrite);
        Access::new(kind, ADDRESS, if probe { 1 } else { 4 })
    });
    let same = |offset, descriptor| {
        let mut memory = memory();
        put(&mut memory, offset, descriptor);
        for access in accesses.into_iter().flat_map(|a| [a, a.el0()]) {
            let expected = ask(&tables::memory(), &regime(), &access);
            assert_eq!(
                ask(&memory, &regime(), &access),
                expected,
                "{descriptor:#x}"
            );
        }
    };
    for bit in (2..12).chain(48..59).chain([63]) {
        for (offset, table) in TABLES {
            same(offset, table | 1 << bit);
        }
    }
    for bit in [5, 48, 49, 50, 52].into_iter().chain(55..64) {
        same(LEAF, CLEAN | 1 << bit);
    }
}

#[test]
fn a_table_and_a_leaf() {
    // Entry 1 of the root leads back to it, so that the first table's
    // descriptor is also the leaf of the address of entries 1, 1, 1 and 0.
    let mut memory = under([NO_WRITE, 0, 0]);
    put(&mut memory, 0x0008, POOL | 3);
    let through_root = VirtAddr(1 << 39 | 1 << 30 | 1 << 21 | 0xabc);
    let found = walk(&mut memory, &regime(), &Access::write(through_root, 4)).unwrap();
    assert_eq!(found.output, PhysAddr(POOL + 0x1abc));
    assert_eq!(get(&memory, 0x0000), 0x4000_1003 | NO_WRITE | AF);
    assert_eq!(code(ask(&memory, &regime(), &write())), 15);
}

#[test]
fn attributes() {
    let bytes = [0x11, 0x22, 0x33, 0x44, 0x55, 0x66, 0x77, 0x88];
    for index in 0..8 {
        let mut memory = memory();
        put(&mut memory, LEAF, CLEAN | (index as u64) << 2);
        let found = ask(&memory, &regime().attributes(bytes), &read()).unwrap();
        assert_eq!(found.attribute, bytes[index]);
        assert!(!found.is_device());
        for other in 0..8 {
            let regime = regime().attributes(bytes).attribute(other, 0x0c);
            let found = ask(&memory, &regime, &read()).unwrap();
            assert_eq!(found.is_device(), other == index);
        }
        let bad = regime().attributes(bytes).attribute(index, 0xf0);
        assert_eq!(refusal(ask(&memory, &bad, &read())), Refusal::Attributes);
    }
}

#[test]
fn access_address() {
    for offset in [0, 1, 0x800, 0xfff] {
        let probe = Access::probe_read(VirtAddr(0x40_3000 + offset)).el0();
        assert_eq!(
            output(ask(&memory(), &regime(), &probe)),
            0x8000_5000 + offset
        );
    }
    for bit in 12..64 {
        let address = VirtAddr(ADDRESS.0 ^ 1 << bit);
        let answer = ask(&memory(), &regime(), &Access::read(address, 4).el0());
        let expected = match bit {
            12..=20 => 7,
            21..=29 => 6,
            30..=38 => 5,
            _ => 4,
        };
        assert_eq!(code(answer), expected, "bit {bit}");
    }
}

#[test]
fn access_size() {
    let device = regime().attribute(0, 0x04);
    for size in 0..=32 {
        let access = Access::read(VirtAddr(0x40_3ab8), size).el0();
        let answer = ask(&memory(), &device, &access);
        match size {
            1 | 2 | 4 | 8 => assert_eq!(output(answer), 0x8000_5ab8),
            16 => assert_eq!(code(answer), 33),
            _ => assert_eq!(refusal(answer), Refusal::AccessSize),
        }
    }
    for size in [u64::MAX, 1 << 63, 1 << 32 | 4, 0x104] {
        let access = Access::read(ADDRESS, size).el0();
        assert_eq!(
            refusal(ask(&memory(), &regime(), &access)),
            Refusal::AccessSize
        );
    }
    let across = |size| Access::read(VirtAddr(0x40_3ff8), size).el0();
    assert!(ask(&memory(), &regime(), &across(8)).is_ok());
    assert_eq!(
        refusal(ask(&memory(), &regime(), &across(16))),
        Refusal::PageCrossing
    );
}

#[test]
fn access_level() {
    let mut memory = memory();
    put(&mut memory, LEAF, CLEAN & !AP1);
    assert_eq!(code(ask(&memory, &regime(), &read())), 15);
    assert!(ask(&memory, &regime(), &read().el1()).is_ok());

    put(&mut memory, LEAF, CLEAN | AP2 | UXN);
    let fetch = Access::fetch(ADDRESS);
    let regime = regime().hd(false);
    assert!(ask(&memory, &regime, &fetch).is_ok());
    assert_eq!(code(ask(&memory, &regime, &fetch.el0())), 15);
    put(&mut memory, LEAF, CLEAN | AP2 | PXN);
    assert_eq!(code(ask(&memory, &regime, &fetch)), 15);
    assert!(ask(&memory, &regime, &fetch.el0()).is_ok());
}

#[test]
fn access_kind() {
    // Marks made on a writable-clean leaf, then who may use a leaf that is
    // read-only, and one that is execute-never.
    for (kind, marks, read_only, execute_never) in [
        (AccessKind::Read, AF, true, true),
        (AccessKind::Write, AF | AP2, false, true),
        (AccessKind::Update, AF | AP2, false, true),
        (AccessKind::Fetch, AF, true, false),
        (AccessKind::ProbeRead, 0, true, true),
        (AccessKind::ProbeWrite, 0, false, true),
    ] {
        let size = match kind {
            AccessKind::ProbeRead | AccessKind::ProbeWrite => 1,
            _ => 4,
        };
        let access = Access::new(kind, ADDRESS, size).el0();

        let mut memory = memory();
        let found = walk(&mut memory, &regime(), &access).unwrap();
        assert_eq!(get(&memory, LEAF), CLEAN ^ marks, "{kind:?}");
        assert_eq!(found.accessed, marks & AF != 0);
        assert_eq!(found.dirtied, marks & AP2 != 0);

        put(&mut memory, LEAF, 0x8000_5000 | AF | AP1 | AP2 | 3);
        let answer = ask(&memory, &regime(), &access);
        assert_eq!(answer.is_ok(), read_only, "{kind:?}");
        put(&mut memory, LEAF, CLEAN | UXN);
        let answer = ask(&memory, &regime(), &access);
        assert_eq!(answer.is_ok(), execute_never, "{kind:?}");
    }

    // Sizes of their own, and a fetch is aligned.
    for kind in AccessKind::ALL {
        let answer = |address, size| {
            let access = Access::new(kind, VirtAddr(address), size).el0();
            ask(&memory(), &regime(), &access).is_ok()
        };
        let probe = matches!(kind, AccessKind::ProbeRead | AccessKind::ProbeWrite);
        let fetch = kind == AccessKind::Fetch;
        assert_eq!(answer(0x40_3abc, 1), !fetch, "{kind:?}");
        assert_eq!(answer(0x40_3abc, 2), !probe && !fetch, "{kind:?}");
        assert_eq!(answer(0x40_3abc, 4), !probe, "{kind:?}");
        assert_eq!(answer(0x40_3abe, 4), !probe && !fetch, "{kind:?}");
    }
}

#[test]
fn answer_of_a_success() {
    // A block of level 1 with everything set, and a page with nothing.
    let mut memory = memory();
    let attributes = [0x11, 0x22, 0x33, 0x44, 0x55, 0x66, 0x77, 0x88];
    let regime = regime().attributes(attributes).ha(false).hd(false);
    for (i, shareability) in [
        Shareability::NonShareable,
        Shareability::Reserved,
        Shareability::OuterShareable,
        Shareability::InnerShareable,
    ]
    .into_iter()
    .enumerate()
    {
        assert_eq!(usize::from(shareability.bits()), i);
        put(
            &mut memory,
            0x1000,
            0xfedc_4000_0000 | AF | NG | (i as u64) << 8 | 5 << 2 | 1,
        );
        let expected = Translation {
            output: PhysAddr(0xfedc_4040_3abc),
            attribute: 0x66,
            shareability,
            nonglobal: true,
            level: 1,
            accessed: false,
            dirtied: false,
            cacheable: true,
            reads: 2,
        };
        let access = Access::write(ADDRESS, 4);
        assert_eq!(ask(&memory, &regime, &access), Ok(expected));
    }

    let regime = regime.ha(true).hd(true);
    let page = tables::memory();
    let expected = Translation {
        output: PhysAddr(0x8000_5abc),
        attribute: 0x11,
        shareability: Shareability::InnerShareable,
        nonglobal: false,
        level: 3,
        accessed: true,
        dirtied: true,
        cacheable: true,
        reads: 4,
    };
    assert_eq!(ask(&page, &regime, &write()), Ok(expected));
    let probe = Access::probe_write(ADDRESS).el0();
    let expected = Translation {
        accessed: false,
        dirtied: false,
        cacheable: false,
        ..expected
    };
    assert_eq!(ask(&page, &regime, &probe), Ok(expected));
}

/// A fault with its code and what it is called.
fn check_fault(answer: Answer, expected: Fault, words: &str) {
    let fault = answer.unwrap_err().fault().unwrap();
    assert_eq!(fault, expected);
    assert_eq!(fault.code, fault.kind.code(fault.level));
    let name = match fault.kind {
        FaultKind::Alignment => words.to_string(),
        _ => format!("{words}, level {}", fault.level),
    };
    assert_eq!(fault.to_string(), format!("{name} (0b{:06b})", fault.code));
}

const SIZE: &str = "Address size fault";
const TRANSLATION: &str = "Translation fault";
const FLAG: &str = "Access flag fault";
const PERMISSION: &str = "Permission fault";
const ABORT: &str = "Synchronous External abort on translation table walk";
const ALIGNMENT: &str = "Alignment fault";

#[test]
fn answer_of_a_fault_before_any_table() {
    let ask = |regime: Regime| ask(&memory(), &regime, &read());
    let disabled = Fault {
        kind: FaultKind::Translation,
        level: 0,
        code: 4,
        cacheable: false,
        reads: 0,
    };
    check_fault(ask(regime().range0(Range::DISABLED)), disabled, TRANSLATION);

    let high = Fault {
        kind: FaultKind::AddressSize,
        code: 0,
        ..disabled
    };
    let root = Range::new(PhysAddr(0x1_0000_0000), 16);
    let regime_high = regime().output(OutputSize::Bits32).range0(root);
    check_fault(ask(regime_high), high, SIZE);

    let outside = Fault {
        kind: FaultKind::ExternalAbort,
        code: 20,
        reads: 1,
        ..disabled
    };
    let root = Range::new(PhysAddr(POOL + 0x10000), 16);
    check_fault(ask(regime().range0(root)), outside, ABORT);
}

#[test]
fn answer_of_a_fault() {
    // The entries that the walk of ADDRESS reads.
    let entries = [0x0000, 0x1000, 0x2010, LEAF];
    let with = |level: u8, descriptor| {
        let mut memory = memory();
        put(&mut memory, entries[usize::from(level)], descriptor);
        memory
    };
    let small = regime().output(OutputSize::Bits32);
    let no_updates = regime().ha(false).hd(false);
    let device = regime().attribute(0, 0x08);
    let unaligned = Access::read(VirtAddr(0x40_3abd), 2).el0();

    for level in 0..=3 {
        let fault = |kind, code, cacheable| Fault {
            kind,
            level,
            code,
            cacheable,
            reads: level + 1,
        };
        let add = u16::from(level);

        let answer = ask(&with(level, 0), &regime(), &read());
        let expected = fault(FaultKind::Translation, 4 + add, false);
        check_fault(answer, expected, TRANSLATION);

        let answer = ask(&with(level, 0x1_0000_0003), &small, &read());
        let expected = fault(FaultKind::AddressSize, add, false);
        check_fault(answer, expected, SIZE);

        if level == 0 {
            continue;
        }
        let answer = ask(&with(level - 1, 0x4001_0003), &regime(), &read());
        let expected = fault(FaultKind::ExternalAbort, 20 + add, false);
        check_fault(answer, expected, ABORT);

        let leaf = if level == 3 { 3 } else { 1 };
        let answer = ask(&with(level, leaf), &no_updates, &read());
        let expected = fault(FaultKind::AccessFlag, 8 + add, false);
        check_fault(answer, expected, FLAG);

        // The leaf may be held where its Access flag is set.
        for (af, cacheable) in [(0, false), (AF, true)] {
            let memory = with(level, af | AP1 | AP2 | leaf);
            let expected = fault(FaultKind::Permission, 12 + add, cacheable);
            check_fault(ask(&memory, &regime(), &write()), expected, PERMISSION);
            let expected = fault(FaultKind::Alignment, 33, cacheable);
            check_fault(ask(&memory, &device, &unaligned), expected, ALIGNMENT);
        }
    }
}

#[test]
fn answer_of_a_refusal() {
    let pool = |start, length, address| regime().pool(Pool::new(start, length, PhysAddr(address)));
    let root = |root| regime().range1(Range::new(PhysAddr(root), 16));
    for (regime, access, number) in [
        (pool(0x800, 0x1000, POOL), read(), 1),
        (pool(0x1000, 0x10000, POOL), read(), 1),
        (pool(usize::MAX - 0xfff, 0x1000, POOL), read(), 1),
        (pool(0, 0x10800, POOL), read(), 1),
        (pool(0, 0x10000, POOL + 0x800), read(), 2),
        (pool(0, 0x10000, (1 << 48) - 0xf000), read(), 2),
        (pool(0, 0x10000, u64::MAX - 0xfff), read(), 2),
        (regime().range0(Range::new(PhysAddr(0), 15)), read(), 3),
        (regime().range1(Range::new(PhysAddr(0), 40)), read(), 3),
        (root(POOL + 8), read(), 4),
        (root(1 << 48), read(), 4),
        (regime().attribute(7, 0x0f), read(), 5),
        (regime().ha(false), read(), 13),
        (regime(), Access::read(ADDRESS, 3), 6),
        (regime(), Access::new(AccessKind::ProbeRead, ADDRESS, 2), 6),
        (regime(), Access::fetch(VirtAddr(0x40_3abe)), 6),
        (regime(), Access::read(VirtAddr(0x40_3fff), 2), 7),
        (regime(), Access::read(VirtAddr(u64::MAX), 2), 7),
    ] {
        let mut after = memory();
        let answer = refusal(walk(&mut after, &regime, &access));
        assert_eq!(answer.number(), number);
        assert!(after == memory());
        assert!(answer
            .to_string()
            .starts_with(&format!("refused with {number}: ")));
    }

    // The pool may end at 2^48 exactly.
    let last = pool(0, 0x10000, (1 << 48) - 0x10000);
    assert_eq!(code(ask(&memory(), &last, &read())), 20);
}

#[test]
fn addresses_in_hexadecimal() {
    let regime = format!("{:?}", regime());
    assert!(regime.contains("address: PhysAddr(0x40000000)"), "{regime}");
    assert!(regime.contains("root: PhysAddr(0x40000000)"), "{regime}");
    let access = format!("{:?}", read());
    assert!(access.contains("address: VirtAddr(0x403abc)"), "{access}");
    let answer = format!("{:?}", ask(&memory(), &tables::regime(), &read()));
    assert!(answer.contains("output: PhysAddr(0x80005abc)"), "{answer}");
    assert_eq!(
        format!("{:x} {:#X}", PhysAddr(0xabc), ADDRESS),
        "abc 0x403ABC"
    );
}

//! The worked cases (`docs/RULES.md`, 12): P1 to P12, and those of the tables'
//! bits, each in both byte orders; and those of EE.

mod tables;

use tables::{
    get, memory, put, read, regime, turned, under, walk, write, ADDRESS, CLEAN, EXTERNAL_ABORT,
    LEAF, NO_EL0, NO_EL0_FETCH, NO_EL1_FETCH, NO_WRITE, POOL, TABLES,
};
use vmsa::{
    Access, Fault, FaultKind, OutputSize, PhysAddr, Pool, Range, Refusal, Regime, Shareability,
    Stop, Translation, VirtAddr,
};

/// The fault that a walk gives; it leaves the memory alone.
fn fault(memory: &[u8], regime: &Regime, access: &Access) -> Fault {
    let mut after = memory.to_vec();
    let stop = walk(&mut after, regime, access).unwrap_err();
    assert!(after == memory, "a fault changes the memory");
    stop.fault().unwrap()
}

fn found() -> Translation {
    Translation {
        output: PhysAddr(0x8000_5abc),
        attribute: 0xff,
        shareability: Shareability::InnerShareable,
        nonglobal: false,
        level: 3,
        accessed: true,
        dirtied: false,
        cacheable: true,
        reads: 4,
    }
}

#[test]
fn p1_read() {
    let mut memory = memory();
    let mut expected = memory.clone();
    put(&mut expected, LEAF, 0x0008_0000_8000_57c3);
    assert_eq!(walk(&mut memory, &regime(), &read()), Ok(found()));
    assert!(memory == expected);
}

#[test]
fn p2_write() {
    let mut memory = memory();
    let mut expected = memory.clone();
    put(&mut expected, LEAF, 0x0008_0000_8000_5743);
    let dirtied = Translation {
        dirtied: true,
        ..found()
    };
    assert_eq!(walk(&mut memory, &regime(), &write()), Ok(dirtied));
    assert_eq!(
        memory[LEAF..LEAF + 8],
        [0x43, 0x57, 0x00, 0x80, 0x00, 0x00, 0x08, 0x00]
    );
    assert!(memory == expected);
}

#[test]
fn p3_probe_write() {
    let mut memory = memory();
    let before = memory.clone();
    let unmarked = Translation {
        accessed: false,
        cacheable: false,
        ..found()
    };
    let probe = Access::probe_write(ADDRESS).el0();
    assert_eq!(walk(&mut memory, &regime(), &probe), Ok(unmarked));
    assert!(memory == before);
}

#[test]
fn p4_hd_off() {
    let expected = Fault {
        kind: FaultKind::Permission,
        level: 3,
        code: 15,
        cacheable: false,
        reads: 4,
    };
    assert_eq!(fault(&memory(), &regime().hd(false), &write()), expected);
}

#[test]
fn p5_ha_off() {
    let expected = Fault {
        kind: FaultKind::AccessFlag,
        level: 3,
        code: 11,
        cacheable: false,
        reads: 4,
    };
    let regime = regime().ha(false);
    assert_eq!(fault(&memory(), &regime.hd(false), &write()), expected);

    let mut memory = memory();
    let before = memory.clone();
    assert_eq!(
        walk(&mut memory, &regime, &write()),
        Err(Stop::Refused(Refusal::DirtyState))
    );
    assert!(memory == before);
}

#[test]
fn p6_last_table_of_the_pool() {
    let expected = Fault {
        kind: FaultKind::Translation,
        level: 3,
        code: 7,
        cacheable: false,
        reads: 4,
    };
    let mut memory = memory();
    put(&mut memory, 0x2010, 0x4000_f003);
    assert_eq!(fault(&memory, &regime(), &write()), expected);

    // The read is at 0x4000f018: a leaf there is found.
    put(&mut memory, 0xf018, CLEAN);
    assert!(walk(&mut memory, &regime(), &write()).is_ok());
    assert_eq!(get(&memory, 0xf018), 0x0008_0000_8000_5743);
}

#[test]
fn p7_first_table_past_the_pool() {
    let mut memory = memory();
    put(&mut memory, 0x2010, 0x4001_0003);
    assert_eq!(fault(&memory, &regime(), &write()), EXTERNAL_ABORT);
}

#[test]
fn p8_output_size() {
    let expected = Fault {
        kind: FaultKind::AddressSize,
        level: 3,
        code: 3,
        cacheable: false,
        reads: 4,
    };
    let mut memory = memory();
    put(&mut memory, LEAF, 0x0008_0001_0000_03c3);
    let regime = regime().output(OutputSize::Bits32);
    assert_eq!(fault(&memory, &regime, &write()), expected);
}

#[test]
fn p9_block_at_level_3() {
    let expected = Fault {
        kind: FaultKind::Translation,
        level: 3,
        code: 7,
        cacheable: false,
        reads: 4,
    };
    let mut memory = memory();
    put(&mut memory, LEAF, CLEAN & !2);
    assert_eq!(fault(&memory, &regime(), &write()), expected);
}

#[test]
fn p10_unaligned_device() {
    let expected = Fault {
        kind: FaultKind::Alignment,
        level: 3,
        code: 33,
        cacheable: false,
        reads: 4,
    };
    let regime = regime().attribute(0, 0x00);
    let read = Access::read(VirtAddr(0x40_3abd), 2).el0();
    assert_eq!(fault(&memory(), &regime, &read), expected);
}

#[test]
fn p11_end_of_the_page() {
    let mut memory = memory();
    let last = Access::read(VirtAddr(0x40_3ffc), 4).el0();
    let found = walk(&mut memory, &regime(), &last).unwrap();
    assert_eq!(found.output, PhysAddr(0x8000_5ffc));

    let across = Access::read(VirtAddr(0x40_3ffd), 4).el0();
    assert_eq!(
        walk(&mut memory, &regime(), &across),
        Err(Stop::Refused(Refusal::PageCrossing))
    );
}

#[test]
fn p12_pool_limit() {
    // The pool is the memory.
    let of = |length| {
        let mut memory = memory();
        memory.resize(length, 0);
        let regime = regime().pool(Pool::new(0, length, PhysAddr(POOL)));
        walk(&mut memory, &regime, &read())
    };
    assert_eq!(of(1_048_576), Ok(found()));
    assert_eq!(of(1_052_672), Err(Stop::Refused(Refusal::MemoryPool)));
}

/// What the leaf, or a table on the way to it, does not permit.
const DENIED: Fault = Fault {
    kind: FaultKind::Permission,
    level: 3,
    code: 15,
    cacheable: false,
    reads: 4,
};

#[test]
fn write_under_bit_62() {
    let mut memory = under([0, NO_WRITE, 0]);
    assert_eq!(fault(&memory, &regime(), &write()), DENIED);
    assert_eq!(fault(&memory, &regime(), &write().el1()), DENIED);

    // With HPD it is P2.
    let regime = regime().range0(Range::new(PhysAddr(POOL), 16).hpd(true));
    let dirtied = Translation {
        dirtied: true,
        ..found()
    };
    assert_eq!(walk(&mut memory, &regime, &write()), Ok(dirtied));
    assert_eq!(get(&memory, LEAF), 0x0008_0000_8000_5743);
}

#[test]
fn read_under_bit_61() {
    let mut memory = under([0, NO_EL0, 0]);
    assert_eq!(fault(&memory, &regime(), &read()), DENIED);
    assert_eq!(walk(&mut memory, &regime(), &read().el1()), Ok(found()));
}

/// The two fetches, from EL0 and from EL1, under these bits.
fn fetches(bits: [u64; 3]) -> [Result<u64, u16>; 2] {
    let fetch = Access::fetch(ADDRESS);
    [fetch.el0(), fetch].map(|fetch| {
        walk(&mut under(bits), &regime(), &fetch)
            .map(|found| found.output.0)
            .map_err(|stop| stop.fault().unwrap().code)
    })
}

#[test]
fn fetch_under_each_bit() {
    // EL0 may write the page, so EL1 may not fetch from it; but it may where a
    // table takes EL0's access or the writing away.
    let (ok, denied) = (Ok(0x8000_5abc), Err(15));
    assert_eq!(fetches([0, 0, 0]), [ok, denied]);
    assert_eq!(fetches([0, NO_EL1_FETCH, 0]), [ok, denied]);
    assert_eq!(fetches([0, NO_EL0_FETCH, 0]), [denied, denied]);
    assert_eq!(fetches([0, NO_EL0, 0]), [ok, ok]);
    assert_eq!(fetches([0, NO_WRITE, 0]), [ok, ok]);
}

#[test]
fn bits_of_two_tables_add_up() {
    let (ok, denied) = (Ok(0x8000_5abc), Err(15));
    assert_eq!(fetches([NO_EL0, 0, NO_EL1_FETCH]), [ok, denied]);
    assert_eq!(fetches([NO_EL0_FETCH, NO_EL0, 0]), [denied, ok]);
    let memory = under([NO_EL0, 0, NO_WRITE]);
    assert_eq!(fault(&memory, &regime(), &read()), DENIED);
    assert_eq!(fault(&memory, &regime(), &write().el1()), DENIED);
}

#[test]
fn bit_63_and_a_leafs_own_have_no_say() {
    let own = 0b1_1111 << 59;
    let mut memory = under([1 << 63; 3]);
    put(&mut memory, LEAF, CLEAN | own);
    let dirtied = Translation {
        dirtied: true,
        ..found()
    };
    assert_eq!(walk(&mut memory, &regime(), &write()), Ok(dirtied));
    assert_eq!(get(&memory, LEAF), 0x0008_0000_8000_5743 | own);
}

#[test]
fn p2_big_endian() {
    let mut memory = turned(&memory());
    assert_eq!(
        memory[LEAF..LEAF + 8],
        [0x00, 0x08, 0x00, 0x00, 0x80, 0x00, 0x53, 0xc3]
    );
    let mut expected = memory.clone();
    expected[LEAF..LEAF + 8].copy_from_slice(&[0x00, 0x08, 0x00, 0x00, 0x80, 0x00, 0x57, 0x43]);
    let dirtied = Translation {
        dirtied: true,
        ..found()
    };
    let regime = regime().ee(true);
    assert_eq!(vmsa::walk(&mut memory, &regime, &write()), Ok(dirtied));
    assert!(memory == expected);
}

#[test]
fn a_descriptor_in_the_other_order() {
    // Read so, bit 0 is clear.
    let offsets = TABLES.map(|(offset, _)| offset);
    for (level, offset) in offsets.into_iter().chain([LEAF]).enumerate() {
        let expected = Fault {
            kind: FaultKind::Translation,
            level: level as u8,
            code: 4 + level as u16,
            cacheable: false,
            reads: 1 + level as u8,
        };
        let mut memory = memory();
        memory[offset..offset + 8].reverse();
        assert_eq!(fault(&memory, &regime(), &write()), expected);
    }

    // All of them: the root's entry ends the walk.
    let first = Fault {
        kind: FaultKind::Translation,
        level: 0,
        code: 4,
        cacheable: false,
        reads: 1,
    };
    assert_eq!(fault(&memory(), &regime().ee(true), &read()), first);
    assert_eq!(fault(&turned(&memory()), &regime(), &read()), first);
}

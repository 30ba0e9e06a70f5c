//! The interface by its numbers: what the safe form cannot say.

use super::*;

#[path = "tests/granule.rs"]
mod granule;
#[path = "tests/harvest.rs"]
mod harvest;
#[path = "tests/order.rs"]
mod order;
#[path = "tests/spare.rs"]
mod spare;
#[path = "tests/stepwise.rs"]
mod stepwise;

const POOL: u64 = 0x4000_0000;
const LEAF: usize = 0x3018;
const CLEAN: u64 = 0x0008_0000_8000_53c3;
const AF: u64 = 1 << 10;
const AP2: u64 = 1 << 7;

/// The level 2 descriptor, and bit 62 among a table's bits 62 to 59.
const THIRD: usize = 0x2010;
const TABLE: u64 = 0x4000_3003;
const NO_WRITE: u64 = 0b1000;

const REGIME: Regime = Regime {
    start: 0,
    length: 0x10000,
    address: POOL,
    root0: POOL,
    root1: POOL,
    attributes: u64::MAX,
    tsz0: 16,
    tsz1: 16,
    disabled0: 0,
    disabled1: 0,
    output: 5,
    ha: 1,
    hd: 1,
    wxn: 0,
    hpd0: 0,
    hpd1: 0,
    ee: 0,
    granule: 0,
    spare: [0; 4],
};

const READ: Access = Access {
    address: 0x40_3abc,
    size: 4,
    el0: 1,
    kind: 0,
    spare: [0; 6],
};

const WRITE: Access = Access { kind: 1, ..READ };

fn put(memory: &mut [u8], offset: usize, descriptor: u64) {
    memory[offset..offset + 8].copy_from_slice(&descriptor.to_le_bytes());
}

fn memory() -> Vec<u8> {
    let mut memory = vec![0; 0x10000];
    put(&mut memory, 0x0000, 0x4000_1003);
    put(&mut memory, 0x1000, 0x4000_2003);
    put(&mut memory, THIRD, TABLE);
    put(&mut memory, LEAF, CLEAN);
    memory
}

/// The memory with bits 62 to 59 of the tables of levels 0 to 2.
fn under([first, second, third]: [u64; 3]) -> Vec<u8> {
    let mut memory = memory();
    put(&mut memory, 0x0000, 0x4000_1003 | first << 59);
    put(&mut memory, 0x1000, 0x4000_2003 | second << 59);
    put(&mut memory, THIRD, TABLE | third << 59);
    memory
}

/// The memory with every descriptor in the other byte order.
fn turned(mut memory: Vec<u8>) -> Vec<u8> {
    memory.chunks_exact_mut(8).for_each(<[u8]>::reverse);
    memory
}

fn ask(regime: Regime, access: Access) -> Answer {
    walk(&mut memory(), &regime, &access)
}

fn session(regime: Regime) -> Session {
    let mut session = session_empty();
    assert_eq!(session_set_regime(&mut session, &memory(), &regime), 0);
    session
}

#[test]
fn answers_hold_nothing_else() {
    let success = Answer {
        output: 0x8000_5abc,
        level: 3,
        attribute: 0xff,
        shareability: 3,
        accessed: 1,
        dirtied: 1,
        cacheable: 1,
        reads: 4,
        ..Answer::default()
    };
    assert_eq!(ask(REGIME, WRITE), success);
    let fault = Answer {
        tag: 1,
        code: 15,
        level: 3,
        reads: 4,
        ..Answer::default()
    };
    assert_eq!(ask(Regime { hd: 0, ..REGIME }, WRITE), fault);
    let refused = Answer {
        tag: 2,
        refusal: 3,
        ..Answer::default()
    };
    assert_eq!(ask(Regime { tsz1: 40, ..REGIME }, WRITE), refused);
}

#[test]
fn flags_are_true_unless_0() {
    let upper = Access {
        address: READ.address | 0xffff << 48,
        ..READ
    };
    let fetch = Access { kind: 3, ..READ };
    let write_under = |regime, address| {
        let write = Access { address, ..WRITE };
        walk(&mut under([0, 0, NO_WRITE]), &regime, &write).code
    };
    for flag in 1..=255 {
        let disabled0 = Regime {
            disabled0: flag,
            ..REGIME
        };
        let disabled1 = Regime {
            disabled1: flag,
            ..REGIME
        };
        assert_eq!(ask(disabled0, READ).code, 4);
        assert_eq!(ask(disabled0, upper).tag, 0);
        assert_eq!(ask(disabled1, upper).code, 4);
        assert_eq!(ask(disabled1, READ).tag, 0);

        let updates = |ha, hd| ask(Regime { ha, hd, ..REGIME }, WRITE);
        assert_eq!(updates(flag, flag), updates(1, 1));
        assert_eq!(updates(flag, 1), updates(1, 1));
        assert_eq!(updates(1, flag), updates(1, 1));
        assert_eq!(updates(flag, 0), updates(1, 0));
        assert_eq!(updates(0, flag).refusal, 13);
        let wxn = Regime {
            wxn: flag,
            ..REGIME
        };
        assert_eq!(ask(REGIME, fetch).tag, 0);
        assert_eq!(ask(wxn, fetch).code, 15);
        let hpd0 = Regime {
            hpd0: flag,
            ..REGIME
        };
        let hpd1 = Regime {
            hpd1: flag,
            ..REGIME
        };
        assert_eq!(write_under(hpd0, READ.address), 0);
        assert_eq!(write_under(hpd0, upper.address), 15);
        assert_eq!(write_under(hpd1, READ.address), 15);
        assert_eq!(write_under(hpd1, upper.address), 0);

        // An EL1 fetch faults, for EL0 may write the page.
        let el0 = Access { el0: flag, ..fetch };
        assert_eq!(ask(REGIME, el0).tag, 0);
    }
    assert_eq!(ask(REGIME, Access { el0: 0, ..fetch }).code, 15);
}

#[test]
fn kinds_above_5() {
    // A walk, and an access in a session that holds the clean page: the
    // answers, and the bytes that they leave.
    let asked = |regime, size, kind| {
        let access = Access {
            address: 0x40_3ab0,
            size,
            kind,
            ..READ
        };
        let (mut walked, mut held) = (memory(), memory());
        let mut session = session(regime);
        session_access(&mut session, &mut held, &READ);
        let answers = [
            walk(&mut walked, &regime, &access),
            session_access(&mut session, &mut held, &access),
        ];
        (answers, walked, held)
    };
    let read_only = Regime { hd: 0, ..REGIME };
    for size in [1, 3, 4, 16] {
        let update = asked(REGIME, size, 2);
        let denied = asked(read_only, size, 2);
        for kind in 6..=255 {
            assert!(asked(REGIME, size, kind) == update, "{kind}");
            assert!(asked(read_only, size, kind) == denied, "{kind}");
        }
    }

    // An update marks the page dirty both times, and 5 does not.
    let dirtied = |kind| asked(REGIME, 1, kind).0.map(|answer| answer.dirtied);
    assert_eq!(dirtied(5), [0, 0]);
    assert_eq!(dirtied(6), [1, 1]);
}

#[test]
fn output_codes_above_5() {
    for output in 6..=255 {
        let answer = ask(Regime { output, ..REGIME }, READ);
        assert_eq!((answer.tag, answer.refusal), (2, 3));
    }
}

#[test]
fn null_where_the_length_is_0() {
    let null = std::ptr::null_mut();
    let mut session = session(REGIME);
    let mut answers = [Answer::default(); 2];
    let [walked, accessed] = &mut answers;
    // SAFETY: a null pointer is allowed where the length is 0.
    unsafe {
        vmsa_walk(null, 0, &REGIME, &READ, walked);
        vmsa_session_access(&mut session, null, 0, &READ, accessed);
        assert_eq!(vmsa_session_set_regime(&mut session, null, 0, &REGIME), 1);
        assert_eq!(vmsa_session_store(&mut session, null, 0, POOL, 0), 1);
    }
    assert_eq!(
        answers.map(|answer| (answer.tag, answer.refusal)),
        [(2, 1); 2]
    );
}

#[test]
fn fresh_session() {
    let session = session_empty();
    let initial = Regime {
        length: 0,
        address: 0,
        root0: 0,
        root1: 0,
        attributes: 0,
        disabled0: 1,
        disabled1: 1,
        ha: 0,
        hd: 0,
        ..REGIME
    };
    assert_eq!((session.regime, session.set), (initial, 0));
    assert!(session.entries.iter().all(|entry| entry.held == 0));
}

#[test]
fn session_keeps_each_regime_field() {
    let numbers = Regime {
        start: 0x4000,
        length: 0x8000,
        address: 0x1234_5678_8000,
        root0: 0x2345_6789_4000,
        root1: 0x3456_789a_c000,
        attributes: 0x8877_6655_4433_2211,
        tsz0: 17,
        tsz1: 38,
        output: 4,
        ..REGIME
    };
    // Each flag is on and off, and any two of them differ somewhere.
    for [disabled0, disabled1, ha, hd, wxn, hpd0, hpd1, ee, granule] in [
        [1, 0, 1, 1, 0, 1, 0, 0, 0],
        [0, 1, 1, 0, 1, 1, 0, 1, 0],
        [1, 0, 0, 0, 1, 1, 1, 0, 2],
        [1, 0, 1, 0, 0, 0, 1, 1, 2],
    ] {
        let regime = Regime {
            disabled0,
            disabled1,
            ha,
            hd,
            wxn,
            hpd0,
            hpd1,
            ee,
            granule,
            ..numbers
        };
        assert_eq!(session(regime).regime, regime);
        assert_ne!(session(regime).set, 0);
    }
}

/// Two pools, alike but for the page's leaf in the second, and for what other
/// roots and sizes lead to in the first. In both, a table that takes writing
/// away leads to the page too, from the next 2 MiB.
fn two_pools() -> Vec<u8> {
    let mut memory = memory();
    put(&mut memory, THIRD + 8, TABLE | NO_WRITE << 59);
    memory.extend_from_within(..);
    put(&mut memory, 0x10000 + LEAF, CLEAN + 0x1_0000);
    put(&mut memory, 0x0ff8, 0x4000_1003);
    put(&mut memory, 0x1010, 0xa000_0641);
    put(&mut memory, 0x3000, 0xb000_0641);
    put(&mut memory, 0x4000, 0x4000_5003);
    put(&mut memory, 0x4ff8, 0x4000_5003);
    put(&mut memory, 0x5000, 0xc000_0641);
    memory
}

#[test]
fn session_uses_each_regime_field() {
    // Each field changed alone, where it lies in the session, has the effect
    // that it has on a plain walk.
    let upper = Access {
        address: 0xffff_ff80_0040_3abc,
        ..READ
    };
    let fetch = Access { kind: 3, ..READ };
    let under = |access: Access| Access {
        address: access.address + (1 << 21),
        kind: 1,
        ..access
    };
    let memory = two_pools();
    let over = |regime, access| {
        let mut plain = memory.clone();
        let mut ours = memory.clone();
        let answer = walk(&mut plain, &regime, &access);
        let mut crafted = session(REGIME);
        crafted.regime = regime;
        assert_eq!(session_access(&mut crafted, &mut ours, &access), answer);
        assert!(plain == ours);
        answer
    };
    // The output size shows on a root that is beyond it, and HD needs HA.
    let high = Regime {
        root0: 0x1_0000_0000,
        ..REGIME
    };
    let hd_off = Regime { hd: 0, ..REGIME };
    type Change = fn(&mut Regime);
    let changes: [(Regime, Access, Change); 19] = [
        (REGIME, READ, |r| r.start = 0x10000),
        (REGIME, READ, |r| r.length = 0x3000),
        (REGIME, READ, |r| r.address = POOL - 0x1000),
        (REGIME, READ, |r| r.root0 = POOL + 0x4000),
        (REGIME, upper, |r| r.root1 = POOL + 0x4000),
        (REGIME, READ, |r| r.attributes = 0x44),
        (REGIME, READ, |r| r.tsz0 = 25),
        (REGIME, upper, |r| r.tsz1 = 25),
        (REGIME, READ, |r| r.disabled0 = 1),
        (REGIME, upper, |r| r.disabled1 = 1),
        (high, WRITE, |r| r.output = 0),
        (hd_off, READ, |r| r.ha = 0),
        (REGIME, WRITE, |r| r.hd = 0),
        (REGIME, fetch, |r| r.wxn = 1),
        (REGIME, under(READ), |r| r.hpd0 = 1),
        (REGIME, under(upper), |r| r.hpd1 = 1),
        (REGIME, READ, |r| r.ee = 1),
        (REGIME, READ, |r| r.granule = 1),
        (REGIME, READ, |r| r.granule = 2),
    ];
    for (i, (mut regime, access, change)) in changes.into_iter().enumerate() {
        let before = over(regime, access);
        change(&mut regime);
        assert_ne!(before, over(regime, access), "change {i}");
    }
}

/// The answers to one access made twice in a session with this regime, which
/// no check has seen; and the memory and the entries behind them.
fn twice(regime: Regime, leaf: u64, access: Access) -> ([Answer; 2], Vec<u8>, [Entry; ENTRIES]) {
    let mut memory = memory();
    put(&mut memory, LEAF, leaf);
    let mut session = session(REGIME);
    session.regime = regime;
    let answers = [(); 2].map(|()| session_access(&mut session, &mut memory, &access));
    (answers, memory, session.entries)
}

/// An access of each kind, from either level.
fn every_kind() -> impl Iterator<Item = Access> {
    let kinds = [(0, 4), (1, 4), (2, 4), (3, 4), (4, 1), (5, 1)];
    kinds.into_iter().flat_map(|(kind, size)| {
        [0, 1].map(|el0| Access {
            kind,
            size,
            el0,
            ..READ
        })
    })
}

#[test]
fn session_with_hd_alone() {
    // No call leaves one. It is not refused, and answers as with HD off.
    let off = Regime {
        ha: 0,
        hd: 0,
        ..REGIME
    };
    for hd in [1, 0x80, 0xff] {
        let alone = Regime { hd, ..off };
        assert_eq!(ask(alone, READ).refusal, 13);
        for leaf in [CLEAN, CLEAN | AF, (CLEAN | AF) & !AP2] {
            for access in every_kind() {
                assert!(twice(alone, leaf, access) == twice(off, leaf, access));
            }
        }
        let (answers, ..) = twice(alone, CLEAN | AF, WRITE);
        let told = answers.map(|answer| (answer.tag, answer.code, answer.reads));
        assert_eq!(told, [(1, 15, 4), (1, 15, 0)]);
    }
}

#[test]
fn session_with_a_pool_above_its_limit() {
    // No call leaves one. It is refused as such a regime is.
    let mut memory = memory();
    memory.resize(1_052_672, 0);
    for (length, refusal) in [(1_048_576, 0), (1_052_672, 1)] {
        let mut session = session(REGIME);
        session.regime.length = length;
        let answer = session_access(&mut session, &mut memory, &READ);
        assert_eq!(answer.refusal, refusal);
        let reply = session_store(&mut session, &mut memory, POOL, 0x4000_1003);
        assert_eq!(reply, refusal);
    }
}

#[test]
fn session_keeps_each_entry_field() {
    let mut memory = memory();
    let mut session = session(REGIME);
    let answer = session_access(&mut session, &mut memory, &WRITE);
    assert_eq!((answer.tag, answer.reads), (0, 4));
    let page = 0x403;
    for (i, entry) in session.entries.iter().enumerate() {
        if i == page % ENTRIES {
            assert_eq!(entry.page, page as u64);
            assert_eq!(entry.value, (CLEAN | AF) & !AP2);
            assert_eq!(entry.left, 0);
            assert_eq!(entry.tables, 0);
            assert_ne!(entry.held, 0);
        } else {
            assert_eq!(entry.held, 0);
        }
    }

    // A block of level 2 has one level below it, one of level 1 has two.
    for (offset, left) in [(0x2010, 1), (0x1000, 2)] {
        put(&mut memory, offset, 0xc000_0641);
        session_invalidate_all(&mut session);
        session_access(&mut session, &mut memory, &READ);
        let entry = session.entries[page % ENTRIES];
        assert_eq!((entry.value, entry.left), (0xc000_0641, left));
    }

    // The sum of the tables' bits 62 to 59, and not the block's own; with HPD
    // none of them.
    put(&mut memory, 0x0000, 0x4000_1003 | 0b1_0001 << 59);
    put(&mut memory, 0x1000, 0x4000_2003 | 0b0_1001 << 59);
    put(&mut memory, THIRD, 0xc000_0641 | 0b1_1111 << 59);
    for (hpd0, tables) in [(0, 0b1001), (1, 0)] {
        let regime = Regime { hpd0, ..REGIME };
        assert_eq!(session_set_regime(&mut session, &memory, &regime), 0);
        session_access(&mut session, &mut memory, &READ);
        let entry = session.entries[page % ENTRIES];
        assert_eq!((entry.left, entry.tables), (1, tables));
    }

    // A drop empties the entries and leaves the rest.
    let (regime, set) = (session.regime, session.set);
    session_invalidate_all(&mut session);
    assert!(session.entries.iter().all(|entry| entry.held == 0));
    assert_eq!((session.regime, session.set), (regime, set));
}

#[test]
fn session_uses_each_entry_field() {
    // Every entry holds a page of its own that the tables do not map.
    let mut session = session(REGIME);
    for (i, entry) in session.entries.iter_mut().enumerate() {
        *entry = Entry {
            page: 0x1_0000 + i as u64,
            value: 0x0000_7000_0000_0643 + ((i as u64) << 39),
            left: 0,
            held: 1 + 3 * i as u8,
            ..Entry::default()
        };
    }
    let mut memory = memory();
    let access = |page: u64| Access {
        address: page << 12 | 0x678,
        ..READ
    };
    for i in 0..64 {
        let answer = session_access(&mut session, &mut memory, &access(0x1_0000 + i));
        assert_eq!(answer.output, 0x7000_0000_0678 + (i << 39));
        assert_eq!((answer.tag, answer.level, answer.reads), (0, 3, 0));
    }

    // Each field of one of them changed alone.
    let held = session.entries[5];
    let mut with = |entry| {
        session.entries[5] = entry;
        session_access(&mut session, &mut memory, &access(0x1_0005))
    };
    let walked = with(Entry { held: 0, ..held });
    assert_eq!((walked.tag, walked.code, walked.reads), (1, 6, 3));
    for page in [0x5, 0x1_0045, 0x1_0005 | 1 << 63] {
        assert_eq!(with(Entry { page, ..held }), walked);
    }
    let value = 0xdead_b000_0643;
    assert_eq!(with(Entry { value, ..held }).output, 0xdead_b000_0678);
    for left in 0..=255 {
        let answer = with(Entry { left, ..held });
        match left {
            0..=3 => assert_eq!((answer.reads, answer.level), (0, 3 - left)),
            _ => assert_eq!(answer, walked),
        }
    }

    // Bit 2 of the sum takes EL0's reads away; bits 7 to 4 have no say.
    for tables in 0..=255 {
        let answer = with(Entry { tables, ..held });
        let code = if tables & 4 == 0 { 0 } else { 15 };
        assert_eq!((answer.code, answer.reads), (code, 0));
    }
}

/// The leaf of the page with every combination of AP[1], AP[2], DBM, PXN and
/// UXN, its Access flag set.
fn every_leaf() -> impl Iterator<Item = u64> {
    let bits = [6, 7, 51, 53, 54];
    (0..32_u64).map(move |set| {
        let put = |(i, bit): (usize, &u32)| (set >> i & 1) << bit;
        0x8000_5703 | bits.iter().enumerate().map(put).sum::<u64>()
    })
}

/// Asks for the leaf under each sum of the tables' bits: under one table, under
/// three that have the bits between them, and in an entry that holds the sum.
fn under_each_sum(regime: Regime, leaf: u64, access: Access) {
    let walked = |sums: [u64; 3]| {
        let mut memory = under(sums);
        put(&mut memory, LEAF, leaf);
        walk(&mut memory, &regime, &access)
    };
    for sum in 0..16 {
        let answer = walked([0, 0, sum]);
        assert_eq!(walked([sum, 0, 0]), answer);
        assert_eq!(walked([sum & 0b1010, sum & 0b0110, sum & 0b0101]), answer);

        let mut session = session(regime);
        session.entries[0x403 % ENTRIES] = Entry {
            page: 0x403,
            value: leaf,
            held: 1,
            tables: sum as u8,
            ..Entry::default()
        };
        let held = session_access(&mut session, &mut memory(), &access);
        if answer.dirtied == 0 {
            assert_eq!(held, Answer { reads: 0, ..answer });
        } else {
            // A dirty update walks the tables, which have another leaf.
            assert_eq!(held.reads, 4);
        }
    }
}

#[test]
fn a_held_sum_is_that_of_the_tables() {
    for leaf in every_leaf() {
        for access in every_kind() {
            for wxn in [0, 1] {
                under_each_sum(Regime { wxn, ..REGIME }, leaf, access);
            }
        }
    }
}

#[test]
fn a_held_sum_counts_with_hpd() {
    // No call leaves one.
    let mut session = session(REGIME);
    session_access(&mut session, &mut memory(), &READ);
    session.regime.hpd0 = 1;
    session.entries[0x403 % ENTRIES].tables = 4;
    let answer = session_access(&mut session, &mut memory(), &READ);
    assert_eq!((answer.code, answer.reads), (15, 0));
}

#[test]
fn session_set_byte() {
    let mut memory = memory();
    let mut session = session(REGIME);
    session.set = 0;
    assert_eq!(
        session_access(&mut session, &mut memory, &READ),
        Answer {
            tag: 2,
            refusal: 9,
            ..Answer::default()
        }
    );
    assert_eq!(session_store(&mut session, &mut memory, POOL, 0), 9);
    for set in 1..=255 {
        session.set = set;
        let answer = session_access(&mut session, &mut memory, &READ);
        assert_eq!(answer.output, 0x8000_5abc);
    }
}

/// xorshift64.
fn next(state: &mut u64) -> u64 {
    *state ^= *state << 13;
    *state ^= *state >> 7;
    *state ^= *state << 17;
    *state
}

/// The bytes of the granule that a regime's byte names.
fn unit(granule: u8) -> usize {
    match granule {
        1 => 0x1_0000,
        2 => 0x4000,
        _ => 0x1000,
    }
}

/// A regime with bytes that no call leaves in a session.
fn any_regime(state: &mut u64) -> Regime {
    let mut byte = || next(state) as u8;
    let granule = match byte() % 8 {
        0 => 1,
        1 => 2,
        _ => byte(),
    };
    let mut regime = Regime {
        start: unit(granule) * usize::from(byte() % 6),
        length: unit(granule) * usize::from(byte() % 4),
        output: byte() % 8,
        tsz0: byte() % 48,
        tsz1: byte(),
        disabled0: byte() & byte() & byte(),
        disabled1: byte(),
        ha: byte(),
        hd: byte(),
        wxn: byte(),
        hpd0: byte(),
        hpd1: byte(),
        ee: byte() & 0x80,
        granule,
        spare: [(); 4].map(|()| byte()),
        ..REGIME
    };
    regime.root1 = next(state);
    regime.attributes = next(state);
    if next(state) & 7 == 0 {
        regime.address = next(state);
        regime.start = next(state) as usize;
    }
    if next(state) & 3 == 0 {
        regime.root0 = next(state) & !0xfff;
    }
    regime
}

fn any_session(state: &mut u64) -> Session {
    let mut session = session_empty();
    session.regime = any_regime(state);
    for (i, entry) in session.entries.iter_mut().enumerate() {
        *entry = Entry {
            page: i as u64 | next(state) & 0xc0,
            value: next(state),
            left: next(state) as u8 & 7,
            held: next(state) as u8,
            tables: (next(state) & next(state)) as u8,
            spare: [(); 5].map(|()| next(state) as u8),
        };
    }
    session.set = next(state) as u8;
    session.spare = [(); 7].map(|()| next(state) as u8);
    session
}

#[test]
fn any_bytes_are_a_session() {
    // Whatever stands in a session, a call ends, and changes bytes of the pool
    // alone.
    let mut state = 0x2545_f491_4f6c_dd1d;
    let mut around = vec![0; 6 * unit(1)];
    for chunk in around.chunks_exact_mut(8) {
        chunk.copy_from_slice(&next(&mut state).to_le_bytes());
    }
    let mut answers = [0; 3];
    for _ in 0..20_000 {
        let mut session = any_session(&mut state);
        let around = &around[..6 * unit(session.regime.granule)];
        let mut memory = around.to_vec();
        let access = Access {
            address: next(&mut state) & 0xf_ffff,
            size: 1,
            el0: next(&mut state) as u8,
            kind: next(&mut state) as u8,
            spare: [(); 6].map(|()| next(&mut state) as u8),
        };
        let answer = session_access(&mut session, &mut memory, &access);
        answers[usize::from(answer.tag)] += 1;
        let address = POOL + (next(&mut state) & 0x3fff);
        session_store(&mut session, &mut memory, address & !7, 0);
        // A refused pool leaves the whole memory as it was.
        let start = session.regime.start.min(memory.len());
        let end = memory
            .len()
            .min(start.saturating_add(session.regime.length));
        assert!(memory[..start] == around[..start]);
        assert!(memory[end..] == around[end..]);
    }
    assert!(answers.iter().all(|&count| count > 100), "{answers:?}");
}

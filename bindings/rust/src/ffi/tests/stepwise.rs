//! The walk a descriptor at a time: every field of its struct, given and left;
//! spare bytes; offers after the end; and bytes that no call leaves.

use super::spare::bytes;
use super::*;

/// The descriptors of P1 to P12, the leaf last.
const WAY: [(u64, u64); 4] = [
    (POOL, 0x4000_1003),
    (POOL + 0x1000, 0x4000_2003),
    (POOL + THIRD as u64, TABLE),
    (POOL + LEAF as u64, CLEAN),
];

/// What a walk that has not ended has for an answer.
const NONE: Answer = Answer {
    output: 0,
    tag: 2,
    refusal: 0,
    code: 0,
    level: 0,
    attribute: 0,
    shareability: 0,
    nonglobal: 0,
    accessed: 0,
    dirtied: 0,
    cacheable: 0,
    reads: 0,
    spare: [0; 4],
};

/// A walk that wants a descriptor.
fn wanting(regime: Regime, access: Access, address: u64, left: u8, tables: u8) -> Stepwise {
    Stepwise {
        regime,
        access,
        answer: NONE,
        address,
        expected: 0,
        value: 0,
        ended: 0,
        update: 0,
        left,
        tables,
        spare: [0; 4],
    }
}

/// A walk that has ended, with no update due.
fn ended(regime: Regime, access: Access, answer: Answer) -> Stepwise {
    Stepwise {
        answer,
        ended: 1,
        ..wanting(regime, access, 0, 0, 0)
    }
}

fn fault(code: u16, level: u8, reads: u8) -> Answer {
    Answer {
        tag: 1,
        code,
        level,
        reads,
        ..Answer::default()
    }
}

fn refused(refusal: u8) -> Answer {
    Answer {
        tag: 2,
        refusal,
        ..Answer::default()
    }
}

fn value(mut walk: Stepwise, value: u64) -> Stepwise {
    assert_eq!(stepwise_value(&mut walk, value), 0);
    walk
}

fn unreachable(mut walk: Stepwise) -> Stepwise {
    assert_eq!(stepwise_unreachable(&mut walk), 0);
    walk
}

/// Goes on over the worked cases' descriptors, to the end.
fn run(mut walk: Stepwise) -> Stepwise {
    while walk.ended == 0 {
        let mut way = WAY.into_iter();
        let found = way.find(|&(address, _)| address == walk.address);
        walk = match found {
            Some((_, descriptor)) => value(walk, descriptor),
            None => unreachable(walk),
        };
    }
    walk
}

/// The walk that wants P1's leaf.
fn at_the_leaf(regime: Regime, access: Access) -> Stepwise {
    let tables = WAY.into_iter().take(3);
    tables.fold(stepwise_start(&regime, &access), |walk, (_, table)| {
        value(walk, table)
    })
}

/// A regime and an access of which no two fields are alike.
fn distinct() -> (Regime, Access) {
    let regime = Regime {
        start: 0x1357,
        length: 0x2468,
        address: 0x1234_5678_9abc,
        root0: 0x2345_6789_4000,
        root1: 0x3456_789a_8000,
        attributes: 0x8877_6655_4433_2211,
        tsz0: 30,
        tsz1: 31,
        output: 5,
        ..REGIME
    };
    let access = Access {
        address: 0xffff_ffff_8765_4320,
        size: 16,
        ..READ
    };
    (regime, access)
}

#[test]
fn a_start_has_each_field() {
    let (numbers, access) = distinct();
    // Each flag is on and off, and any two of them differ somewhere.
    for [disabled0, ha, hd, wxn, hpd0, hpd1, ee, granule, el0, kind] in [
        [1, 1, 1, 0, 1, 0, 0, 0, 0, 1],
        [0, 1, 0, 1, 1, 0, 1, 0, 1, 2],
        [1, 0, 0, 1, 1, 1, 0, 2, 1, 0],
        [1, 1, 0, 0, 0, 1, 1, 2, 0, 2],
    ] {
        let regime = Regime {
            disabled0,
            ha,
            hd,
            wxn,
            hpd0,
            hpd1,
            ee,
            granule,
            ..numbers
        };
        let access = Access {
            el0,
            kind,
            ..access
        };
        // Level 1 with 4 KiB, level 2 with 16 KiB: the entry by bits 32 to 30,
        // or to 25.
        let (left, index) = match granule {
            0 => (2, 0x6),
            _ => (1, 0xc3),
        };
        let address = regime.root1 + 8 * index;
        let expected = wanting(regime, access, address, left, 0);
        assert_eq!(stepwise_start(&regime, &access), expected);
    }
}

#[test]
fn a_start_that_ends_has_each_field() {
    let (regime, access) = distinct();
    let disabled = Regime {
        disabled1: 1,
        ..regime
    };
    let expected = ended(disabled, access, fault(4, 0, 0));
    assert_eq!(stepwise_start(&disabled, &access), expected);
    let long = Access { size: 17, ..access };
    let expected = ended(regime, long, refused(6));
    assert_eq!(stepwise_start(&regime, &long), expected);
}

#[test]
fn a_start_writes_every_byte() {
    let mut state = 0x2545_f491_4f6c_dd1d;
    let disabled = Regime {
        disabled0: 1,
        ..REGIME
    };
    let bad = Regime { tsz1: 40, ..REGIME };
    for regime in [REGIME, disabled, bad] {
        let expected = stepwise_start(&regime, &READ);
        for _ in 0..100 {
            // Spare bytes that are given have no say, and are put to 0.
            let mut noise = |_| next(&mut state) as u8;
            let regime = Regime {
                spare: [0; 4].map(&mut noise),
                ..regime
            };
            let access = Access {
                spare: [0; 6].map(&mut noise),
                ..READ
            };
            let mut walk = expected;
            bytes(&mut walk).fill_with(|| next(&mut state) as u8);
            // SAFETY: the three structs are lent to this call alone.
            unsafe { vmsa_stepwise_start(&regime, &access, &mut walk) };
            assert_eq!(walk, expected);
        }
    }
}

#[test]
fn each_step_has_each_field() {
    for access in [READ, WRITE] {
        let mut walk = stepwise_start(&REGIME, &access);
        let sums = [0b0001, 0b1000, 0b0001];
        let mut tables = 0;
        for (place, (address, descriptor)) in WAY.into_iter().take(3).enumerate() {
            let expected = wanting(REGIME, access, address, 3 - place as u8, tables);
            assert_eq!(walk, expected);
            walk = value(walk, descriptor | u64::from(sums[place]) << 59 | 1 << 63);
            tables |= sums[place];
        }
        let expected = wanting(REGIME, access, WAY[3].0, 0, 0b1001);
        assert_eq!(walk, expected);
        let expected = ended(REGIME, access, fault(23, 3, 4));
        assert_eq!(unreachable(walk), expected);
    }
}

#[test]
fn an_end_has_each_field() {
    let found = Answer {
        output: 0x8000_5abc,
        level: 3,
        attribute: 0xff,
        shareability: 3,
        accessed: 1,
        cacheable: 1,
        reads: 4,
        ..Answer::default()
    };
    for (access, new) in [(READ, CLEAN | AF), (WRITE, (CLEAN | AF) & !AP2)] {
        let answer = Answer {
            dirtied: access.kind,
            ..found
        };
        let expected = Stepwise {
            address: WAY[3].0,
            expected: CLEAN,
            value: new,
            update: 1,
            ..ended(REGIME, access, answer)
        };
        assert_eq!(run(stepwise_start(&REGIME, &access)), expected);
    }

    // With no update due.
    let found = Answer {
        accessed: 0,
        ..found
    };
    let expected = ended(REGIME, READ, found);
    assert_eq!(value(at_the_leaf(REGIME, READ), CLEAN | AF), expected);
    let hd_off = Regime { hd: 0, ..REGIME };
    let expected = ended(hd_off, WRITE, fault(15, 3, 4));
    assert_eq!(run(stepwise_start(&hd_off, &WRITE)), expected);
    let expected = ended(REGIME, READ, fault(4, 0, 1));
    assert_eq!(value(stepwise_start(&REGIME, &READ), 0), expected);
}

/// A walk of each sort that has ended.
fn every_end() -> [Stepwise; 6] {
    let start = stepwise_start(&REGIME, &WRITE);
    let long = Access { size: 3, ..READ };
    let disabled = Regime {
        disabled0: 1,
        ..REGIME
    };
    [
        run(start),
        value(at_the_leaf(REGIME, READ), CLEAN | AF),
        value(start, 0),
        unreachable(start),
        stepwise_start(&REGIME, &long),
        stepwise_start(&disabled, &READ),
    ]
}

#[test]
fn offers_after_the_end() {
    let mut state = 0x9e37_79b9_7f4a_7c15;
    for mut walk in every_end() {
        for flag in 1..=255 {
            // As a call leaves it, and then with bytes that no call leaves.
            walk.ended = flag;
            let mut after = walk;
            assert_eq!(stepwise_value(&mut after, CLEAN), 12);
            assert_eq!(stepwise_value(&mut after, next(&mut state)), 12);
            assert_eq!(stepwise_unreachable(&mut after), 12);
            assert_eq!(after, walk);
            bytes(&mut walk).fill_with(|| next(&mut state) as u8);
        }
    }
}

#[test]
fn flags_are_true_unless_0() {
    let upper = Access {
        address: READ.address | 0xffff << 48,
        ..READ
    };
    // Where the flag shows: in the answer at the end.
    type Set = fn(&mut Regime, u8);
    let flags: [(Access, Set); 7] = [
        (READ, |r, flag| r.disabled0 = flag),
        (upper, |r, flag| r.disabled1 = flag),
        (READ, |r, flag| (r.ha, r.hd) = (flag, 0)),
        (WRITE, |r, flag| r.hd = flag),
        (Access { kind: 3, ..READ }, |r, flag| r.wxn = flag),
        (WRITE, |r, flag| r.hpd0 = flag),
        (Access { kind: 1, ..upper }, |r, flag| r.hpd1 = flag),
    ];
    for (i, (access, set)) in flags.into_iter().enumerate() {
        let answer = |flag| {
            let mut regime = REGIME;
            set(&mut regime, flag);
            let walk = stepwise_start(&regime, &access);
            // The bit of a table that HPD is about.
            let bits = if i > 4 { NO_WRITE << 59 } else { 0 };
            match walk.ended {
                0 => run(value(walk, 0x4000_1003 | bits)).answer,
                _ => walk.answer,
            }
        };
        assert_ne!(answer(0), answer(1), "flag {i}");
        for flag in 2..=255 {
            assert_eq!(answer(flag), answer(1), "flag {i}");
        }
    }
    for el0 in 1..=255 {
        let read = Access { el0, ..READ };
        let clean = CLEAN & !(1 << 6);
        assert_eq!(value(at_the_leaf(REGIME, read), clean).answer.code, 15);
    }
}

#[test]
fn kinds_above_5() {
    let expected = run(stepwise_start(&REGIME, &Access { kind: 2, ..READ }));
    assert_eq!(expected.answer.dirtied, 1);
    for kind in 6..=255 {
        let access = Access { kind, ..READ };
        let walk = run(stepwise_start(&REGIME, &access));
        assert_eq!(walk, Stepwise { access, ..expected });
    }
}

#[test]
fn granules_above_2() {
    // The address has another entry of the root for each granule: by its bits
    // 24 to 21, to 16 and to 14.
    let start = |granule| {
        let regime = Regime {
            granule,
            tsz0: 39,
            ..REGIME
        };
        let walk = stepwise_start(&regime, &READ);
        (walk.address - POOL, walk.left)
    };
    assert_eq!([0, 1, 2].map(start), [(0x10, 1), (0x200, 0), (0x800, 0)]);
    for granule in 3..=255 {
        assert_eq!(start(granule), start(0));
    }

    // So do the offers: a block of level 2 has another size.
    let block = |granule| {
        let walk = stepwise_start(&REGIME, &READ);
        let regime = Regime { granule, ..REGIME };
        let walk = Stepwise {
            regime,
            left: 1,
            ..walk
        };
        value(walk, 0x7fff_ffff_f641).answer.output
    };
    let within = [(1 << 21) - 1, (1 << 29) - 1, (1 << 25) - 1];
    let expected = within.map(|bits| 0x7fff_ffff_ffff & !bits | READ.address & bits);
    assert_eq!([0, 1, 2].map(block), expected);
    for granule in 3..=255 {
        assert_eq!(block(granule), block(0));
    }
}

/// Changes of a walk that wants a descriptor, in what its start was given.
type Change = fn(&mut Stepwise);

#[test]
fn an_offer_uses_the_regime_and_the_access() {
    // Each field changed alone in the walk that wants the leaf shows in the end
    // as it does where the walk was started so.
    let unaligned = Access {
        address: READ.address + 1,
        ..READ
    };
    let device = Regime {
        attributes: 0x04,
        ..REGIME
    };
    let fetch = Access { kind: 3, ..READ };
    let hd_off = Regime { hd: 0, ..REGIME };
    let changes: [(Regime, Access, Change); 10] = [
        (REGIME, READ, |w| w.regime.attributes = 0x44),
        (REGIME, READ, |w| w.regime.output = 0),
        (hd_off, READ, |w| w.regime.ha = 0),
        (REGIME, WRITE, |w| w.regime.hd = 0),
        (REGIME, fetch, |w| w.regime.wxn = 1),
        (device, unaligned, |w| w.access.address -= 1),
        (device, unaligned, |w| w.access.size = 1),
        (REGIME, fetch, |w| w.access.el0 = 0),
        (REGIME, READ, |w| w.access.kind = 1),
        (REGIME, READ, |w| w.access.address += 4),
    ];
    let leaf = CLEAN | 1 << 32;
    for (i, (regime, access, change)) in changes.into_iter().enumerate() {
        let mut walk = at_the_leaf(regime, access);
        let before = value(walk, leaf);
        change(&mut walk);
        let after = value(walk, leaf);
        assert_ne!(before.answer, after.answer, "change {i}");
        let started = at_the_leaf(walk.regime, walk.access);
        assert_eq!(after, value(started, leaf), "change {i}");
    }
}

#[test]
fn an_offer_goes_by_the_hpd_of_the_range() {
    let bit_55 = Access {
        address: 0xffff_ff80_0040_3abc,
        ..WRITE
    };
    for (access, change) in [
        (WRITE, (|w| w.regime.hpd0 = 1) as Change),
        (bit_55, |w| w.regime.hpd1 = 1),
    ] {
        let mut walk = at_the_leaf(REGIME, access);
        walk.tables = 0b1000;
        assert_eq!(value(walk, CLEAN).answer.code, 15);
        change(&mut walk);
        assert_eq!(value(walk, CLEAN).answer.dirtied, 1);
    }
}

#[test]
fn an_offer_takes_the_walk_as_it_stands() {
    // What the start alone asks has no say any more: the range, and the root.
    // Nor have the pool, EE and spare bytes.
    let walk = at_the_leaf(REGIME, WRITE);
    let expected = value(walk, CLEAN);
    let changes: [Change; 5] = [
        |w| (w.regime.disabled0, w.regime.disabled1) = (1, 1),
        |w| (w.regime.root0, w.regime.root1) = (0x7000, 0x8000),
        |w| (w.regime.start, w.regime.length, w.regime.address) = (1, 2, 3),
        |w| w.regime.ee = 1,
        |w| (w.regime.spare, w.access.spare) = ([0xa5; 4], [0xa5; 6]),
    ];
    for change in changes {
        let mut changed = walk;
        change(&mut changed);
        let expected = Stepwise {
            regime: changed.regime,
            access: changed.access,
            ..expected
        };
        assert_eq!(value(changed, CLEAN), expected);
    }
}

#[test]
fn what_only_an_end_has_has_no_say() {
    let mut state = 0x2545_f491_4f6c_dd1d;
    let mut noisy = |mut walk: Stepwise| {
        bytes(&mut walk.answer).fill_with(|| next(&mut state) as u8);
        walk.expected = next(&mut state);
        walk.value = next(&mut state);
        walk.update = next(&mut state) as u8;
        walk.spare = [next(&mut state) as u8; 4];
        walk
    };
    for walk in [stepwise_start(&REGIME, &WRITE), at_the_leaf(REGIME, WRITE)] {
        for descriptor in [CLEAN, CLEAN | AF, 0x4000_1003, 0] {
            let after = value(noisy(walk), descriptor);
            assert_eq!(after, value(walk, descriptor));
        }
        assert_eq!(unreachable(noisy(walk)), unreachable(walk));
    }
}

#[test]
fn any_address_of_the_descriptor() {
    for address in [0, 1, WAY[3].0 + 3, 1 << 48, u64::MAX] {
        let walk = Stepwise {
            address,
            ..at_the_leaf(REGIME, WRITE)
        };
        let after = value(walk, CLEAN);
        assert_eq!((after.update, after.address), (1, address));
        assert_eq!((after.expected, after.answer.dirtied), (CLEAN, 1));
    }
}

#[test]
fn more_levels_than_there_are() {
    // A walk so deep is at the first level: 0, 1 and 2 by T.
    for (tsz0, first) in [(16, 3), (25, 2), (39, 1)] {
        let regime = Regime { tsz0, ..REGIME };
        let walk = stepwise_start(&regime, &READ);
        assert_eq!(walk.left, first);
        for left in 0..=255 {
            let walk = Stepwise { left, ..walk };
            let level = 3 - left.min(first);
            let reads = 1 + first - left.min(first);
            let expected = ended(regime, READ, fault(4 + u16::from(level), level, reads));
            assert_eq!(value(walk, 0), expected);
            let expected = ended(regime, READ, fault(20 + u16::from(level), level, reads));
            assert_eq!(unreachable(walk), expected);
            if left >= first {
                let next = value(walk, TABLE);
                assert_eq!((next.ended, next.left), (0, first - 1));
            }
        }
    }
}

#[test]
fn every_sum() {
    // Bits 7 to 4 have no say, and a table's bits are added.
    let leaf = at_the_leaf(REGIME, WRITE);
    let table = stepwise_start(&REGIME, &WRITE);
    for tables in 0..=255 {
        let under = |sum| {
            value(
                Stepwise {
                    tables: sum,
                    ..leaf
                },
                CLEAN,
            )
        };
        assert_eq!(under(tables), under(tables & 15));
        let denied = tables & 0b1100 != 0;
        assert_eq!(under(tables).answer.code, if denied { 15 } else { 0 });
        for bits in 0..16 {
            let walk = Stepwise { tables, ..table };
            let next = value(walk, 0x4000_1003 | u64::from(bits) << 59);
            assert_eq!(next.tables, tables & 15 | bits);
        }
    }
}

#[test]
fn an_offer_asks_the_rows_again() {
    let spoils: [(u8, Change); 8] = [
        (3, |w| w.regime.tsz1 = 40),
        (3, |w| w.regime.output = 6),
        (4, |w| w.regime.root1 = 8),
        (4, |w| w.regime.root0 = 1 << 48),
        (5, |w| w.regime.attributes = 0x0f),
        (13, |w| w.regime.ha = 0),
        (6, |w| w.access.size = 0),
        (7, |w| w.access.address = 0x40_3fff),
    ];
    for walk in [stepwise_start(&REGIME, &READ), at_the_leaf(REGIME, READ)] {
        for (place, (refusal, spoil)) in spoils.into_iter().enumerate() {
            for (_, later) in &spoils[place..] {
                let mut spoilt = walk;
                later(&mut spoilt);
                spoil(&mut spoilt);
                let expected = ended(spoilt.regime, spoilt.access, refused(refusal));
                assert_eq!(value(spoilt, CLEAN), expected);
                assert_eq!(unreachable(spoilt), expected);
            }
        }
    }
}

/// A walk of any bytes, which often has not ended, and a regime and an access
/// that are often not refused.
fn any_walk(state: &mut u64) -> Stepwise {
    let mut walk = stepwise_start(&REGIME, &READ);
    bytes(&mut walk).fill_with(|| next(state) as u8);
    if next(state) & 3 != 0 {
        walk.ended = 0;
        walk.left &= 3;
        walk.regime = any_regime(state);
        walk.regime.attributes |= 0x1111_1111_1111_1111;
        (walk.regime.tsz0, walk.regime.tsz1) = (16, 20);
        walk.regime.root1 = 0;
        walk.access.address &= !0xf;
        walk.access.size = 1;
    }
    walk
}

#[test]
fn any_bytes_are_a_walk() {
    // It ends after at most four offers, and an offer changes neither what the
    // start was given nor anything after the end.
    let mut state = 0x2545_f491_4f6c_dd1d;
    let mut counts = [0; 5];
    let mut answers = [0; 3];
    for _ in 0..50_000 {
        let mut walk = any_walk(&mut state);
        let before = walk;
        let mut offers = 0;
        while walk.ended == 0 {
            offers += 1;
            let descriptor = next(&mut state) | 3;
            let reply = match next(&mut state) & 15 {
                0 => stepwise_unreachable(&mut walk),
                _ => stepwise_value(&mut walk, descriptor),
            };
            assert_eq!((reply, walk.spare, walk.answer.spare), (0, [0; 4], [0; 4]));
            assert!(walk.regime == before.regime && walk.access == before.access);
        }
        counts[offers] += 1;
        if offers > 0 {
            answers[usize::from(walk.answer.tag)] += 1;
            assert_eq!((walk.ended, walk.left, walk.tables), (1, 0, 0));
        }
        let after = walk;
        assert_eq!(stepwise_value(&mut walk, 0), 12);
        assert_eq!(stepwise_unreachable(&mut walk), 12);
        assert_eq!(walk, after);
    }
    assert!(counts.iter().all(|&count| count > 300), "{counts:?}");
    assert!(answers.iter().all(|&count| count > 300), "{answers:?}");
}

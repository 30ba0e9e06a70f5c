//! The granule: every value of its byte, given and held.

use super::*;

/// An address that has another entry of the root for each granule, with T 39.
const NEAR: Access = Access {
    address: 0x1_2340,
    ..READ
};

/// Past a multiple of 4,096, in the same page of 16 and of 64 KiB.
const ACROSS: Access = Access {
    address: 0x1_2ffe,
    ..READ
};

/// What `NEAR` finds with a granule: its page, the offset and the level of its
/// leaf, and the output address.
struct Place {
    granule: u8,
    page: u64,
    offset: usize,
    level: u8,
    output: u64,
}

const PLACES: [Place; 3] = [
    Place {
        granule: 0,
        page: 0x12,
        offset: 0x00,
        level: 2,
        output: 0x8001_2340,
    },
    Place {
        granule: 1,
        page: 0x1,
        offset: 0x08,
        level: 3,
        output: 0x8000_2340,
    },
    Place {
        granule: 2,
        page: 0x4,
        offset: 0x20,
        level: 3,
        output: 0x8000_6340,
    },
];

/// The place for a regime's byte: above 2 it is that of 4 KiB.
fn place(granule: u8) -> &'static Place {
    PLACES.get(usize::from(granule)).unwrap_or(&PLACES[0])
}

fn regime(granule: u8) -> Regime {
    Regime {
        tsz0: 39,
        granule,
        ..REGIME
    }
}

/// A root with a leaf for each granule: the same, but for the block's bit 1.
fn leaves() -> Vec<u8> {
    let mut memory = vec![0; 0x1_0000];
    for place in &PLACES {
        let page = u64::from(place.level == 3) << 1;
        put(&mut memory, place.offset, (CLEAN | AF) & !2 | page);
    }
    memory
}

#[test]
fn other_bytes_are_4_kib() {
    for granule in 0..=255 {
        let place = place(granule);
        let answer = walk(&mut leaves(), &regime(granule), &NEAR);
        assert_eq!((answer.tag, answer.reads), (0, 1));
        assert_eq!((answer.output, answer.level), (place.output, place.level));

        // A session has the number of the granule, and its pages.
        let mut session = session(regime(granule));
        assert_eq!(session.regime, regime(place.granule));
        let missed = session_access(&mut session, &mut leaves(), &NEAR);
        assert_eq!(missed, answer);
        let entry = session.entries[place.page as usize];
        assert_eq!((entry.page, entry.held), (place.page, 1));
        assert_eq!(entry.left, 3 - place.level);
        let held = session_access(&mut session, &mut leaves(), &NEAR);
        assert_eq!(held, Answer { reads: 0, ..answer });
    }
}

#[test]
fn a_session_goes_by_its_byte() {
    // No call leaves a byte above 2, nor another granule over held entries.
    // An entry answers where it holds the page of the granule of the moment.
    let mut session = session(regime(0));
    for granule in 0..=255 {
        session.regime.granule = granule;
        let place = place(granule);
        let found = session_access(&mut session, &mut leaves(), &NEAR);
        assert_eq!((found.output, found.level), (place.output, place.level));
        assert_eq!(found.reads, u8::from(granule < 3));

        let across = session_access(&mut session, &mut leaves(), &ACROSS);
        let further = ACROSS.address - NEAR.address;
        match place.granule {
            0 => assert_eq!((across.tag, across.refusal), (2, 7)),
            _ => assert_eq!(across.output, place.output + further),
        }
        assert_eq!(session.regime.granule, granule);
    }
    let held = session.entries.iter().filter(|entry| entry.held != 0);
    assert_eq!(held.count(), PLACES.len());
}

#[test]
fn a_session_holds_its_pool_against_its_byte() {
    // No call leaves such a pool. The refusals are in the order of `PLACES`.
    for (start, length, refusals) in [
        (0x1000, 0x4000, [0, 1, 1]),
        (0x4000, 0x1000, [0, 1, 1]),
        (0x4000, 0x4000, [0, 1, 0]),
        (0, 0x1_0000, [0, 0, 0]),
    ] {
        for granule in 0..=255 {
            let refusal = refusals[usize::from(place(granule).granule)];
            let mut session = session(regime(0));
            session.regime = Regime {
                start,
                length,
                ..regime(granule)
            };
            let mut memory = leaves();
            let answer = session_access(&mut session, &mut memory, &NEAR);
            assert_eq!(answer.refusal, refusal);
            let reply = session_store(&mut session, &mut memory, POOL, 0);
            assert_eq!(reply, refusal);
        }
    }
}

#[test]
fn a_session_holds_its_root_against_its_byte() {
    // No call leaves such a root. It finds no table, and else an empty one.
    for (root0, usable) in [
        (POOL + 0x1000, [true, false, false]),
        (POOL + 0x4000, [true, false, true]),
    ] {
        for granule in 0..=255 {
            let place = place(granule);
            let mut session = session(regime(0));
            session.regime = Regime {
                root0,
                ..regime(granule)
            };
            let answer = session_access(&mut session, &mut leaves(), &NEAR);
            let expected = match usable[usize::from(place.granule)] {
                true => (4 + u16::from(place.level), 1),
                false => (4, 0),
            };
            assert_eq!((answer.code, answer.reads), expected);
        }
    }
}

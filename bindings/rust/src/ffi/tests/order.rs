//! The byte order: what EE turns, and what it has no say in.

use super::spare::{Fill, List};
use super::*;

/// What is told of an answer: its code, and its reads.
fn told(answer: Answer) -> (u16, u8) {
    (answer.code, answer.reads)
}

/// Where the root's entry is read in the wrong order.
const ASTRAY: (u16, u8) = (4, 1);

#[test]
fn on_unless_0() {
    let number: u64 = 0x0123_4567_89ab_cdef;
    let mut plain = memory();
    let answer = walk(&mut plain, &REGIME, &WRITE);
    let expected = turned(plain);
    for ee in 1..=255 {
        let regime = Regime { ee, ..REGIME };
        assert_eq!(told(ask(regime, WRITE)), ASTRAY);
        let mut walked = turned(memory());
        assert_eq!(walk(&mut walked, &regime, &WRITE), answer);
        assert!(walked == expected);

        // A session has it as 1, and takes any other for that.
        let mut session = session(regime);
        assert_eq!(session.regime, Regime { ee: 1, ..REGIME });
        session.regime.ee = ee;
        let mut asked = turned(memory());
        assert_eq!(session_access(&mut session, &mut asked, &WRITE), answer);
        assert!(asked == expected);
        assert_eq!(session_store(&mut session, &mut asked, POOL, number), 0);
        assert_eq!(asked[..8], number.to_be_bytes());
        assert_eq!(session.regime.ee, ee);
    }
}

#[test]
fn a_hit_reads_nothing() {
    // No call leaves EE turned over held entries. They answer all the same;
    // a write that is to mark the page walks, and finds no table.
    for (first, then) in [(0, 1), (1, 0)] {
        let mut memory = match first {
            0 => memory(),
            _ => turned(memory()),
        };
        let mut session = session(Regime {
            ee: first,
            ..REGIME
        });
        session_access(&mut session, &mut memory, &READ);
        let (before, held) = (memory.clone(), session.entries);
        assert_eq!(held[0x403 % ENTRIES].value, CLEAN | AF);

        session.regime.ee = then;
        let answer = session_access(&mut session, &mut memory, &READ);
        assert_eq!((answer.output, answer.reads), (0x8000_5abc, 0));
        let answer = session_access(&mut session, &mut memory, &WRITE);
        assert_eq!(told(answer), ASTRAY);
        assert!(memory == before && session.entries == held);
        session.regime.ee = first;
        let answer = session_access(&mut session, &mut memory, &WRITE);
        assert_eq!((answer.dirtied, answer.reads), (1, 4));
    }
}

#[test]
fn tables_turned_with_ee() {
    // The same calls leave the same answers, the same entries and, but for
    // their order, the same bytes.
    for seed in 1..=40 {
        let [little, big] = [0, 1].map(|ee| List::made(seed, Fill::Zeros, ee));
        assert!(little.log == big.log, "list {seed}");
        assert!(little.memory == turned(big.memory), "list {seed}");
    }
}

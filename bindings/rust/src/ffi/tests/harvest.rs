//! Harvests: every byte of a session that one leaves; flags and numbers of any
//! value; refusals of regimes that a session has from no call; null pointers.

use super::spare::bytes;
use super::*;

/// The page of the leaf, and the leaf once written.
const PAGE: u64 = 0x403;
const DIRTY: u64 = (CLEAN | AF) & !AP2;

/// What a harvest is made with; as it starts it is not refused.
#[derive(Clone, Copy)]
struct Question {
    regime: Regime,
    first: u64,
    count: u64,
    map: usize,
}

const QUESTION: Question = Question {
    regime: REGIME,
    first: PAGE,
    count: 9,
    map: 2,
};

/// What a harvest leaves: the reply, the map and the memory.
type Left = (u8, Vec<u8>, Vec<u8>);

fn dirty() -> Vec<u8> {
    let mut memory = memory();
    put(&mut memory, LEAF, DIRTY);
    memory
}

fn plain(question: Question, mut memory: Vec<u8>) -> Left {
    let Question { first, count, .. } = question;
    let mut map = vec![0x5a; question.map];
    let reply = harvest(&mut memory, &question.regime, first, count, &mut map);
    (reply, map, memory)
}

/// A session of these bytes but for the regime, which no check has seen.
fn crafted(regime: Regime, byte: u8) -> Session {
    let mut session = session(REGIME);
    bytes(&mut session).fill(byte);
    session.regime = regime;
    session
}

/// In a session; where it is accepted the entries are emptied, and else every
/// byte stays.
fn in_session(question: Question, mut session: Session, mut memory: Vec<u8>) -> Left {
    let Question { first, count, .. } = question;
    let mut map = vec![0x5a; question.map];
    let mut expected = session;
    let reply = session_harvest(&mut session, &mut memory, first, count, &mut map);
    if reply == 0 {
        expected.entries = [Entry::default(); ENTRIES];
    }
    assert!(session == expected);
    (reply, map, memory)
}

/// What is left where the page alone is reported, and made clean.
fn reported() -> Left {
    let mut memory = memory();
    put(&mut memory, LEAF, CLEAN | AF);
    (0, vec![0b1, 0], memory)
}

#[test]
fn every_byte() {
    assert!(plain(QUESTION, dirty()) == reported());
    for set in 1..=255 {
        let session = Session {
            set,
            ..crafted(REGIME, !set)
        };
        assert!(in_session(QUESTION, session, dirty()) == reported());
    }
    let fresh = Session {
        set: 0,
        ..crafted(REGIME, 0xa5)
    };
    let refused = (9, vec![0x5a; 2], dirty());
    assert!(in_session(QUESTION, fresh, dirty()) == refused);
}

#[test]
fn both_alike_for_any_flag() {
    // Those of the ranges have a say; any byte but 0 is the same, also where a
    // session has it.
    type Set = fn(&mut Regime, u8);
    let flags: [(bool, Set); 7] = [
        (true, |r, flag| r.disabled0 = flag),
        (false, |r, flag| r.disabled1 = flag),
        (false, |r, flag| (r.ha, r.hd) = (flag, 0)),
        (false, |r, flag| r.hd = flag),
        (false, |r, flag| r.wxn = flag),
        (false, |r, flag| (r.hpd0, r.hpd1) = (flag, flag)),
        (false, |r, flag| r.spare = [flag; 4]),
    ];
    for (i, (say, set)) in flags.into_iter().enumerate() {
        for flag in 0..=255 {
            let mut question = QUESTION;
            set(&mut question.regime, flag);
            let left = plain(question, dirty());
            let expected = match say && flag != 0 {
                true => (0, vec![0, 0], dirty()),
                false => reported(),
            };
            assert!(left == expected, "flag {i}");
            let session = crafted(question.regime, 0xa5);
            assert!(in_session(question, session, dirty()) == left, "flag {i}");
        }
    }
}

#[test]
fn any_ee() {
    for ee in 1..=255 {
        let mut question = QUESTION;
        question.regime.ee = ee;
        let (reply, map, memory) = reported();
        let expected = (reply, map, turned(memory));
        let session = crafted(question.regime, 0xa5);
        assert!(plain(question, turned(dirty())) == expected);
        assert!(in_session(question, session, turned(dirty())) == expected);
        assert!(plain(question, dirty()).1 == [0, 0]);
    }
}

#[test]
fn any_granule() {
    // A root with T 39 whose entries are dirty pages of level 3, or blocks of
    // 2 MiB, by the number of the granule; the block sticks out.
    let leaves = |bits: u64| {
        let mut memory = vec![0; 0x1_0000];
        (0..16).for_each(|n| put(&mut memory, 8 * n, DIRTY & !3 | bits));
        memory
    };
    for granule in 0..=255 {
        let mut question = QUESTION;
        (question.regime.tsz0, question.regime.granule) = (39, granule);
        question.first = 1;
        let session = crafted(question.regime, 0xa5);
        let pages = plain(question, leaves(3));
        let blocks = plain(question, leaves(1));
        assert!(in_session(question, session, leaves(3)) == pages);
        assert!(in_session(question, session, leaves(1)) == blocks);
        let all = (0, vec![0xff, 0b1]);
        let none = (0, vec![0, 0]);
        match granule {
            1 | 2 => {
                assert!((pages.0, pages.1) == all && pages.2 != leaves(3));
                assert!((blocks.0, blocks.1) == none && blocks.2 == leaves(1));
            }
            _ => {
                assert!((pages.0, pages.1) == none && pages.2 == leaves(3));
                assert!((blocks.0, blocks.1) == all && blocks.2 == leaves(1));
            }
        }
    }
}

#[test]
fn the_first_of_two() {
    // In a session whose regime no call leaves too, after 9.
    type Change = fn(&mut Question);
    let spoils: [(u8, Change); 10] = [
        (1, |q| q.regime.start = 0x1000),
        (2, |q| q.regime.address = POOL + 8),
        (3, |q| q.regime.tsz1 = 40),
        (3, |q| q.regime.output = 6),
        (4, |q| q.regime.root1 = 1 << 48),
        (5, |q| q.regime.attributes = 0x0f),
        (13, |q| q.regime.ha = 0),
        (10, |q| q.first = 1 << 36),
        (10, |q| q.count = u64::MAX),
        (11, |q| q.map = 0),
    ];
    for (place, (refusal, spoil)) in spoils.into_iter().enumerate() {
        for (_, later) in &spoils[place..] {
            let mut question = QUESTION;
            later(&mut question);
            spoil(&mut question);
            let expected = |reply| (reply, vec![0x5a; question.map], dirty());
            assert!(plain(question, dirty()) == expected(refusal), "{refusal}");
            let mut session = crafted(question.regime, 0xa5);
            assert!(in_session(question, session, dirty()) == expected(refusal));
            session.set = 0;
            assert!(in_session(question, session, dirty()) == expected(9));
        }
    }
}

#[test]
fn null_where_the_length_is_0() {
    let null = std::ptr::null_mut();
    let mut session = session(REGIME);
    let mut memory = dirty();
    let (lent, length) = (memory.as_mut_ptr(), memory.len());
    // SAFETY: a null pointer is allowed where the length is 0.
    let replies = unsafe {
        [
            vmsa_harvest(null, 0, &REGIME, PAGE, 1, null, 0),
            vmsa_harvest(lent, length, &REGIME, PAGE, 1, null, 0),
            vmsa_session_harvest(&mut session, null, 0, PAGE, 1, null, 0),
            vmsa_session_harvest(&mut session, lent, length, PAGE, 1, null, 0),
        ]
    };
    assert_eq!(replies, [1, 11, 1, 11]);
    assert!(memory == dirty());
}

#[test]
fn any_bytes_are_a_session() {
    let mut state = 0x9e37_79b9_7f4a_7c15;
    let mut replies = [0; 14];
    for _ in 0..20_000 {
        let mut session = session(REGIME);
        let kept = session.regime;
        bytes(&mut session).fill_with(|| next(&mut state) as u8);
        if next(&mut state) & 3 != 0 {
            session.regime = kept;
            let numbers = bytes(&mut session);
            numbers[next(&mut state) as usize % 56] = next(&mut state) as u8;
        }
        let question = Question {
            map: 1 + next(&mut state) as usize % 2,
            first: PAGE + (next(&mut state) & 7) / 7 * (1 << 40),
            regime: session.regime,
            ..QUESTION
        };
        let left = in_session(question, session, dirty());
        if session.set != 0 {
            assert!(plain(question, dirty()) == left);
        }
        replies[usize::from(left.0)] += 1;
    }
    let met = [0, 1, 2, 3, 4, 10, 11].map(|reply| replies[reply]);
    assert!(met.iter().all(|&count| count > 10), "{replies:?}");
}

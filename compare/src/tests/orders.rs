//! The byte order of descriptors (RULES 2.3), worked by hand from the numbers
//! of the worked cases (RULES 12).

use super::{access, fault, go, misaligned, start, success, LEAF_OFFSET, POOL};
use crate::boundary::{plain_answer, CAnswer};
use crate::orders::{Ordered, Turn};
use crate::promises::{self, Expect};
use crate::reference::{
    descriptor_bytes, read_descriptor, walk, Access, Answer, Kind, Pool, Regime,
};
use crate::refusals;
use crate::reversed::{self, other_order, reverse};
use crate::session::{Session, Way};

/// The four descriptors, highest byte first, and where they stand.
const BIG: [(usize, [u8; 8]); 4] = [
    (0, [0, 0, 0, 0, 0x40, 0, 0x10, 0x03]),
    (0x1000, [0, 0, 0, 0, 0x40, 0, 0x20, 0x03]),
    (0x2010, [0, 0, 0, 0, 0x40, 0, 0x30, 0x03]),
    (LEAF_OFFSET, [0, 0x08, 0, 0, 0x80, 0, 0x53, 0xC3]),
];
/// The leaf's bytes as a read leaves them, and as a write does.
const READ: [u8; 8] = [0, 0x08, 0, 0, 0x80, 0, 0x57, 0xC3];
const WRITTEN: [u8; 8] = [0, 0x08, 0, 0, 0x80, 0, 0x57, 0x43];

fn put(memory: &mut [u8], offset: usize, bytes: [u8; 8]) {
    memory[offset..offset + 8].copy_from_slice(&bytes);
}

fn bytes_at(memory: &[u8], offset: usize) -> [u8; 8] {
    memory[offset..offset + 8].try_into().unwrap()
}

/// The worked cases with EE on.
fn start_big() -> (Vec<u8>, Regime) {
    let (mut memory, mut regime) = start();
    memory.fill(0);
    for (offset, bytes) in BIG {
        put(&mut memory, offset, bytes);
    }
    regime.ee = true;
    (memory, regime)
}

#[test]
fn a_number_and_its_bytes() {
    let number = 0x0102_0304_0506_0708;
    let (little, big) = ([8, 7, 6, 5, 4, 3, 2, 1], [1, 2, 3, 4, 5, 6, 7, 8]);
    for (ee, bytes) in [(false, little), (true, big)] {
        assert_eq!(descriptor_bytes(number, ee), bytes);
        assert_eq!(read_descriptor(&bytes, 0, ee), number);
    }
}

#[test]
fn p1_and_p2_with_ee() {
    for (kind, left) in [(Kind::Read, READ), (Kind::Write, WRITTEN)] {
        let (mut memory, regime) = start_big();
        let walk = go(&mut memory, &regime, &access(kind));
        let (mut little, without) = start();
        let wanted = go(&mut little, &without, &access(kind));
        assert_eq!(walk.answer, wanted.answer);
        assert_eq!(walk.visited, wanted.visited);
        assert_eq!(success(&walk).output, 0x8000_5ABC);
        assert_eq!(bytes_at(&memory, LEAF_OFFSET), left);
    }
}

#[test]
fn p3_with_ee() {
    let (mut memory, regime) = start_big();
    let probe = Access {
        size: 1,
        ..access(Kind::ProbeWrite)
    };
    assert!(!success(&go(&mut memory, &regime, &probe)).rememberable);
    assert_eq!(memory, start_big().0);
}

/// P4 to P10: the regime, a descriptor that is changed, the fault.
#[test]
fn the_worked_faults_with_ee() {
    type Change = fn(&mut Regime);
    let none: Change = |_| {};
    let (third, leaf) = (BIG[2].0, BIG[3].0);
    let (write, read) = (access(Kind::Write), access(Kind::Read));
    let rows: [(Change, usize, [u8; 8], Access, u16); 7] = [
        (|r| r.hd = false, third, BIG[2].1, write, 15),
        (|r| (r.ha, r.hd) = (false, false), leaf, BIG[3].1, write, 11),
        (none, third, [0, 0, 0, 0, 0x40, 0, 0xF0, 0x03], read, 7),
        (none, third, [0, 0, 0, 0, 0x40, 1, 0x00, 0x03], read, 23),
        (
            |r| r.output_code = 0,
            leaf,
            [0, 8, 0, 1, 0, 0, 3, 0xC3],
            read,
            3,
        ),
        (none, leaf, [0, 8, 0, 0, 0x80, 0, 0x53, 0xC1], read, 7),
        (|r| r.attributes[0] = 0, leaf, BIG[3].1, misaligned(), 33),
    ];
    for (change, offset, bytes, asked, code) in rows {
        let (mut memory, mut regime) = start_big();
        change(&mut regime);
        put(&mut memory, offset, bytes);
        let before = memory.clone();
        let walk = go(&mut memory, &regime, &asked);
        assert_eq!(fault(&walk), (code, 3, false, 4));
        assert_eq!(memory, before);
    }
}

#[test]
fn tables_in_the_wrong_order_are_not_found() {
    // Read from the wrong end, bits 1..0 are those of a byte that is 0.
    let (little, without) = start();
    let (big, with) = start_big();
    for (memory, regime) in [(little, with), (big.clone(), without)] {
        let mut lent = memory.clone();
        let walk = go(&mut lent, &regime, &access(Kind::Write));
        assert_eq!(fault(&walk), (4, 0, false, 1));
        assert_eq!(lent, memory);
    }
    // One alone of the four.
    for (level, (offset, _)) in (0..).zip(BIG) {
        let mut lent = big.clone();
        lent[offset..offset + 8].reverse();
        let walk = go(&mut lent, &with, &access(Kind::Write));
        assert_eq!(
            fault(&walk),
            (4 + level, level as u8, false, level as u8 + 1)
        );
    }
}

/// A block of level 2 that is one in either order: without EE it is accessed
/// and dirty, with EE it is neither yet.
const EITHER: [u8; 8] = [0x41, 0x0C, 0, 0x80, 0x12, 0, 0, 0xC1];

/// The memory and regime of such a block, and a write to it.
fn start_either() -> (Vec<u8>, Regime, Access) {
    let (mut memory, mut regime) = start();
    put(&mut memory, 0, EITHER);
    regime.ranges[0].t = 39;
    let write = Access {
        address: 0x12_3454,
        ..access(Kind::Write)
    };
    (memory, regime, write)
}

#[test]
fn a_descriptor_that_both_orders_find() {
    let (memory, mut regime, write) = start_either();
    let marked = [0x41, 0x0C, 0, 0x80, 0x12, 0, 0x04, 0x41];
    for (ee, output, marks, left) in [
        (false, 0x12_8012_3454, false, EITHER),
        (true, 0x80_1212_3454, true, marked),
    ] {
        let mut lent = memory.clone();
        regime.ee = ee;
        let success = success(&walk(&mut lent, &regime, &write));
        assert_eq!((success.output, success.reads), (output, 1));
        assert_eq!((success.accessed, success.dirtied), (marks, marks));
        assert_eq!(success.nonglobal, !ee);
        assert_eq!(bytes_at(&lent, 0), left);
        assert_eq!(lent[8..], memory[8..]);
    }
}

// ---------------------------------------------------------------- in a session

/// The worked cases with EE on, and a session that has their regime.
fn session_big() -> (Session, Vec<u8>, Regime) {
    let (memory, regime) = start_big();
    let mut session = Session::FRESH;
    assert_eq!(session.set_regime(memory.len(), &regime), None);
    (session, memory, regime)
}

/// Code, or the output address of a success; and the count.
fn told(answer: Answer) -> (Result<u64, u16>, u8) {
    match answer {
        Answer::Success(success) => (Ok(success.output), success.reads),
        Answer::Fault(fault) => (Err(fault.stop.code()), fault.reads),
        Answer::Refused(number) => panic!("refused with {number}"),
    }
}

#[test]
fn a_session_marks_with_ee() {
    let (mut session, mut memory, _) = session_big();
    for (kind, reads, left) in [
        (Kind::Read, 4, READ),
        (Kind::Fetch, 0, READ),
        (Kind::Write, 4, WRITTEN),
        (Kind::Update, 0, WRITTEN),
    ] {
        let (answer, _) = session.access(&mut memory, &access(kind));
        assert_eq!(told(answer), (Ok(0x8000_5ABC), reads), "{kind:?}");
        assert_eq!(bytes_at(&memory, LEAF_OFFSET), left);
        let held = session.places[3].unwrap().leaf.descriptor;
        assert_eq!(held, u64::from_be_bytes(left));
    }
}

#[test]
fn a_store_has_the_order_of_its_moment() {
    let (mut session, mut memory, regime) = session_big();
    let (address, value) = (POOL + 0x5008, 0x0102_0304_0506_0708);
    let mut wanted = memory.clone();
    for ee in [true, false, true] {
        let set = Regime { ee, ..regime };
        assert_eq!(session.set_regime(memory.len(), &set), None);
        assert_eq!(memory, wanted);
        assert_eq!(session.store(&mut memory, address, value), None);
        let bytes = if ee {
            [1, 2, 3, 4, 5, 6, 7, 8]
        } else {
            [8, 7, 6, 5, 4, 3, 2, 1]
        };
        put(&mut wanted, 0x5008, bytes);
        assert_eq!(memory, wanted);
    }
}

#[test]
fn stores_in_one_order_are_read_in_the_other() {
    let (mut session, mut memory, regime) = session_big();
    let without = other_order(&regime);
    let read = access(Kind::Read);
    assert_eq!(told(session.access(&mut memory, &read).0).1, 4);
    // The same tables once more, for a reader without EE.
    for (offset, bytes) in BIG {
        let value = u64::from_le_bytes(bytes);
        assert_eq!(
            session.store(&mut memory, POOL + offset as u64, value),
            None
        );
    }
    // The page is held all the same, until the regime is set.
    assert_eq!(
        told(session.access(&mut memory, &read).0),
        (Ok(0x8000_5ABC), 0)
    );
    assert_eq!(session.set_regime(memory.len(), &without), None);
    assert_eq!(session.places, Session::FRESH.places);
    assert_eq!(memory, start().0);
    assert_eq!(
        told(session.access(&mut memory, &read).0),
        (Ok(0x8000_5ABC), 4)
    );
    // And with EE they are lost.
    assert_eq!(session.set_regime(memory.len(), &regime), None);
    assert_eq!(told(session.access(&mut memory, &read).0), (Err(4), 1));
}

#[test]
fn a_hit_does_not_ask_for_the_order() {
    // No call leaves such a session (RULES 10.5).
    let (mut session, mut memory, regime) = session_big();
    session.access(&mut memory, &access(Kind::Read));
    session.regime = Some(other_order(&regime));
    let (answer, way) = session.access(&mut memory, &access(Kind::Fetch));
    assert_eq!(told(answer), (Ok(0x8000_5ABC), 0));
    assert!(matches!(way, Way::Held));
    // A write has a mark to make, and walks.
    let (answer, way) = session.access(&mut memory, &access(Kind::Write));
    assert_eq!(told(answer), (Err(4), 1));
    assert!(matches!(way, Way::WalkedAgain(_)));
}

#[test]
fn stores_are_refused_alike() {
    let (memory, with) = start_big();
    let length = memory.len();
    for regime in [with, other_order(&with)] {
        let set = Some(&regime);
        for (address, refusal) in [
            (POOL, None),
            (POOL + 4, Some(8)),
            (POOL + 7, Some(8)),
            (POOL - 8, Some(8)),
            (POOL + 0xFFF8, None),
            (POOL + 0x1_0000, Some(8)),
        ] {
            assert_eq!(refusals::of_store(length, set, address), refusal);
        }
        assert_eq!(refusals::of_store(length - 1, set, POOL), Some(1));
    }
}

// ------------------------------------------------------------- what is checked

#[test]
fn marks_in_the_wrong_order_break_a_promise() {
    let (before, regime) = start_big();
    let mut memory = before.clone();
    let asked = access(Kind::Write);
    let walk = go(&mut memory, &regime, &asked);
    let answer = plain_answer(&walk.answer);
    let check = |after: &[u8]| {
        let expect = Expect::Walked;
        promises::check(&regime, &asked, &answer, &before, after, &walk, expect)
    };
    assert_eq!(check(&memory), Ok(()));
    // AF and AP[2] where they would be without EE.
    let mut wrong = before.clone();
    wrong[LEAF_OFFSET + 1] |= 4;
    wrong[LEAF_OFFSET] &= !0x80;
    assert!(check(&wrong).is_err());
    memory[LEAF_OFFSET..LEAF_OFFSET + 8].reverse();
    assert!(check(&memory).is_err());
}

#[test]
fn a_pool_is_reversed_and_nothing_else() {
    let pool = |start, length| Pool {
        start,
        length,
        address: POOL,
    };
    let first: Vec<u8> = (0..40).collect();
    let mut memory = first.clone();
    assert!(reverse(&mut memory, &pool(8, 16)));
    assert_eq!(memory[..8], first[..8]);
    assert_eq!(memory[8..16], [15, 14, 13, 12, 11, 10, 9, 8]);
    assert_eq!(memory[16..24], [23, 22, 21, 20, 19, 18, 17, 16]);
    assert_eq!(memory[24..], first[24..]);
    assert!(reverse(&mut memory, &pool(8, 16)));
    assert_eq!(memory, first);
    for outside in [pool(0, 41), pool(40, 8), pool(usize::MAX, 8)] {
        assert!(!reverse(&mut memory, &outside));
    }
    assert_eq!(memory, first);
}

/// A second walker with a slip, for a write of the worked cases.
fn told_of(slip: impl Fn(&Regime, &mut CAnswer, &mut [u8])) -> Result<bool, String> {
    let (before, regime) = start_big();
    let asked = access(Kind::Write);
    let mut left = before.clone();
    let answer = plain_answer(&walk(&mut left, &regime, &asked).answer);
    let mut memory = before;
    reversed::check(&regime, &answer, &left, &mut memory, |lent, other| {
        let mut again = plain_answer(&walk(lent, other, &asked).answer);
        slip(other, &mut again, lent);
        again
    })
}

#[test]
fn another_answer_in_the_other_order_is_told() {
    assert_eq!(told_of(|_, _, _| {}), Ok(true));
    assert_eq!(
        told_of(|other, _, lent| {
            assert!(!other.ee);
            assert_eq!(lent[..8], [0x03, 0x10, 0, 0x40, 0, 0, 0, 0]);
        }),
        Ok(true)
    );
    assert!(told_of(|_, answer, _| answer.reads = 3).is_err());
    assert!(told_of(|_, _, lent| lent[LEAF_OFFSET] ^= 1).is_err());
    assert!(told_of(|_, _, lent| lent[0] = 0).is_err());
}

#[test]
fn a_pool_outside_the_memory_is_left_out() {
    let (mut memory, mut regime) = start_big();
    regime.pool.length += regime.granule.length();
    let before = memory.clone();
    let refused = plain_answer(&Answer::Refused(1));
    let again = |_: &mut [u8], _: &Regime| -> CAnswer { panic!("a second walk") };
    let told = reversed::check(&regime, &refused, &before, &mut memory, again);
    assert_eq!(told, Ok(false));
}

#[test]
fn what_the_order_decides() {
    let read = access(Kind::Read);
    let (big, with) = start_big();
    let (little, without) = start();
    let turn = |memory: &[u8], regime: &Regime, asked: &Access| {
        let answer = walk(&mut memory.to_vec(), regime, asked).answer;
        Turn::of(memory, regime, asked, &answer)
    };
    assert_eq!(turn(&big, &with, &read), Some(Turn::ThisAlone));
    assert_eq!(turn(&little, &without, &read), Some(Turn::ThisAlone));
    assert_eq!(turn(&little, &with, &read), Some(Turn::OtherAlone));
    let (either, regime, write) = start_either();
    assert_eq!(turn(&either, &regime, &write), Some(Turn::Both));
    let missing = Access {
        address: 0x40_2ABC,
        ..read
    };
    assert_eq!(turn(&big, &with, &missing), Some(Turn::Neither));
    assert_eq!(turn(&[], &with, &read), None);
    assert_eq!(turn(&vec![0; 65_536], &with, &read), None);
}

#[test]
fn what_is_counted_in_each_order() {
    let (memory, regime) = start_big();
    let of = |asked: &Access| {
        let walk = walk(&mut memory.clone(), &regime, asked);
        Ordered::of(&memory, &regime, asked, &walk)
    };
    let alone = Ordered::Turn(Turn::ThisAlone);
    let marks = Ordered::Marks(Kind::Write, true, true);
    let wanted = [Ordered::Success(0, 3), marks, alone];
    assert_eq!(of(&access(Kind::Write)), wanted);
    assert_eq!(of(&access(Kind::ProbeRead)), [Ordered::Refused(6)]);
    let all = Ordered::all();
    assert!(wanted.iter().all(|what| all.contains(what)));
}

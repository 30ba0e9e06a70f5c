//! The bits with which tables take permissions away (RULES 6.11), worked by
//! hand from the numbers of the worked cases (RULES 12).

use super::{
    access, fault, go, misaligned, read_descriptor, start, success, write_descriptor, LEAF,
    LEAF_OFFSET, POOL,
};
use crate::boundary::plain_answer;
use crate::promises::{self, Expect};
use crate::reference::{
    walk, Access, Answer, Kind, Regime, AF, AP1, AP2, AP_TABLE_0, AP_TABLE_1, DBM, PXN_TABLE,
    TAKING, UXN_TABLE,
};
use crate::session::{Session, Way};
use crate::{bare, decisions};

/// Where the three tables are named.
const TABLES: [usize; 3] = [0, 0x1000, 0x2010];
/// The leaf once a write has made it dirty.
const WRITTEN: u64 = 0x0008_0000_8000_5743;

fn turn(memory: &mut [u8], offset: usize, place: u32) {
    let old = read_descriptor(memory, offset);
    write_descriptor(memory, offset, old ^ 1 << place);
}

/// What EL0 and EL1 may do, in this order: read, write, fetch.
fn rights(memory: &[u8], regime: &Regime) -> String {
    let may = |el0, kind, letter| {
        let asked = Access {
            el0,
            ..access(kind)
        };
        match go(&mut memory.to_vec(), regime, &asked).answer {
            Answer::Success(_) => letter,
            Answer::Fault(fault) if fault.stop.code() == 15 => '-',
            other => panic!("{other:?}"),
        }
    };
    let of = |el0| {
        [(Kind::Read, 'r'), (Kind::Write, 'w'), (Kind::Fetch, 'x')]
            .map(|(kind, letter)| may(el0, kind, letter))
    };
    [&of(true)[..], &[' '], &of(false)[..]]
        .concat()
        .iter()
        .collect()
}

/// The same with another leaf, WXN, and a bit in each table in turn.
fn rights_under(leaf: u64, wxn: bool, place: u32) -> String {
    let mut all = TABLES.map(|table| {
        let (mut memory, mut regime) = start();
        regime.wxn = wxn;
        write_descriptor(&mut memory, LEAF_OFFSET, leaf);
        turn(&mut memory, table, place);
        rights(&memory, &regime)
    });
    all.sort();
    assert_eq!(all[0], all[2]);
    all[0].clone()
}

#[test]
fn what_each_bit_takes_away() {
    let (memory, regime) = start();
    assert_eq!(rights(&memory, &regime), "rwx rw-");
    for (place, wanted) in [
        (63, "rwx rw-"),
        (AP_TABLE_1, "r-x r-x"),
        (AP_TABLE_0, "--x rwx"),
        (UXN_TABLE, "rw- rw-"),
        (PXN_TABLE, "rwx rw-"),
    ] {
        assert_eq!(rights_under(LEAF, false, place), wanted, "{place}");
    }
    // AP[1] 0: EL1 may fetch, until bit 59 is there.
    let leaf = LEAF & !(1 << AP1);
    for (place, wanted) in [
        (63, "--x rwx"),
        (AP_TABLE_1, "--x r-x"),
        (AP_TABLE_0, "--x rwx"),
        (UXN_TABLE, "--- rwx"),
        (PXN_TABLE, "--x rw-"),
    ] {
        assert_eq!(rights_under(leaf, false, place), wanted, "{place}");
    }
}

#[test]
fn what_cannot_be_written_may_be_fetched() {
    for (leaf, place, wanted) in [
        (WRITTEN, 63, "rw- rw-"),
        (WRITTEN, AP_TABLE_1, "r-x r-x"),
        (WRITTEN, AP_TABLE_0, "--x rw-"),
        (WRITTEN, UXN_TABLE, "rw- rw-"),
        (LEAF, 63, "rw- rw-"),
        (LEAF, AP_TABLE_1, "r-x r-x"),
        (LEAF & !(1 << DBM), AP_TABLE_1, "r-x r-x"),
        (LEAF & !(1 << DBM), PXN_TABLE, "r-x r--"),
    ] {
        assert_eq!(rights_under(leaf, true, place), wanted, "{leaf:x} {place}");
    }
}

#[test]
fn the_bits_add_up_unless_switched_off() {
    let (mut memory, mut regime) = start();
    turn(&mut memory, TABLES[0], AP_TABLE_1);
    turn(&mut memory, TABLES[1], UXN_TABLE);
    turn(&mut memory, TABLES[2], PXN_TABLE);
    assert_eq!(rights(&memory, &regime), "r-- r--");
    turn(&mut memory, TABLES[2], AP_TABLE_1);
    turn(&mut memory, TABLES[1], AP_TABLE_0);
    assert_eq!(rights(&memory, &regime), "--- r--");
    regime.ranges[1].hpd = true;
    assert_eq!(rights(&memory, &regime), "--- r--");
    regime.ranges[0].hpd = true;
    assert_eq!(rights(&memory, &regime), "rwx rw-");
    regime.ranges[1].hpd = false;
    assert_eq!(rights(&memory, &regime), "rwx rw-");
}

#[test]
fn p2_under_bit_62() {
    let (mut memory, mut regime) = start();
    turn(&mut memory, TABLES[1], AP_TABLE_1);
    let before = memory.clone();
    for kind in [Kind::Write, Kind::Update] {
        let walk = go(&mut memory, &regime, &access(kind));
        assert_eq!(fault(&walk), (15, 3, false, 4));
    }
    assert_eq!(memory, before);
    regime.ranges[0].hpd = true;
    let walk = go(&mut memory, &regime, &access(Kind::Write));
    assert!(success(&walk).dirtied);
    assert_eq!(read_descriptor(&memory, LEAF_OFFSET), WRITTEN);
}

#[test]
fn an_alignment_fault_comes_before_the_tables() {
    let (mut memory, mut regime) = start();
    regime.attributes[0] = 0x00;
    turn(&mut memory, TABLES[2], AP_TABLE_0);
    let walk = go(&mut memory, &regime, &misaligned());
    assert_eq!(fault(&walk), (33, 3, false, 4));
}

#[test]
fn bits_of_a_leaf_have_no_say() {
    let (mut memory, regime) = start();
    for place in TAKING {
        turn(&mut memory, LEAF_OFFSET, place);
    }
    assert_eq!(rights(&memory, &regime), "rwx rw-");
}

/// The third table is named at 0x40002010; for another address, through an
/// entry that names its own table, that descriptor is the leaf.
#[test]
fn a_table_that_is_a_leaf_elsewhere() {
    let (mut memory, regime) = start();
    let own = 0x4000_3003 | 1 << AF | 1 << AP1 | 1 << AP_TABLE_1;
    write_descriptor(&mut memory, TABLES[2], own);
    write_descriptor(&mut memory, TABLES[2] + 8, 0x4000_2003);
    assert_eq!(rights(&memory, &regime), "r-x r-x");
    let elsewhere = Access {
        address: 3 << 21 | 2 << 12,
        ..access(Kind::Write)
    };
    let written = walk(&mut memory, &regime, &elsewhere);
    assert_eq!(success(&written).output, POOL + 0x3000);
    assert_eq!(written.visited[3], POOL + 0x2010);
    // As a table on that way its bit counts.
    turn(&mut memory, TABLES[2] + 8, AP_TABLE_1);
    let denied = walk(&mut memory, &regime, &elsewhere);
    assert_eq!(fault(&denied), (15, 3, true, 4));
}

#[test]
fn a_table_that_is_its_own_leaf() {
    // The root's first entry points to the root, so it counts three times.
    let (mut memory, regime) = start();
    let own = 0x0008_0000_4000_0083;
    let write = Access {
        address: 0,
        size: 8,
        el0: false,
        kind: Kind::Write,
    };
    write_descriptor(&mut memory, 0, own | 1 << AP_TABLE_1);
    assert_ne!(own & 1 << AP2, 0);
    assert_eq!(
        fault(&walk(&mut memory, &regime, &write)),
        (15, 3, false, 4)
    );
    write_descriptor(&mut memory, 0, own | 1 << AP_TABLE_0);
    assert!(success(&walk(&mut memory, &regime, &write)).dirtied);
}

// ---------------------------------------------------------------- in a session

/// The session after a read from EL1, its memory and its regime.
fn session_over(mut memory: Vec<u8>, regime: &Regime) -> (Session, Vec<u8>) {
    let mut session = Session::FRESH;
    assert_eq!(session.set_regime(memory.len(), regime), None);
    let read = Access {
        el0: false,
        ..access(Kind::Read)
    };
    let (answer, _) = session.access(&mut memory, &read);
    assert!(matches!(answer, Answer::Success(success) if success.reads == 4));
    (session, memory)
}

/// Code and count of a fault, or the count of a success.
fn told(answer: Answer) -> (Option<u16>, u8) {
    match answer {
        Answer::Success(success) => (None, success.reads),
        Answer::Fault(fault) => (Some(fault.stop.code()), fault.reads),
        Answer::Refused(number) => panic!("refused with {number}"),
    }
}

#[test]
fn a_held_sum_stands_until_the_drop() {
    let (mut memory, regime) = start();
    turn(&mut memory, TABLES[0], AP_TABLE_1);
    let (mut session, mut memory) = session_over(memory, &regime);
    assert_eq!(session.places[3].unwrap().leaf.taken, 1 << AP_TABLE_1);
    assert_eq!(session.store(&mut memory, POOL, 0x4000_1003), None);
    let write = access(Kind::Write);
    let (answer, way) = session.access(&mut memory, &write);
    assert_eq!(told(answer), (Some(15), 0));
    assert!(matches!(way, Way::Held));
    session.drop_all();
    assert_eq!(told(session.access(&mut memory, &write).0), (None, 4));
    assert_eq!(session.places[3].unwrap().leaf.taken, 0);
}

#[test]
fn a_second_walk_meets_the_new_sum() {
    let (memory, regime) = start();
    let (mut session, mut memory) = session_over(memory, &regime);
    let taking = 0x4000_2003 | 1 << AP_TABLE_1 | 1 << AP_TABLE_0;
    assert_eq!(session.store(&mut memory, POOL + 0x1000, taking), None);
    // The held sum is empty: EL0 reads, and a write has a mark to make.
    let read = access(Kind::Read);
    assert_eq!(told(session.access(&mut memory, &read).0), (None, 0));
    let (answer, way) = session.access(&mut memory, &access(Kind::Write));
    assert_eq!(told(answer), (Some(15), 4));
    assert!(matches!(way, Way::WalkedAgain(_)));
    // Leaf and sum are renewed.
    assert_eq!(told(session.access(&mut memory, &read).0), (Some(15), 0));
}

#[test]
fn a_held_sum_counts_with_hpd_on() {
    // No call leaves such a session (RULES 10.5).
    let (mut memory, mut regime) = start();
    turn(&mut memory, TABLES[0], AP_TABLE_0);
    let (mut session, mut memory) = session_over(memory, &regime);
    regime.ranges[0].hpd = true;
    session.regime = Some(regime);
    let read = access(Kind::Read);
    assert_eq!(told(session.access(&mut memory, &read).0), (Some(15), 0));
    session.drop_all();
    assert_eq!(told(session.access(&mut memory, &read).0), (None, 4));
}

// ------------------------------------------------------------- what is checked

#[test]
fn a_success_that_a_table_takes_away_is_told() {
    for (place, kind, el0) in [
        (AP_TABLE_1, Kind::Write, false),
        (AP_TABLE_0, Kind::Read, true),
        (UXN_TABLE, Kind::Fetch, true),
        (PXN_TABLE, Kind::Fetch, false),
    ] {
        let (mut memory, mut regime) = start();
        write_descriptor(
            &mut memory,
            LEAF_OFFSET,
            LEAF & !(1 << AP1) | u64::from(el0) << AP1,
        );
        turn(&mut memory, TABLES[2], place);
        regime.ranges[0].hpd = true;
        let before = memory.clone();
        let asked = Access {
            el0,
            ..access(kind)
        };
        let walk = go(&mut memory, &regime, &asked);
        let answer = plain_answer(&walk.answer);
        let mut check = |hpd| {
            regime.ranges[0].hpd = hpd;
            let expect = Expect::Walked;
            promises::check(&regime, &asked, &answer, &before, &memory, &walk, expect)
        };
        assert_eq!(check(true), Ok(()));
        let broken = "success that a table takes away";
        assert_eq!(check(false), Err(broken.to_string()), "{place}");
    }
}

#[test]
fn another_answer_without_the_bits_is_told() {
    let (mut memory, regime) = start();
    turn(&mut memory, TABLES[2], AP_TABLE_1);
    let before = memory.clone();
    let asked = access(Kind::Read);
    let walk = go(&mut memory, &regime, &asked);
    let answer = plain_answer(&walk.answer);
    let mut lent = before.clone();
    let mut check = |slip: fn(&mut [u8])| {
        bare::check(&regime, &asked, &walk, &answer, &mut lent, |lent| {
            let again = super::walk(lent, &regime, &asked);
            slip(lent);
            plain_answer(&again.answer)
        })
    };
    assert_eq!(check(|_| {}), Ok(true));
    assert!(check(|lent| lent[TABLES[1] + 7] ^= 1).is_err());
    assert!(check(|lent| lent[LEAF_OFFSET] ^= 1 << 7).is_err());
    assert_eq!(lent, before);
    let mut forged = answer;
    forged.accessed = 0;
    let honest = |lent: &mut [u8]| plain_answer(&super::walk(lent, &regime, &asked).answer);
    let told = bare::check(&regime, &asked, &walk, &forged, &mut lent, honest);
    assert!(told.is_err());
}

#[test]
fn bits_that_decide() {
    let (mut memory, regime) = start();
    turn(&mut memory, TABLES[0], AP_TABLE_1);
    turn(&mut memory, TABLES[1], UXN_TABLE);
    let deciding = |kind| {
        let asked = access(kind);
        let (leaf, _) = walk(&mut memory.clone(), &regime, &asked).leaf.unwrap();
        let decided = decisions::decided(&regime, &asked, &leaf);
        decided.map(|by| by.bit).collect::<Vec<u32>>()
    };
    assert_eq!(deciding(Kind::Read), []);
    assert_eq!(deciding(Kind::Write), [AP_TABLE_1]);
    assert_eq!(deciding(Kind::Fetch), [UXN_TABLE]);
    assert_eq!(decisions::Decision::all().count(), 17);
}

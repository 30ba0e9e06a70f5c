//! The orders of the refusals.

use super::{access, start};
use crate::harvest::{Fill, Harvest};
use crate::reference::{Access, Kind, Regime};
use crate::refusals::{
    self, is_before, pairs, ACCESS, HARVEST, SESSION_HARVEST, SET_REGIME, STORE, WALK,
};
use std::collections::BTreeSet;

#[test]
fn places_decide_and_not_numbers() {
    let order = [9, 5, 13, 6];
    assert!(is_before(&order, 9, 5));
    assert!(is_before(&order, 13, 6));
    assert!(!is_before(&order, 6, 13));
    assert!(!is_before(&order, 5, 5));
}

#[test]
fn pairs_are_in_order() {
    let wanted = [(9, 1), (9, 8), (1, 8)];
    assert!(pairs(&[9, 1, 8]).eq(wanted));
    assert_eq!(pairs(&[9]).next(), None);
}

#[test]
fn no_row_stands_twice() {
    for order in [WALK, SET_REGIME, ACCESS, STORE, HARVEST, SESSION_HARVEST] {
        let rows: BTreeSet<u8> = order.iter().copied().collect();
        assert_eq!(rows.len(), order.len(), "{order:?}");
    }
}

#[test]
fn no_row_applies_to_a_good_call() {
    let (memory, regime) = start();
    let (length, read) = (memory.len(), access(Kind::Read));
    let set = Some(&regime);
    assert_eq!(refusals::of_walk(length, &regime, &read), None);
    assert_eq!(refusals::of_set_regime(length, &regime), None);
    assert_eq!(refusals::of_access(length, set, &read), None);
    assert_eq!(refusals::of_store(length, set, regime.pool.address), None);
    assert_eq!(refusals::of_harvest(length, &regime, &GOOD), None);
    assert_eq!(refusals::of_session_harvest(length, set, &GOOD), None);
}

/// A harvest that no row refuses.
const GOOD: Harvest = Harvest {
    first: 0x400,
    count: 16,
    room: 2,
    fill: Fill::Byte(0),
};

/// The refusals of a plain harvest to which rows apply, and of one in a session.
fn harvest_refused(rows: &[u8]) -> [Option<u8>; 2] {
    let (memory, mut regime) = start();
    let mut asked = GOOD;
    for &row in rows {
        match row {
            10 => asked.first = 1 << 51,
            11 => asked.room = 1,
            row => make_apply(row, &mut regime, &mut access(Kind::Read)),
        }
    }
    let length = memory.len();
    let all: Vec<u8> = refusals::all_of_harvest(length, &regime, &asked).collect();
    assert_eq!(all.len(), rows.len(), "{rows:?}");
    let in_session = refusals::of_session_harvest(length, Some(&regime), &asked);
    let without = refusals::of_session_harvest(length, None, &asked);
    assert_eq!(without, Some(9), "{rows:?}");
    [refusals::of_harvest(length, &regime, &asked), in_session]
}

#[test]
fn the_first_row_of_a_harvest_wins() {
    for &row in HARVEST {
        assert_eq!(harvest_refused(&[row]), [Some(row); 2]);
    }
    for (row, other) in pairs(HARVEST) {
        assert_eq!(harvest_refused(&[other, row]), [Some(row); 2]);
    }
    assert_eq!(SESSION_HARVEST.split_first(), Some((&9, HARVEST)));
}

/// A change that makes a row of the plain walk apply, and no other.
fn make_apply(row: u8, regime: &mut Regime, access: &mut Access) {
    match row {
        1 => regime.pool.start = 4096,
        2 => regime.pool.address |= 8,
        3 => regime.ranges[1].t = 40,
        4 => regime.ranges[0].root |= 8,
        5 => regime.attributes[7] = 0xF0,
        6 => access.kind = Kind::ProbeRead,
        7 => access.address = 0x40_3FFD,
        13 => regime.ha = false,
        _ => panic!("row {row} is none of a plain walk"),
    }
}

/// The refusals of a walk and of a set regime to which rows apply; EE has no
/// say in them.
fn refused(rows: &[u8]) -> (Option<u8>, Option<u8>) {
    let [without, with] = [false, true].map(|ee| refused_with(ee, rows));
    assert_eq!(without, with, "{rows:?}");
    with
}

fn refused_with(ee: bool, rows: &[u8]) -> (Option<u8>, Option<u8>) {
    let (memory, mut regime) = start();
    regime.ee = ee;
    let mut asked = access(Kind::Read);
    for &row in rows {
        make_apply(row, &mut regime, &mut asked);
    }
    let length = memory.len();
    let all: Vec<u8> = refusals::all_of_walk(length, &regime, &asked).collect();
    assert_eq!(all.len(), rows.len(), "{rows:?}");
    let of_walk = refusals::of_walk(length, &regime, &asked);
    (of_walk, refusals::of_set_regime(length, &regime))
}

#[test]
fn the_first_row_of_the_order_wins() {
    for &row in WALK {
        let in_set_regime = SET_REGIME.contains(&row).then_some(row);
        assert_eq!(refused(&[row]), (Some(row), in_set_regime));
    }
    for (row, other) in pairs(WALK) {
        assert_eq!(refused(&[other, row]).0, Some(row));
    }
    for (row, other) in pairs(SET_REGIME) {
        assert_eq!(refused(&[other, row]).1, Some(row));
    }
}

#[test]
fn row_13_comes_right_after_5() {
    assert_eq!(refused(&[5, 13]), (Some(5), Some(5)));
    assert_eq!(refused(&[13, 6]), (Some(13), Some(13)));
    assert_eq!(refused(&[13, 7]), (Some(13), Some(13)));
    assert_eq!(refused(&[13, 6, 7]), (Some(13), Some(13)));
    assert_eq!(refused(&[6, 7]), (Some(6), None));
}

#[test]
fn row_13_is_hd_without_ha() {
    let (memory, mut regime) = start();
    let read = access(Kind::Read);
    for (ha, hd, refusal) in [
        (false, false, None),
        (false, true, Some(13)),
        (true, false, None),
        (true, true, None),
    ] {
        (regime.ha, regime.hd) = (ha, hd);
        let set = Some(&regime);
        let length = memory.len();
        assert_eq!(refusals::of_walk(length, &regime, &read), refusal);
        assert_eq!(refusals::of_set_regime(length, &regime), refusal);
        assert_eq!(refusals::of_access(length, set, &read), None);
        assert_eq!(refusals::of_store(length, set, regime.pool.address), None);
    }
}

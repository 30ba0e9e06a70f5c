//! When a call is refused (RULES 5): the rows, and the order in which each
//! call looks at them. That order stands here and nowhere else.

use crate::geometry::{GREATEST_T, LEAST_T, PHYSICAL_LIMIT};
use crate::harvest::{pages_of, Harvest, MOST_PAGES};
use crate::reference::{
    is_device, is_multiple, offset_in_memory, Access, Kind, Regime, MEMORY_LIMIT, POOL_LIMIT,
};

/// The rows of a call by their numbers, in its order (RULES 5.3).
pub const WALK: &[u8] = &[1, 2, 3, 4, 5, 13, 6, 7];
pub const SET_REGIME: &[u8] = &[1, 2, 3, 4, 5, 13];
pub const ACCESS: &[u8] = &[9, 1, 6, 7];
pub const STORE: &[u8] = &[9, 1, 8];
/// The start of a walk a descriptor at a time; and an offer to one that has
/// not ended (RULES 16.6).
pub const STEPWISE: &[u8] = &[3, 4, 5, 13, 6, 7];

/// A plain harvest; and one in a session.
pub const HARVEST: &[u8] = &[1, 2, 3, 4, 5, 13, 10, 11];
pub const SESSION_HARVEST: &[u8] = &[9, 1, 2, 3, 4, 5, 13, 10, 11];

/// Whether a call looks at one of its rows before another.
pub fn is_before(order: &[u8], row: u8, other: u8) -> bool {
    let place = |wanted| order.iter().position(|&row| row == wanted);
    match (place(row), place(other)) {
        (Some(first), Some(second)) => first < second,
        _ => panic!("rows {row} and {other} are not both among {order:?}"),
    }
}

/// Every two rows of an order, each time the one that is looked at first and
/// the other.
pub fn pairs(order: &[u8]) -> impl Iterator<Item = (u8, u8)> + '_ {
    let with_each = move |&row| order.iter().map(move |&other| (row, other));
    let all = order.iter().flat_map(with_each);
    all.filter(move |&(row, other)| is_before(order, row, other))
}

/// What the rows look at.
#[derive(Clone, Copy)]
struct Asked<'a> {
    memory_length: usize,
    /// The regime given, or else the session's, where it has one.
    regime: Option<&'a Regime>,
    access: Option<&'a Access>,
    /// The address of a store.
    store: Option<u64>,
    harvest: Option<&'a Harvest>,
}

impl<'a> Asked<'a> {
    /// Nothing yet, over a memory of so many bytes.
    fn over(memory_length: usize) -> Self {
        Asked {
            memory_length,
            regime: None,
            access: None,
            store: None,
            harvest: None,
        }
    }

    fn walk(memory_length: usize, regime: &'a Regime, access: &'a Access) -> Self {
        Asked {
            regime: Some(regime),
            access: Some(access),
            ..Asked::over(memory_length)
        }
    }

    fn set_regime(memory_length: usize, regime: &'a Regime) -> Self {
        Asked {
            regime: Some(regime),
            ..Asked::over(memory_length)
        }
    }

    /// In a session the regime is the one that it has.
    fn harvest(memory_length: usize, regime: Option<&'a Regime>, harvest: &'a Harvest) -> Self {
        Asked {
            regime,
            harvest: Some(harvest),
            ..Asked::over(memory_length)
        }
    }

    /// The rows of an order that apply.
    fn all_of(self, order: &'a [u8]) -> impl Iterator<Item = u8> + 'a {
        let rows = order.iter().copied();
        rows.filter(move |&row| self.applies(row))
    }

    /// The first row of an order that applies.
    fn first_of(self, order: &'a [u8]) -> Option<u8> {
        self.all_of(order).next()
    }

    fn applies(&self, row: u8) -> bool {
        let of_regime = |row: fn(&Regime) -> bool| self.regime.is_some_and(row);
        let with_regime = |holds: &dyn Fn(&Regime) -> bool| self.regime.is_some_and(holds);
        match row {
            1 => with_regime(&|regime| row_1(self.memory_length, regime)),
            2 => of_regime(row_2),
            3 => of_regime(row_3),
            4 => of_regime(row_4),
            5 => of_regime(row_5),
            6 => self.access.is_some_and(row_6),
            7 => with_regime(&|regime| self.access.is_some_and(|access| row_7(regime, access))),
            8 => with_regime(&|regime| self.store.is_some_and(|store| row_8(regime, store))),
            9 => self.regime.is_none(),
            10 => with_regime(&|regime| self.harvest.is_some_and(|asked| row_10(regime, asked))),
            11 => self.harvest.is_some_and(row_11),
            13 => of_regime(row_13),
            _ => panic!("there is no row {row}"),
        }
    }
}

pub fn of_walk(memory_length: usize, regime: &Regime, access: &Access) -> Option<u8> {
    Asked::walk(memory_length, regime, access).first_of(WALK)
}

/// All rows that apply to a plain walk; the first is its refusal.
pub fn all_of_walk<'a>(
    memory_length: usize,
    regime: &'a Regime,
    access: &'a Access,
) -> impl Iterator<Item = u8> + 'a {
    Asked::walk(memory_length, regime, access).all_of(WALK)
}

pub fn of_set_regime(memory_length: usize, regime: &Regime) -> Option<u8> {
    Asked::set_regime(memory_length, regime).first_of(SET_REGIME)
}

/// All rows that apply to a set regime; the first is its refusal.
pub fn all_of_set_regime(memory_length: usize, regime: &Regime) -> impl Iterator<Item = u8> + '_ {
    Asked::set_regime(memory_length, regime).all_of(SET_REGIME)
}

/// All rows that apply to a walk a descriptor at a time; the first is its
/// refusal. There is no memory, and the rows that look at one are not asked.
pub fn all_of_stepwise<'a>(
    regime: &'a Regime,
    access: &'a Access,
) -> impl Iterator<Item = u8> + 'a {
    Asked::walk(0, regime, access).all_of(STEPWISE)
}

/// In a session, by the regime that it has.
pub fn of_access(memory_length: usize, regime: Option<&Regime>, access: &Access) -> Option<u8> {
    let asked = Asked {
        regime,
        access: Some(access),
        ..Asked::over(memory_length)
    };
    asked.first_of(ACCESS)
}

/// In a session, by the regime that it has.
pub fn of_store(memory_length: usize, regime: Option<&Regime>, address: u64) -> Option<u8> {
    let asked = Asked {
        regime,
        store: Some(address),
        ..Asked::over(memory_length)
    };
    asked.first_of(STORE)
}

pub fn of_harvest(memory_length: usize, regime: &Regime, asked: &Harvest) -> Option<u8> {
    all_of_harvest(memory_length, regime, asked).next()
}

/// All rows that apply to a plain harvest; the first is its refusal.
pub fn all_of_harvest<'a>(
    memory_length: usize,
    regime: &'a Regime,
    asked: &'a Harvest,
) -> impl Iterator<Item = u8> + 'a {
    Asked::harvest(memory_length, Some(regime), asked).all_of(HARVEST)
}

/// In a session, by the regime that it has.
pub fn of_session_harvest(
    memory_length: usize,
    regime: Option<&Regime>,
    asked: &Harvest,
) -> Option<u8> {
    all_of_session_harvest(memory_length, regime, asked).next()
}

/// All rows that apply to it; the first is its refusal.
pub fn all_of_session_harvest<'a>(
    memory_length: usize,
    regime: Option<&'a Regime>,
    asked: &'a Harvest,
) -> impl Iterator<Item = u8> + 'a {
    Asked::harvest(memory_length, regime, asked).all_of(SESSION_HARVEST)
}

/// Whether a session's regime is one of those that no walk can begin with
/// (RULES 10.5).
pub fn finds_no_table(regime: &Regime) -> bool {
    row_3(regime) || row_4(regime)
}

// ------------------------------------------------------- the rows (RULES 5.1)

/// The memory and the pool's place in it.
pub fn row_1(memory_length: usize, regime: &Regime) -> bool {
    let (pool, granule) = (&regime.pool, regime.granule.bytes());
    memory_length > MEMORY_LIMIT
        || !is_multiple(pool.start as u64, granule)
        || !is_multiple(pool.length as u64, granule)
        || pool.length == 0
        || pool.length > POOL_LIMIT
        || pool.start as u128 + pool.length as u128 > memory_length as u128
}

/// The pool's physical address.
fn row_2(regime: &Regime) -> bool {
    let pool = &regime.pool;
    !is_multiple(pool.address, regime.granule.bytes())
        || u128::from(pool.address) + pool.length as u128 > u128::from(PHYSICAL_LIMIT)
}

/// Size fields and output code; a disabled range counts too.
fn row_3(regime: &Regime) -> bool {
    regime.output_code > 5
        || regime
            .ranges
            .iter()
            .any(|range| range.t < LEAST_T || range.t > GREATEST_T)
}

/// Roots; a disabled range counts too.
fn row_4(regime: &Regime) -> bool {
    let granule = regime.granule.bytes();
    regime
        .ranges
        .iter()
        .any(|range| !is_multiple(range.root, granule) || range.root >= PHYSICAL_LIMIT)
}

/// Device has four spellings, Normal no empty half.
fn row_5(regime: &Regime) -> bool {
    let normal = |byte: u8| byte & 0x0F != 0 && byte & 0xF0 != 0;
    !regime
        .attributes
        .iter()
        .all(|&byte| is_device(byte) || normal(byte))
}

/// Size, and what fetches and probes ask beyond it.
fn row_6(access: &Access) -> bool {
    let fetch = access.kind == Kind::Fetch;
    ![1, 2, 4, 8, 16].contains(&access.size)
        || (fetch && (access.size != 4 || !is_multiple(access.address, 4)))
        || (access.kind.is_probe() && access.size != 1)
}

/// First and last byte in one page. Of no bytes, the last is the first.
fn row_7(regime: &Regime, access: &Access) -> bool {
    let last = access.address.wrapping_add(access.size.saturating_sub(1));
    let page = regime.granule.bytes();
    access.address / page != last / page
}

/// A store's address.
fn row_8(regime: &Regime, address: u64) -> bool {
    address & 7 != 0 || offset_in_memory(&regime.pool, address).is_none()
}

/// A first page in a range, and a number of pages that do not pass its end.
fn row_10(regime: &Regime, asked: &Harvest) -> bool {
    let first = u128::from(asked.first);
    let end = first + u128::from(asked.count);
    let fits = |range| {
        let pages = pages_of(regime, range);
        pages.contains(&first) && end <= pages.end
    };
    !(1..=MOST_PAGES).contains(&asked.count) || !(0..2).any(fits)
}

/// A bit for each page.
fn row_11(asked: &Harvest) -> bool {
    asked.bytes() > asked.room as u64
}

/// Dirty state management without that of the Access flag.
fn row_13(regime: &Regime) -> bool {
    regime.hd && !regime.ha
}

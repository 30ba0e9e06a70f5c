//! The kernels of the harvest: as many pages as one call takes, over tables of
//! several kinds. What a harvest changes is put back before the next one.

use std::ops::Range;

use super::{long_tables, memory, put, LEAF};
use crate::plain::PAGES_LIMIT;

#[derive(Clone, Copy, PartialEq)]
pub enum Harvest {
    Pages,
    Clean,
    Dirty,
    Blocks,
    BlocksDirty,
    None,
    Own,
}

const AP2: u64 = 1 << 7;

impl Harvest {
    pub const ALL: [Harvest; 7] = [
        Harvest::Pages,
        Harvest::Clean,
        Harvest::Dirty,
        Harvest::Blocks,
        Harvest::BlocksDirty,
        Harvest::None,
        Harvest::Own,
    ];

    pub fn name(self) -> &'static str {
        match self {
            Harvest::Pages => "harvest-pages",
            Harvest::Clean => "harvest-clean",
            Harvest::Dirty => "harvest-dirty",
            Harvest::Blocks => "harvest-blocks",
            Harvest::BlocksDirty => "harvest-blocks-dirty",
            Harvest::None => "harvest-none",
            Harvest::Own => "harvest-self",
        }
    }

    /// How many calls of another kernel take about as long as one.
    pub fn weight(self) -> u64 {
        match self {
            Harvest::Blocks | Harvest::BlocksDirty | Harvest::None => 100,
            _ => 10_000,
        }
    }

    /// The memory, all of it the pool.
    pub fn memory(self) -> Vec<u8> {
        match self {
            Harvest::Pages => long_tables(|page| if scattered(page) { LEAF } else { LEAF | AP2 }),
            Harvest::Clean => long_tables(|_| LEAF | AP2),
            Harvest::Dirty => long_tables(|_| LEAF),
            Harvest::Blocks => clean_blocks(),
            Harvest::BlocksDirty | Harvest::None => memory(),
            Harvest::Own => own_table(),
        }
    }

    /// The number of the first page.
    pub fn first(self) -> u64 {
        match self {
            Harvest::Blocks | Harvest::BlocksDirty => 1 << 18,
            // By entry 1 of the root, which is 0.
            Harvest::None => 1 << 27,
            _ => 0,
        }
    }

    /// The part of the memory that a harvest changes.
    pub fn changes(self) -> Range<usize> {
        match self {
            Harvest::Pages | Harvest::Dirty => 0x3000..0x3000 + 8 * PAGES_LIMIT as usize,
            Harvest::BlocksDirty => 0x4000..0x4400,
            Harvest::Own => 0..0x1000,
            Harvest::Clean | Harvest::Blocks | Harvest::None => 0..0,
        }
    }
}

/// A quarter of the pages.
fn scattered(page: u64) -> bool {
    page.wrapping_mul(0x9e37_79b9_7f4a_7c15) >> 62 == 0
}

/// The 512 blocks of `memory`, clean.
fn clean_blocks() -> Vec<u8> {
    let mut memory = memory();
    for i in 0..512 {
        let at = 0x4000 + 8 * i as usize;
        put(&mut memory, at, 0x0008_0001_0000_07c1 | i << 21);
    }
    memory
}

/// A table whose entries all name the table itself, at each level; at the last
/// one each is a dirty page.
fn own_table() -> Vec<u8> {
    let mut memory = vec![0; 0x1000];
    for i in 0..512 {
        put(&mut memory, 8 * i, 0x0008_0000_4000_0743);
    }
    memory
}

/// Calls that each find the tables as they were: the part that a call changes
/// is put back before it, which the loop alone does too. None is refused.
#[inline(never)]
pub fn harvests(
    calls: u64,
    original: &[u8],
    changes: Range<usize>,
    memory: &mut [u8],
    mut call: impl FnMut(&mut [u8]) -> u8,
) -> u64 {
    let mut sum = 0u64;
    for _ in 0..calls {
        memory[changes.clone()].copy_from_slice(&original[changes.clone()]);
        sum += u64::from(call(memory));
    }
    assert_eq!(sum, 0, "a harvest was refused");
    sum
}

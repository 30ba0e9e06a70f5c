//! Calls at the limits of memory and pool (RULES 2.1 and 2.2) and just past
//! them, and how far up in them a call reaches: what both tallies count by.

use crate::geometry::Granule;
use crate::reference::{Pool, Regime, MEMORY_LIMIT, POOL_LIMIT};
use crate::refusals::row_1;
use std::fmt;

const ONE_BYTE_MORE: usize = MEMORY_LIMIT + 1;
const ONE_BYTE_LESS: usize = MEMORY_LIMIT - 1;

/// Granules in the longest pool.
pub fn longest_pool(granule: Granule) -> u64 {
    POOL_LIMIT as u64 / granule.bytes()
}

#[derive(Clone, Copy, Debug, PartialEq, Eq, PartialOrd, Ord)]
pub enum Limit {
    /// Row 1 does not apply to the longest memory.
    LongestMemory,
    /// Nor to a pool that ends where this memory ends.
    PoolEndsMemory,
    /// Nor to the longest pool.
    LongestPool,
    /// Row 1 applies to one byte more than the longest memory.
    MemoryTooLong,
    /// To one byte less, where the pool would end with the longest memory.
    MemoryTooShort,
    /// To a pool that ends one granule behind the longest memory.
    PoolPastMemory,
    /// To one granule more than the longest pool, with memory for it.
    PoolTooLong,
    /// The last descriptor of the longest pool is marked or stored.
    LastOfPool,
    /// The first one behind the longest pool is out of reach.
    BehindPool,
}

impl Limit {
    /// Those of a memory and a pool to which row 1 does not apply.
    pub const KEPT: [Limit; 3] = [
        Limit::LongestMemory,
        Limit::PoolEndsMemory,
        Limit::LongestPool,
    ];
    /// Those that a change of the memory's length alone passes.
    pub const OF_MEMORY: [Limit; 2] = [Limit::MemoryTooLong, Limit::MemoryTooShort];
    /// Those that another pool passes.
    pub const OF_POOL: [Limit; 2] = [Limit::PoolPastMemory, Limit::PoolTooLong];
    /// Those that an address in the longest pool is at.
    pub const OF_ADDRESS: [Limit; 2] = [Limit::LastOfPool, Limit::BehindPool];

    pub fn all() -> impl Iterator<Item = Limit> {
        let of_others = Limit::OF_POOL.into_iter().chain(Limit::OF_ADDRESS);
        let of_memory = Limit::KEPT.into_iter().chain(Limit::OF_MEMORY);
        of_memory.chain(of_others)
    }
}

/// The limits that a memory and a pool are at, where row 1 does not apply.
pub fn kept(memory_length: usize, pool: &Pool) -> impl Iterator<Item = Limit> {
    let longest = memory_length == MEMORY_LIMIT;
    let ends = pool.start + pool.length == memory_length;
    let at = [longest, longest && ends, pool.length == POOL_LIMIT];
    let all = Limit::KEPT.into_iter().zip(at);
    all.filter_map(|(limit, at)| at.then_some(limit))
}

/// The limit that is passed where row 1 applies, if it is one alone and by as
/// little as can be: with so much less, or more, row 1 would not apply.
pub fn passed(memory_length: usize, regime: &Regime) -> Option<Limit> {
    let (pool, granule) = (&regime.pool, regime.granule.length());
    let fits = |length, pool: Pool| !row_1(length, &Regime { pool, ..*regime });
    let end = pool.start as u128 + pool.length as u128;
    let earlier = Pool {
        start: pool.start.wrapping_sub(granule),
        ..*pool
    };
    let shorter = Pool {
        length: pool.length.wrapping_sub(granule),
        ..*pool
    };
    let too_long = end <= memory_length as u128 && shorter.length == POOL_LIMIT;
    match memory_length {
        ONE_BYTE_MORE if fits(MEMORY_LIMIT, *pool) => Some(Limit::MemoryTooLong),
        ONE_BYTE_LESS if fits(MEMORY_LIMIT, *pool) => Some(Limit::MemoryTooShort),
        MEMORY_LIMIT if fits(MEMORY_LIMIT, earlier) => Some(Limit::PoolPastMemory),
        _ if too_long && fits(memory_length, shorter) => Some(Limit::PoolTooLong),
        _ => None,
    }
}

/// Whether an address is that of the longest pool's last descriptor.
pub fn is_last(pool: &Pool, address: u64) -> bool {
    pool.length == POOL_LIMIT && address.checked_add(8) == Some(end(pool))
}

/// Whether it is the first one behind the longest pool.
pub fn is_behind(pool: &Pool, address: u64) -> bool {
    pool.length == POOL_LIMIT && address == end(pool)
}

fn end(pool: &Pool) -> u64 {
    pool.address + pool.length as u64
}

/// Bytes of a piece of a pool or a memory.
const PIECE: usize = 4096;

/// Pieces by their number in a pool or a memory. An octave has those with the
/// same highest bit; the first has piece 0 alone.
#[derive(Clone, Copy, Debug, PartialEq, Eq, PartialOrd, Ord)]
pub struct Octave(u32);

impl Octave {
    /// That of the piece in which an offset lies.
    pub fn of(offset: usize) -> Self {
        Octave(usize::BITS - (offset / PIECE).leading_zeros())
    }

    /// All that so many bytes have.
    pub fn all(length: usize) -> impl Iterator<Item = Self> {
        (0..=Octave::of(length - 1).0).map(Octave)
    }
}

impl fmt::Display for Octave {
    fn fmt(&self, out: &mut fmt::Formatter) -> fmt::Result {
        match self.0 {
            number @ (0 | 1) => write!(out, "{number}"),
            bits => write!(out, "{}-{}", 1 << (bits - 1), (1 << bits) - 1),
        }
    }
}

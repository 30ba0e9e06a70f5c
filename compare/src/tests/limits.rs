//! The limits of memory and pool (RULES 2.1 and 2.2) for every call that row 1
//! is for, the end of the longest pool, and how the tallies tell these.

use super::{access, read_descriptor, start, write_descriptor, LEAF, POOL};
use crate::limits::{is_behind, is_last, kept, passed, Limit, Octave};
use crate::reference::{
    walk, Access, Answer, Kind, Pool, Regime, MEMORY_LIMIT as MEMORY, POOL_LIMIT as LONGEST,
};
use crate::refusals;
use crate::session::Session;

const PAGE: usize = 4096;
/// The last descriptor of the longest pool.
const LAST: usize = LONGEST - 8;
const AT_LAST: u64 = POOL + LAST as u64;

/// The tables of the worked cases, in a pool and a memory of other lengths,
/// the pool the last part of the memory.
fn stretched(memory_length: usize, pool_length: usize) -> (Vec<u8>, Regime) {
    let (tables, mut regime) = start();
    regime.pool.start = memory_length - pool_length;
    regime.pool.length = pool_length;
    let mut memory = vec![0; memory_length];
    memory[regime.pool.start..][..tables.len()].copy_from_slice(&tables);
    (memory, regime)
}

/// The same with the level 3 table in the pool's last granule, and the leaf at
/// its end: page 0x5FF.
fn leaf_at_end() -> (Vec<u8>, Regime, Access) {
    let (mut memory, regime) = stretched(MEMORY, LONGEST);
    let start = regime.pool.start;
    let table = AT_LAST & !0xFFF | 3;
    write_descriptor(&mut memory, start + 0x2010, table);
    write_descriptor(&mut memory, start + LAST, LEAF);
    let last = Access {
        address: 0x5F_FABC,
        ..access(Kind::Write)
    };
    (memory, regime, last)
}

/// Code and count of a fault.
fn fault(answer: Answer) -> (u16, u8) {
    match answer {
        Answer::Fault(fault) => (fault.stop.code(), fault.reads),
        other => panic!("{other:?} is no fault"),
    }
}

/// The refusals of all four calls for one pool.
fn refusals_of(memory_length: usize, pool: Pool) -> [Option<u8>; 4] {
    let (_, mut regime) = start();
    regime.pool = pool;
    let read = access(Kind::Read);
    [
        refusals::of_walk(memory_length, &regime, &read),
        refusals::of_set_regime(memory_length, &regime),
        refusals::of_access(memory_length, Some(&regime), &read),
        refusals::of_store(memory_length, Some(&regime), pool.address),
    ]
}

fn pool(start: usize, length: usize) -> Pool {
    let address = POOL;
    Pool {
        start,
        length,
        address,
    }
}

#[test]
fn the_numbers_are_those_of_the_rules() {
    assert_eq!(MEMORY, 16_777_216);
    assert_eq!(LONGEST, 1_048_576);
    assert_eq!(LAST, 1_048_568);
}

#[test]
fn lengths_are_accepted_up_to_their_limits() {
    for (memory_length, start, length) in [
        (69_632, 0, 69_632),
        (524_288, 0, 524_288),
        (LONGEST, 0, LONGEST),
        (1_048_577, 4096, 1_044_480),
        (MEMORY - 1, 0, LONGEST),
        (MEMORY, 0, PAGE),
        (MEMORY, MEMORY - LONGEST, LONGEST),
        (MEMORY, MEMORY - PAGE, PAGE),
    ] {
        let given = refusals_of(memory_length, pool(start, length));
        assert_eq!(given, [None; 4], "{memory_length} {start} {length}");
    }
}

#[test]
fn lengths_are_refused_past_their_limits() {
    for (memory_length, start, length) in [
        (MEMORY + 1, 0, PAGE),
        (MEMORY + PAGE, MEMORY, PAGE),
        (MEMORY, 0, LONGEST + PAGE),
        (MEMORY, 0, LONGEST + 8),
        (MEMORY, 0, 2 * LONGEST),
        (MEMORY, MEMORY - LONGEST + PAGE, LONGEST),
        (MEMORY - 1, MEMORY - LONGEST, LONGEST),
        (LONGEST - 1, 0, LONGEST),
    ] {
        let given = refusals_of(memory_length, pool(start, length));
        assert_eq!(given, [Some(1); 4], "{memory_length} {start} {length}");
    }
}

/// Reads as the worked cases do, with the level 3 table at an address.
fn with_table_at(table: u64) -> (u16, u8) {
    let (mut memory, regime) = stretched(LONGEST, LONGEST);
    write_descriptor(&mut memory, 0x2010, table | 3);
    fault(walk(&mut memory, &regime, &access(Kind::Read)).answer)
}

#[test]
fn p6_and_p7_in_the_longest_pool() {
    // P7's table lies in this pool.
    assert_eq!(with_table_at(0x4001_0000), (7, 4));
    let end = POOL + LONGEST as u64;
    assert_eq!(with_table_at(end - PAGE as u64), (7, 4));
    assert_eq!(with_table_at(end), (23, 4));
}

#[test]
fn the_last_descriptor_is_walked_and_marked() {
    let (mut memory, regime, last) = leaf_at_end();
    let before = memory.clone();
    let walk = walk(&mut memory, &regime, &last);
    assert_eq!(walk.visited.last(), Some(&AT_LAST));
    assert!(matches!(walk.answer, Answer::Success(s) if s.output == 0x8000_5ABC));
    let end = MEMORY - 8;
    assert_eq!(read_descriptor(&memory, end), 0x0008_0000_8000_5743);
    assert_eq!(memory[..end], before[..end]);
}

#[test]
fn a_session_reaches_the_last_descriptor_and_no_further() {
    let (mut memory, regime, last) = leaf_at_end();
    let mut session = Session::FRESH;
    assert_eq!(session.set_regime(MEMORY, &regime), None);
    let (answer, _) = session.access(&mut memory, &last);
    assert!(matches!(answer, Answer::Success(s) if s.dirtied && s.reads == 4));

    assert_eq!(session.store(&mut memory, AT_LAST, 5), None);
    assert_eq!(read_descriptor(&memory, MEMORY - 8), 5);
    for behind in [AT_LAST + 8, AT_LAST + PAGE as u64] {
        assert_eq!(session.store(&mut memory, behind, 6), Some(8));
    }

    // One byte more is refused, though the page is held.
    memory.push(0);
    let (answer, _) = session.access(&mut memory, &last);
    assert_eq!(answer, Answer::Refused(1));
    assert_eq!(session.store(&mut memory, AT_LAST, 7), Some(1));
    assert_eq!(session.set_regime(memory.len(), &regime), Some(1));
    assert_eq!(read_descriptor(&memory, MEMORY - 8), 5);
}

#[test]
fn limits_that_are_kept() {
    let told = |memory_length, pool: Pool| kept(memory_length, &pool).collect::<Vec<_>>();
    assert_eq!(told(MEMORY - 1, pool(0, PAGE)), []);
    assert_eq!(told(MEMORY, pool(0, PAGE)), [Limit::LongestMemory]);
    assert_eq!(told(LONGEST, pool(0, LONGEST)), [Limit::LongestPool]);
    assert_eq!(told(MEMORY, pool(MEMORY - LONGEST, LONGEST)), Limit::KEPT);
}

#[test]
fn limits_that_are_passed() {
    let last = pool(MEMORY - PAGE, PAGE);
    for (memory_length, pool, limit) in [
        (MEMORY + 1, last, Some(Limit::MemoryTooLong)),
        (MEMORY + 2, last, None),
        (MEMORY + 1, pool(MEMORY, PAGE), None),
        (MEMORY - 1, last, Some(Limit::MemoryTooShort)),
        (MEMORY - 2, last, None),
        (MEMORY, pool(MEMORY, PAGE), Some(Limit::PoolPastMemory)),
        (MEMORY, pool(MEMORY + PAGE, PAGE), None),
        (MEMORY, pool(0, LONGEST + PAGE), Some(Limit::PoolTooLong)),
        (MEMORY, pool(0, LONGEST + 2 * PAGE), None),
        (LONGEST, pool(0, LONGEST + PAGE), None),
        (MEMORY, pool(usize::MAX, LONGEST + PAGE), None),
        (MEMORY, pool(8, PAGE), None),
    ] {
        let regime = Regime { pool, ..start().1 };
        assert_eq!(passed(memory_length, &regime), limit, "{pool:?}");
    }
}

#[test]
fn the_end_of_the_longest_pool() {
    let told = |pool: Pool, address| (is_last(&pool, address), is_behind(&pool, address));
    let longest = pool(0, LONGEST);
    assert_eq!(told(longest, AT_LAST), (true, false));
    assert_eq!(told(longest, AT_LAST + 8), (false, true));
    for other in [0, POOL, AT_LAST - 8, AT_LAST + 4, AT_LAST + 16, u64::MAX] {
        assert_eq!(told(longest, other), (false, false), "{other:#x}");
    }
    let shorter = pool(0, LONGEST - PAGE);
    for address in [AT_LAST - PAGE as u64, AT_LAST - PAGE as u64 + 8] {
        assert_eq!(told(shorter, address), (false, false), "{address:#x}");
    }
}

#[test]
fn octaves_of_granules() {
    let told = |offset| Octave::of(offset).to_string();
    assert_eq!(told(0), "0");
    assert_eq!(told(4095), "0");
    assert_eq!(told(4096), "1");
    assert_eq!(told(3 * 4096), "2-3");
    assert_eq!(told(0xF_FFF8), "128-255");
    let all = |length| Octave::all(length).map(|octave| octave.to_string());
    assert!(all(4096).eq(["0"]));
    assert!(all(16 * 4096).eq(["0", "1", "2-3", "4-7", "8-15"]));
    assert!(all(17 * 4096).eq(["0", "1", "2-3", "4-7", "8-15", "16-31"]));
}

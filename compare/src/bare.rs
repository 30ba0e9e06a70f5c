//! What a walk under tables that take something away must have in common with
//! a walk without them (RULES 6.11 and 7). Both walks are those of the one
//! under test; of the reference only the list of descriptors and the leaf's
//! place are taken.

use crate::boundary::CAnswer;
use crate::reference::{
    bit, offset_in_memory, read_descriptor, write_descriptor, Access, Regime, Walk, AF, AP1, AP2,
    AP_TABLE_0, AP_TABLE_1, DBM, PXN, PXN_TABLE, TAKING_FIELD, UXN, UXN_TABLE,
};

/// Bits 63..59, with which nothing but a table on the way can have a say.
const UPPER: u64 = TAKING_FIELD | 1 << 63;

/// The words that a walk has read, by their offsets in the memory.
fn words_read(regime: &Regime, memory: &[u8], walk: &Walk) -> Vec<(usize, u64)> {
    let visited = walk.visited.iter();
    let offsets = visited.filter_map(|&at| offset_in_memory(&regime.pool, at));
    offsets
        .map(|at| (at, read_descriptor(memory, at, regime.ee)))
        .collect()
}

/// Bits 62..59 of the tables on the way to a leaf, added up where they count.
pub fn sum(regime: &Regime, access: &Access, before: &[u8], walk: &Walk) -> u64 {
    let range = usize::from(bit(access.address, 55));
    let words = words_read(regime, before, walk);
    match words.split_last() {
        Some((_, tables)) if !regime.ranges[range].hpd => tables
            .iter()
            .fold(0, |sum, (_, table)| sum | table & TAKING_FIELD),
        _ => 0,
    }
}

/// A leaf that says by itself what the tables' sum takes away.
fn denied(leaf: u64, sum: u64) -> u64 {
    let mut leaf = leaf;
    if bit(sum, AP_TABLE_1) {
        leaf = leaf & !(1 << DBM) | 1 << AP2;
    }
    if bit(sum, AP_TABLE_0) {
        leaf &= !(1 << AP1);
    }
    if bit(sum, UXN_TABLE) {
        leaf |= 1 << UXN;
    }
    if bit(sum, PXN_TABLE) {
        leaf |= 1 << PXN;
    }
    leaf
}

/// Walks once more without bits 63..59 in any descriptor on the way, over a
/// leaf that denies what the sum took away. The answer and the marks must be
/// those of the first walk. The memory is as it was before that one, and is
/// left so where the second changes no other byte. Gives whether there was a
/// second walk; there is none where no descriptor has such a bit.
///
/// # Errors
///
/// What is broken, in words.
pub fn check(
    regime: &Regime,
    access: &Access,
    walk: &Walk,
    answer: &CAnswer,
    memory: &mut [u8],
    mut again: impl FnMut(&mut [u8]) -> CAnswer,
) -> Result<bool, String> {
    let ee = regime.ee;
    let words = words_read(regime, memory, walk);
    if words.iter().all(|(_, word)| word & UPPER == 0) {
        return Ok(false);
    }
    let sum = sum(regime, access, memory, walk);
    let is_leaf = |at| walk.leaf.is_some_and(|(_, leaf_at)| at == leaf_at);
    let bare = |at, word: u64| match word & !UPPER {
        leaf if is_leaf(at) => denied(leaf, sum),
        table => table,
    };
    for &(at, word) in &words {
        write_descriptor(memory, at, bare(at, word), ee);
    }
    let other = again(memory);
    let told = u64::from(answer.accessed) << AF | u64::from(answer.dirtied) << AP2;
    let mark = |at| if is_leaf(at) { told } else { 0 };
    let mut words_left = words.iter();
    let same =
        words_left.all(|&(at, word)| read_descriptor(memory, at, ee) == bare(at, word) ^ mark(at));
    for &(at, word) in &words {
        write_descriptor(memory, at, word, ee);
    }
    match (other == *answer, same) {
        (false, _) => Err(format!("without the tables' bits it answers {other:x?}")),
        (_, false) => Err("without the tables' bits it leaves other words".to_string()),
        _ => Ok(true),
    }
}

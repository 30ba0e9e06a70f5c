//! What a walk must have in common with one over the same tables the other way
//! round: EE turned over, and each 8 bytes of the pool reversed (RULES 2.3).
//! Both walks are those of the one under test; nothing is taken from the
//! reference.

use crate::boundary::CAnswer;
use crate::reference::{is_multiple, Pool, Regime};

/// One case in so many is walked a second time. No loop over kinds and flags
/// goes round in step with it.
const SHARE: u64 = 5;

pub fn is_due(number: u64) -> bool {
    is_multiple(number, SHARE)
}

/// The same regime with EE turned over.
pub fn other_order(regime: &Regime) -> Regime {
    Regime {
        ee: !regime.ee,
        ..*regime
    }
}

/// Reverses each 8 bytes of the pool, from its first byte on. Gives whether
/// it lies in the memory; if not, nothing is changed.
pub fn reverse(memory: &mut [u8], pool: &Pool) -> bool {
    let end = pool.start.checked_add(pool.length);
    let Some(bytes) = end.and_then(|end| memory.get_mut(pool.start..end)) else {
        return false;
    };
    for word in bytes.chunks_exact_mut(8) {
        word.reverse();
    }
    true
}

/// Walks once more the other way round. The answer must be that of the first
/// walk, and so must the memory left be, put back into the first order. The
/// memory is as it was before the first walk; then as the first walk left it.
/// Gives whether there was a second walk; there is none where the pool does
/// not lie in the memory.
///
/// # Errors
///
/// What is broken, in words.
pub fn check(
    regime: &Regime,
    answer: &CAnswer,
    left: &[u8],
    memory: &mut [u8],
    mut again: impl FnMut(&mut [u8], &Regime) -> CAnswer,
) -> Result<bool, String> {
    if !reverse(memory, &regime.pool) {
        return Ok(false);
    }
    let other = again(memory, &other_order(regime));
    reverse(memory, &regime.pool);
    match (other == *answer, memory == left) {
        (false, _) => Err(format!("in the other byte order it answers {other:x?}")),
        (_, false) => Err("in the other byte order it leaves other bytes".to_string()),
        _ => Ok(true),
    }
}

//! Regimes to which a row applies (RULES 5.1).

use crate::cases::scene::HD_ALONE;
use crate::geometry::{Granule, PHYSICAL_LIMIT};
use crate::random::Random;
use crate::reference::{Regime, POOL_LIMIT};

/// Makes a row of a set regime apply, over a memory of some length.
pub fn spoil(random: &mut Random, row: u8, memory_length: usize, regime: &mut Regime) {
    let range = random.below(2) as usize;
    let off = draw_off(random, regime.granule);
    match row {
        1 => spoil_pool(random, memory_length, regime),
        2 => match random.below(4) {
            0 | 1 => regime.pool.address |= off,
            2 => regime.pool.address = PHYSICAL_LIMIT,
            _ => regime.pool.address = regime.granule.floor(u64::MAX),
        },
        3 => match random.below(3) {
            0 => regime.ranges[range].t = 15,
            1 => regime.ranges[range].t = 40,
            _ => regime.output_code = 6,
        },
        4 => match random.below(3) {
            0 | 1 => regime.ranges[range].root |= off,
            _ => regime.ranges[range].root |= 1 << random.between(48, 63),
        },
        5 => {
            let byte = random.pick(&[0x01, 0x0F, 0x10, 0x40, 0xF0]);
            regime.attributes[random.below(8) as usize] = byte;
        }
        13 => (regime.ha, regime.hd) = HD_ALONE,
        row => panic!("no regime is made for row {row}"),
    }
}

/// A number that is no multiple of a granule, but mostly one of a smaller
/// granule, where there is one.
fn draw_off(random: &mut Random, granule: Granule) -> u64 {
    let bits = granule.page_bits();
    1 << random.pick(&[3, bits - 4, bits - 4, bits - 2, bits - 1])
}

/// Makes row 1 apply to a regime, over a memory of some length.
fn spoil_pool(random: &mut Random, memory_length: usize, regime: &mut Regime) {
    let (pool, page) = (&mut regime.pool, regime.granule.length());
    let off = draw_off(random, regime.granule) as usize;
    match random.below(8) {
        0 => pool.start += off,
        // It ends in the memory, if it can.
        1 | 2 => {
            pool.start += off;
            pool.length = pool.length.saturating_sub(page).max(page);
        }
        3 => pool.length = 0,
        4 => pool.length = POOL_LIMIT + page,
        5 => pool.start = memory_length / page * page,
        6 => pool.start = usize::MAX - (page - 1),
        _ => pool.length = pool.length.saturating_sub(off),
    }
}

//! Long memories, with short pools and the longest far up in them; a few
//! times only, since all their bytes are compared.

use super::pools::{ask_behind, ask_last};
use super::scene::{draw_access, short_pool, Placement, Sketch};
use super::Maker;
use crate::geometry::Granule;
use crate::limits::longest_pool;
use crate::promises::Expect;
use crate::random::Random;
use crate::reference::{MEMORY_LIMIT, POOL_LIMIT};

const FAMILY: &str = "large";
const ROUNDS: u32 = 2;

pub fn run(maker: &mut Maker) {
    for _ in 0..ROUNDS {
        let (most, _) = short_pool(Granule::Kib4);
        let short = maker.random.between(1, most);
        for granules in [short, longest_pool(Granule::Kib4)] {
            let pool = Wish::new(Granule::Kib4, granules);
            first(maker, pool);
            last(maker, pool);
            let mut from = POOL_LIMIT;
            while from < MEMORY_LIMIT {
                within(maker, pool, from);
                from *= 2;
            }
        }
    }
    // The larger granules, the longest pool alone.
    for granule in [Granule::Kib16, Granule::Kib64] {
        let pool = Wish::new(granule, longest_pool(granule));
        last(maker, pool);
        within(maker, pool, POOL_LIMIT);
    }
}

/// A pool of so many granules.
#[derive(Clone, Copy)]
struct Wish {
    granule: Granule,
    granules: u64,
}

impl Wish {
    fn new(granule: Granule, granules: u64) -> Self {
        Wish { granule, granules }
    }

    fn length(self) -> usize {
        self.granules as usize * self.granule.length()
    }
}

/// The pool starts where the longest memory starts.
fn first(maker: &mut Maker, pool: Wish) {
    draw(maker, pool, 0, MEMORY_LIMIT - pool.length());
    at_limits(maker, Expect::Walked);
}

/// The pool ends where the longest memory ends.
fn last(maker: &mut Maker, pool: Wish) {
    draw(maker, pool, MEMORY_LIMIT - pool.length(), 0);
    at_limits(maker, Expect::Refused(1));
}

/// The pool lies between an offset and twice this offset, and the memory goes
/// on for a little behind it.
fn within(maker: &mut Maker, pool: Wish, from: usize) {
    let (length, granule) = (pool.length(), pool.granule.length());
    let random = &mut maker.random;
    let start = from + random.below(((from - length) / granule) as u64 + 1) as usize * granule;
    let behind = draw_behind(random);
    let most = MEMORY_LIMIT - start - length;
    draw(maker, pool, start, behind.min(most));
    ask_behind(maker, FAMILY);
    ask_last(maker, FAMILY);
}

/// Bytes behind a pool; mostly for a descriptor and more.
fn draw_behind(random: &mut Random) -> usize {
    random.pick(&[0, 8, 4096, 4100])
}

fn draw(maker: &mut Maker, pool: Wish, before: usize, behind: usize) {
    let random = &mut maker.random;
    let sketch = Sketch {
        granule: pool.granule,
        code: random.below(6) as u8,
        placement: Placement::Inside,
        granules: pool.granules,
    };
    maker.scene.draw_within(random, sketch, before, behind);
}

/// The end of the pool in the longest memory. Then the same with the pool a
/// granule further up, and in one byte less, both as expected; and in one byte
/// more, which is refused.
fn at_limits(maker: &mut Maker, expect: Expect) {
    ask_behind(maker, FAMILY);
    let address = ask_last(maker, FAMILY);
    let granule = maker.scene.regime.granule.length();
    maker.scene.regime.pool.start += granule;
    ask(maker, address, expect);
    maker.scene.regime.pool.start -= granule;
    maker.scene.memory.truncate(MEMORY_LIMIT - 1);
    ask(maker, address, expect);
    maker.scene.memory.resize(MEMORY_LIMIT + 1, 0);
    ask(maker, address, Expect::Refused(1));
}

fn ask(maker: &mut Maker, address: u64, expect: Expect) {
    let granule = maker.scene.regime.granule;
    let access = draw_access(&mut maker.random, granule, address);
    maker.ask(FAMILY, &access, expect);
}

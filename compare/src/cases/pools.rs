//! Pools of every length, and what is at their end: the leaf in their last 8
//! bytes, and a table that starts where they end.

use super::scene::{
    draw_access, draw_before, draw_clean_leaf, draw_leaf, draw_marking_access, draw_t_with_tables,
    Placement, Sketch,
};
use super::Maker;
use crate::geometry::Granule;
use crate::limits::longest_pool;
use crate::promises::Expect;

const FAMILY: &str = "pools";
/// How often the longest pool comes in each placement, by granule.
const LONGEST: [(Granule, u32); 3] = [(Granule::Kib4, 8), (Granule::Kib16, 2), (Granule::Kib64, 2)];
const PLACEMENTS: [Placement; 3] = [Placement::Inside, Placement::Zero, Placement::EndsAtLimit];

pub fn run(maker: &mut Maker) {
    for (granule, times) in LONGEST {
        for granules in 1..=longest_pool(granule) {
            let placement = maker.random.pick(&PLACEMENTS);
            ask(maker, granule, placement, granules);
        }
        for _ in 0..times {
            for placement in PLACEMENTS {
                ask(maker, granule, placement, longest_pool(granule));
            }
        }
    }
}

/// The end of a pool, and any place in it, with a little memory around it.
fn ask(maker: &mut Maker, granule: Granule, placement: Placement, granules: u64) {
    let random = &mut maker.random;
    let before = draw_before(random, granule);
    let behind = random.pick(&[8, 4096, 4100]);
    let sketch = Sketch {
        granule,
        code: random.below(6) as u8,
        placement,
        granules,
    };
    maker.scene.draw_within(random, sketch, before, behind);
    // Where the output size ends, no table may start.
    if placement != Placement::EndsAtLimit {
        ask_behind(maker, FAMILY);
    }
    ask_last(maker, FAMILY);
    ask_anywhere(maker);
}

/// An access that would read the first descriptor behind the pool.
pub fn ask_behind(maker: &mut Maker, family: &'static str) {
    let random = &mut maker.random;
    let scene = &mut maker.scene;
    let range = random.below(2) as usize;
    scene.regime.ranges[range].disabled = false;
    let mut path = scene.draw_path(random, range, 3);
    let level = random.between(path.first as u64, 3) as usize;
    path.tables[level] = scene.pool_end();
    path.indices[level] = 0;
    let output = scene.draw_output(random);
    let granule = scene.regime.granule;
    let leaf = draw_leaf(random, granule, 3, output);
    scene.lay(random, &path, leaf);
    let address = scene.address(random, &path);
    let access = draw_access(random, granule, address);
    maker.ask(family, &access, Expect::Walked);
}

/// Two accesses whose leaf is the pool's last descriptor; the first marks it.
/// Gives their address.
pub fn ask_last(maker: &mut Maker, family: &'static str) -> u64 {
    let random = &mut maker.random;
    let scene = &mut maker.scene;
    let range = random.below(2) as usize;
    let granule = scene.regime.granule;
    scene.regime.ranges[range].disabled = false;
    scene.regime.ranges[range].t = draw_t_with_tables(random, granule);
    // So that no table takes the writing away.
    scene.regime.ranges[range].hpd = true;
    (scene.regime.ha, scene.regime.hd) = (true, true);
    let path = scene.draw_path_to_end(random, range);
    let output = scene.draw_output(random);
    let leaf = draw_clean_leaf(random, granule, 3, output);
    scene.lay(random, &path, leaf);
    let address = scene.address(random, &path);
    let marks = draw_marking_access(random, granule, address);
    let again = draw_access(random, granule, address);
    maker.ask(family, &marks, Expect::Walked);
    maker.ask(family, &again, Expect::Walked);
    address
}

/// A path through any tables of the pool.
fn ask_anywhere(maker: &mut Maker) {
    let random = &mut maker.random;
    let scene = &mut maker.scene;
    let range = random.below(2) as usize;
    let granule = scene.regime.granule;
    scene.regime.ranges[range].disabled = false;
    let leaf_level = scene.draw_leaf_level(random, range);
    let path = scene.draw_path(random, range, leaf_level);
    let output = scene.draw_output(random);
    let leaf = draw_leaf(random, granule, leaf_level, output);
    scene.lay(random, &path, leaf);
    let address = scene.address(random, &path);
    let access = draw_access(random, granule, address);
    maker.ask(FAMILY, &access, Expect::Walked);
}

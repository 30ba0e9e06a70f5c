//! One memory under two granules, with ways to one address for both of them,
//! or for one alone.

use super::scene::{draw_access, draw_granules, draw_leaf, Placement, Sketch};
use super::Maker;
use crate::geometry::Granule;
use crate::promises::Expect;

const FAMILY: &str = "granules";
const ROUNDS: u32 = 200;

pub fn run(maker: &mut Maker) {
    for larger in Granule::ALL {
        for smaller in larger.smaller() {
            for _ in 0..ROUNDS {
                ask(maker, larger, &[smaller, larger]);
                ask(maker, larger, &[larger, smaller]);
                ask(maker, larger, &[smaller]);
                ask(maker, larger, &[larger]);
            }
        }
    }
}

/// Lays a way for each of some granules, in a pool and with roots that are fit
/// for the largest, and asks for its address under all granules up to that.
fn ask(maker: &mut Maker, largest: Granule, laid: &[Granule]) {
    let random = &mut maker.random;
    let scene = &mut maker.scene;
    let sketch = Sketch {
        granule: largest,
        code: random.below(6) as u8,
        placement: Placement::Inside,
        granules: draw_granules(random, largest, 1),
    };
    scene.draw(random, sketch);
    let range = random.below(2) as usize;
    scene.regime.ranges[range].disabled = false;
    let root = scene.draw_granule(random);
    let address = scene.draw_address(random, range);
    for &granule in laid {
        scene.regime.granule = granule;
        let leaf_level = scene.draw_leaf_level(random, range);
        let mut path = scene.draw_path(random, range, leaf_level);
        path.tables[path.first] = root;
        scene.lead_to(&mut path, address);
        let output = scene.draw_output(random);
        let leaf = draw_leaf(random, granule, leaf_level, output);
        scene.lay(random, &path, leaf);
    }
    // In one page under each of them.
    let smallest = laid.iter().copied().min().unwrap_or(largest);
    for granule in largest.smaller().chain([largest]) {
        let page = smallest.min(granule);
        maker.scene.regime.granule = granule;
        let access = draw_access(&mut maker.random, page, address);
        maker.ask(FAMILY, &access, Expect::Walked);
    }
}

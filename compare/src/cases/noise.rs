//! Pools without a plan.

use super::scene::{
    draw_access, draw_granule_size, draw_granules, Placement, Scene, Sketch, HD_ALONE, WHOLE,
};
use super::Maker;
use crate::geometry::Granule;
use crate::promises::Expect;
use crate::random::Random;

const FAMILY: &str = "noise";
const SCENES: u32 = 12_000;

pub fn run(maker: &mut Maker) {
    for _ in 0..SCENES {
        draw(&mut maker.random, &mut maker.scene);
        for _ in 0..4 {
            ask(maker, Expect::Walked);
        }
        // The same tables in the other byte order.
        if maker.random.once_in(4) {
            maker.scene.regime.ee ^= true;
            ask(maker, Expect::Walked);
        }
        // The same tables under a smaller granule.
        let smaller: Vec<Granule> = maker.scene.regime.granule.smaller().collect();
        if !smaller.is_empty() && maker.random.once_in(4) {
            maker.scene.regime.granule = maker.random.pick(&smaller);
            ask(maker, Expect::Walked);
        }
        // The same tables under a regime that is refused.
        if maker.random.once_in(8) {
            let regime = &mut maker.scene.regime;
            (regime.ha, regime.hd) = HD_ALONE;
            ask(maker, Expect::Refused(13));
        }
    }
}

fn draw(random: &mut Random, scene: &mut Scene) {
    let code = random.below(6) as u8;
    let placement = random.pick(&[
        Placement::Zero,
        Placement::Inside,
        Placement::EndsAtLimit,
        Placement::Straddles,
        Placement::StartsAtLimit,
        Placement::Top,
    ]);
    // Nothing lies beyond 48 bits.
    let placement = match placement {
        Placement::Straddles | Placement::StartsAtLimit if code == WHOLE => Placement::Top,
        other => other,
    };
    let granule = draw_granule_size(random);
    let sketch = Sketch {
        granule,
        code,
        placement,
        granules: draw_granules(random, granule, 2),
    };
    scene.draw(random, sketch);
    match random.below(8) {
        0 | 1 => scene.fill_random(random),
        2 if random.once_in(4) => scene.memory.fill(0),
        2 => scene.memory.fill(0xFF),
        _ => {}
    }
}

fn ask(maker: &mut Maker, expect: Expect) {
    let address = draw_address(maker);
    let granule = maker.scene.regime.granule;
    let access = draw_access(&mut maker.random, granule, address);
    maker.ask(FAMILY, &access, expect);
}

/// Mostly an address within one of the two ranges.
fn draw_address(maker: &mut Maker) -> u64 {
    let random = &mut maker.random;
    let any = random.bits();
    let ranges = &maker.scene.regime.ranges;
    match random.below(8) {
        0 => any,
        1..=3 => any & ((1 << (64 - ranges[0].t)) - 1),
        _ => any | u64::MAX << (64 - ranges[1].t),
    }
}

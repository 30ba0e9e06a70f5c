//! Every combination of permission bits, dirty state and controls, crossed
//! with every kind of access, at every leaf level, under some granule. What
//! tables take away is switched off here; it has a family of its own.

use super::scene::{
    draw_device, draw_granule_size, draw_granules, draw_normal, draw_t, leaf_type, Placement,
    Sketch, UPDATES,
};
use super::Maker;
use crate::geometry::Granule;
use crate::promises::Expect;
use crate::random::Random;
use crate::reference::{Access, Kind, AF, AP1, AP2, DBM, PXN, UXN};

const FAMILY: &str = "rights";

/// The leaf bits that are crossed; WXN, and HA with HD, come on top.
const LEAF_BITS: [u32; 6] = [AP1, AP2, AF, DBM, PXN, UXN];

struct Choice {
    level: usize,
    bits: u32,
    kind: Kind,
    el0: bool,
    device: bool,
    misaligned: bool,
}

pub fn run(maker: &mut Maker) {
    for level in 1..=3 {
        for bits in 0..1 << (LEAF_BITS.len() + 3) {
            for kind in Kind::ALL {
                for other in 0..8 {
                    let choice = Choice {
                        level,
                        bits,
                        kind,
                        el0: other & 1 != 0,
                        device: other & 2 != 0,
                        misaligned: other & 4 != 0,
                    };
                    // A misaligned fetch is refused, a probe never is one.
                    if kind.moves_data() || !choice.misaligned {
                        ask(maker, &choice);
                    }
                }
            }
        }
    }
}

fn ask(maker: &mut Maker, choice: &Choice) {
    let range = draw_scene(maker, choice);
    let leaf = draw_leaf(maker, choice);
    let random = &mut maker.random;
    let scene = &mut maker.scene;
    let path = scene.draw_path(random, range, choice.level);
    scene.lay(random, &path, leaf);
    let granule = scene.regime.granule;
    let page = granule.floor(scene.address(random, &path));
    let size = match choice.kind {
        Kind::Fetch => 4,
        Kind::ProbeRead | Kind::ProbeWrite => 1,
        _ if choice.misaligned => 2 << random.below(4),
        _ => 1 << random.below(5),
    };
    let mut offset = random.below(granule.bytes() / size) * size;
    if choice.misaligned {
        // Stays off the multiples of the size and within the page.
        offset = offset.min(granule.bytes() - 2 * size) + random.between(1, size - 1);
    }
    let access = Access {
        address: page + offset,
        size,
        el0: choice.el0,
        kind: choice.kind,
    };
    maker.ask(FAMILY, &access, Expect::Walked);
}

/// A granule that has leaves at a level.
fn draw_granule_with(random: &mut Random, level: u8) -> Granule {
    loop {
        let granule = draw_granule_size(random);
        if granule.leaf_levels().any(|other| other == level) {
            return granule;
        }
    }
}

/// A size field whose first level is not below a level.
fn draw_t_above(random: &mut Random, granule: Granule, level: u8) -> u8 {
    loop {
        let t = draw_t(random);
        if granule.first_level(t) <= level {
            return t;
        }
    }
}

/// Pool and regime, and the range that is asked.
fn draw_scene(maker: &mut Maker, choice: &Choice) -> usize {
    let random = &mut maker.random;
    let scene = &mut maker.scene;
    let level = choice.level as u8;
    let granule = draw_granule_with(random, level);
    let sketch = Sketch {
        granule,
        code: random.below(6) as u8,
        placement: Placement::Inside,
        granules: draw_granules(random, granule, 1).min(3),
    };
    scene.draw(random, sketch);

    let number = random.below(2) as usize;
    let range = &mut scene.regime.ranges[number];
    range.t = draw_t_above(random, granule, level);
    range.disabled = false;
    range.hpd = true;
    // Of the four numbers two are for both on, which has the most to do.
    let updates = (choice.bits & 3) as usize;
    (scene.regime.ha, scene.regime.hd) = UPDATES[updates.min(UPDATES.len() - 1)];
    scene.regime.wxn = choice.bits & 4 != 0;
    number
}

/// The leaf, and its attribute byte in the regime.
fn draw_leaf(maker: &mut Maker, choice: &Choice) -> u64 {
    let random = &mut maker.random;
    let scene = &mut maker.scene;
    let index = random.below(8);
    scene.regime.attributes[index as usize] = if choice.device {
        draw_device(random)
    } else {
        draw_normal(random)
    };
    let field = scene.regime.granule.table_field();
    let mut leaf = random.bits() & !field & !0x1F;
    for (place, bit) in LEAF_BITS.iter().enumerate() {
        leaf &= !(1 << bit);
        leaf |= u64::from(choice.bits >> (place + 3) & 1) << bit;
    }
    leaf |= index << 2 | leaf_type(choice.level);
    leaf | scene.draw_output(random) & field
}

//! Addresses at the edges of both ranges, for every size field, over tables
//! in which every entry leads on.

use super::scene::{draw_access, draw_leaf, draw_table, Placement, Sketch};
use super::Maker;
use crate::geometry::{Granule, GREATEST_T, LEAST_T};
use crate::promises::Expect;
use crate::reference::{Access, Kind};

const FAMILY: &str = "edges";

/// Which range is disabled: none, the one that is asked, or the other.
const PLAIN: u64 = 0;
const DISABLED: u64 = 3;

pub fn run(maker: &mut Maker) {
    for t in LEAST_T..=GREATEST_T {
        for range in 0..2 {
            for disabled in 0..DISABLED {
                ask(maker, Granule::Kib4, t, range, disabled);
            }
            for granule in [Granule::Kib16, Granule::Kib64] {
                ask(maker, granule, t, range, PLAIN);
            }
        }
    }
}

fn ask(maker: &mut Maker, granule: Granule, t: u8, range: usize, disabled: u64) {
    set(maker, granule, t, range, disabled);
    for address in addresses(t) {
        let access = draw_access(&mut maker.random, granule, address);
        maker.ask(FAMILY, &access, Expect::Walked);
        at_the_byte(maker, address);
    }
}

/// A pool in which every entry is a table that lies in the pool, and so at
/// level 3 a page; or, where the first level has blocks, every entry a block.
fn set(maker: &mut Maker, granule: Granule, t: u8, range: usize, disabled: u64) {
    let random = &mut maker.random;
    let scene = &mut maker.scene;
    let most = if granule == Granule::Kib64 { 1 } else { 3 };
    let sketch = Sketch {
        granule,
        code: random.below(6) as u8,
        placement: random.pick(&[Placement::Inside, Placement::EndsAtLimit, Placement::Zero]),
        granules: random.between(1, most),
    };
    scene.draw(random, sketch);
    let level = granule.first_level(t);
    let blocks = granule.has_blocks(level) && random.once_in(3);
    for index in 0..scene.regime.pool.length as u64 / 8 {
        let descriptor = if blocks {
            let output = scene.draw_output(random);
            draw_leaf(random, granule, usize::from(level), output)
        } else {
            let next = scene.draw_granule(random);
            draw_table(random, granule, next)
        };
        let entry = scene.granule(0) + 8 * index;
        scene.put(entry, descriptor);
    }
    scene.regime.ranges[range].t = t;
    for which in 0..2 {
        scene.regime.ranges[which].root = scene.draw_granule(random);
        scene.regime.ranges[which].disabled = false;
    }
    match disabled {
        1 => scene.regime.ranges[range].disabled = true,
        2 => scene.regime.ranges[1 - range].disabled = true,
        _ => {}
    }
}

/// Both ends of both ranges, the first address past each, and every bit
/// above the range turned over.
fn addresses(t: u8) -> Vec<u64> {
    let span = 64 - u32::from(t);
    let size = 1u64 << span;
    let lowest_upper = u64::MAX << span;
    let mut all = vec![0, size - 1, size, lowest_upper - 1, lowest_upper, u64::MAX];
    all.extend([1 << 55, !(1 << 55), 1 << 63, u64::MAX >> 1]);
    for place in span..64 {
        all.push((size - 1) ^ 1 << place);
        all.push(lowest_upper ^ 1 << place);
    }
    all
}

/// An access at the very byte; one of more than a byte may be refused.
fn at_the_byte(maker: &mut Maker, address: u64) {
    let random = &mut maker.random;
    let one = Access {
        address,
        size: 1,
        el0: random.coin(),
        kind: random.pick(&[Kind::Read, Kind::Write, Kind::ProbeRead, Kind::ProbeWrite]),
    };
    let wide = Access {
        size: random.pick(&[2, 4, 8, 16]),
        kind: random.pick(&[Kind::Read, Kind::Write, Kind::Update]),
        ..one
    };
    let page = maker.scene.granule_size();
    let room = page - address % page;
    let expect = if wide.size > room {
        Expect::Refused(7)
    } else {
        Expect::Walked
    };
    maker.ask(FAMILY, &one, Expect::Walked);
    maker.ask(FAMILY, &wide, expect);
}

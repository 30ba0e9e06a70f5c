//! Every sum of the tables' bits (RULES 6.11), with HPD off and on, over every
//! combination of a leaf's permission bits and of the controls, crossed with
//! every kind of access from both levels. Each bit of the sum stands in one or
//! more of the tables on the way.

use super::scene::{
    draw_access_of, draw_device, draw_granule_size, draw_normal, draw_table, leaf_type, Path,
    Sketch, UPDATES,
};
use super::Maker;
use crate::geometry::Granule;
use crate::promises::Expect;
use crate::random::Random;
use crate::reference::{
    bit, Access, Kind, AF, AP1, AP2, DBM, PXN, PXN_TABLE, TAKING, TAKING_FIELD, UXN,
};

const FAMILY: &str = "tables";

/// The leaf bits that are crossed.
const LEAF_BITS: [u32; 5] = [AP1, AP2, DBM, PXN, UXN];

struct Choice {
    leaf: u32,
    /// Bits 62..59 in their places.
    sum: u64,
    updates: (bool, bool),
    wxn: bool,
    hpd: bool,
}

pub fn run(maker: &mut Maker) {
    for leaf in 0..1 << LEAF_BITS.len() {
        for sum in 0..1 << TAKING.len() {
            for updates in UPDATES {
                for flags in 0..4 {
                    let choice = Choice {
                        leaf,
                        sum: sum << PXN_TABLE,
                        updates,
                        wxn: flags & 1 != 0,
                        hpd: flags & 2 != 0,
                    };
                    ask(maker, &choice);
                }
            }
        }
    }
}

/// All accesses to one page; the leaf is put back before each.
fn ask(maker: &mut Maker, choice: &Choice) {
    let path = draw_path(maker, choice);
    let leaf = draw_leaf(maker, choice, path.leaf_level);
    let random = &mut maker.random;
    maker.scene.lay(random, &path, leaf);
    lay_sum(maker, choice.sum, &path);
    let page = maker.scene.address(&mut maker.random, &path);
    for kind in Kind::ALL {
        for el0 in [false, true] {
            let granule = maker.scene.regime.granule;
            let access = draw_access_of(&mut maker.random, granule, page, kind);
            maker.scene.put(path.entry(path.leaf_level), leaf);
            maker.ask(FAMILY, &Access { el0, ..access }, Expect::Walked);
        }
    }
}

/// A leaf level below a first level, and a size field for it.
fn draw_way(random: &mut Random, granule: Granule) -> (usize, u8) {
    let below = granule.ways().filter(|(first, level)| first < level);
    let (first, level) = random.pick(&below.collect::<Vec<(u8, u8)>>());
    let mut rows = granule.first_levels().iter();
    let &(_, least, greatest) = rows.find(|row| row.0 == first).expect("a first level");
    let t = random.between(u64::from(least), u64::from(greatest)) as u8;
    (usize::from(level), t)
}

/// A pool and a regime, and a path with a table in it; HPD of the other range
/// is on or off.
fn draw_path(maker: &mut Maker, choice: &Choice) -> Path {
    let random = &mut maker.random;
    let scene = &mut maker.scene;
    let granule = draw_granule_size(random);
    let sketch = Sketch::inside(random, granule);
    scene.draw_within(random, sketch, 0, 0);
    let (leaf_level, t) = draw_way(random, granule);
    let number = random.below(2) as usize;
    let range = &mut scene.regime.ranges[number];
    range.t = t;
    range.disabled = false;
    range.hpd = choice.hpd;
    scene.regime.ranges[1 - number].hpd = random.coin();
    (scene.regime.ha, scene.regime.hd) = choice.updates;
    scene.regime.wxn = choice.wxn;
    scene.draw_path(random, number, leaf_level)
}

/// A leaf of seldom Device memory, which is no reason for an Access flag
/// fault.
fn draw_leaf(maker: &mut Maker, choice: &Choice, level: usize) -> u64 {
    let random = &mut maker.random;
    let scene = &mut maker.scene;
    let index = random.below(8);
    scene.regime.attributes[index as usize] = match random.below(16) {
        0 => draw_device(random),
        _ => draw_normal(random),
    };
    let field = scene.regime.granule.table_field();
    let mut leaf = random.bits() & !field & !0x1F;
    for (place, bit) in LEAF_BITS.iter().enumerate() {
        leaf &= !(1 << bit);
        leaf |= u64::from(choice.leaf >> place & 1) << bit;
    }
    if !scene.regime.ha {
        leaf |= 1 << AF;
    }
    let output = scene.draw_output(random) & field;
    leaf | output | index << 2 | leaf_type(level)
}

/// Writes the tables of a path once more, so that their bits add up to a sum.
fn lay_sum(maker: &mut Maker, sum: u64, path: &Path) {
    let random = &mut maker.random;
    let tables = path.first..path.leaf_level;
    let mut taking = [0; 4];
    for place in TAKING.into_iter().filter(|&place| bit(sum, place)) {
        let certain = random.between(path.first as u64, path.leaf_level as u64 - 1);
        for level in tables.clone() {
            if level as u64 == certain || random.once_in(3) {
                taking[level] |= 1 << place;
            }
        }
    }
    let granule = maker.scene.regime.granule;
    for level in tables {
        let table = draw_table(random, granule, path.tables[level + 1]) & !TAKING_FIELD;
        maker.scene.put(path.entry(level), table | taking[level]);
    }
}

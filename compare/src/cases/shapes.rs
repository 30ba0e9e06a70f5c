//! Trees of every shape: each granule, each first level, each leaf level, both
//! ranges, each output size, each with one thing made odd on purpose.

use super::scene::{
    draw_access, draw_granules, draw_leaf, draw_t, draw_table, Path, Placement, Scene, Sketch,
    WHOLE,
};
use super::Maker;
use crate::geometry::{Granule, LAST_LEVEL, PHYSICAL_LIMIT};
use crate::promises::Expect;
use crate::random::Random;

const FAMILY: &str = "shapes";
/// How often all shapes of a granule come.
const ROUNDS: [(Granule, u32); 3] = [(Granule::Kib4, 7), (Granule::Kib16, 2), (Granule::Kib64, 2)];

/// The odd thing. A number is the level whose table or descriptor is meant.
#[derive(Clone, Copy, Debug)]
enum Twist {
    Plain,
    /// The leaf is the pool's last descriptor.
    LastSlot,
    /// The leaf is the pool's first descriptor.
    FirstSlot,
    /// The table starts where the pool ends.
    PastEnd(usize),
    /// The table is the granule before the pool.
    BeforeStart(usize),
    /// The table is far from the pool.
    Far(usize),
    /// Bit 0 is clear.
    Invalid(usize),
    /// Bits 1..0 are 01 at a level without blocks.
    Reserved(usize),
    /// The bytes of the descriptor stand in the other order.
    Reversed(usize),
    /// Those of all descriptors do.
    OtherOrder,
    /// The path is one in either order; with 48 bits of output only.
    EitherWay,
    /// The table is the last granule within the output size.
    TableBelow(usize),
    /// The table is the first granule beyond it, yet in the pool.
    TableAt(usize),
    /// The table is farther beyond it, in the pool or not.
    TableAbove(usize),
    LeafBelow,
    LeafAt,
    LeafAbove,
    /// All tables are one and the same.
    OneTable,
    /// One descriptor points to its own table and serves every level.
    Recursive,
    /// An entry of level 2 points to its own table, so that the table
    /// descriptors there are leaves of other addresses.
    Loop,
    /// Two entries lead to one table.
    Shared(usize),
    /// One of the bits above the range is wrong.
    TopBit,
    Disabled,
}

fn twists(granule: Granule, first: usize, leaf_level: usize) -> Vec<Twist> {
    let mut all = vec![
        Twist::Plain,
        Twist::Plain,
        Twist::LastSlot,
        Twist::FirstSlot,
        Twist::LeafBelow,
        Twist::LeafAt,
        Twist::LeafAbove,
        Twist::OneTable,
        Twist::OtherOrder,
        Twist::EitherWay,
        Twist::TopBit,
        Twist::Disabled,
    ];
    for level in first..=leaf_level {
        all.extend([
            Twist::PastEnd(level),
            Twist::BeforeStart(level),
            Twist::Far(level),
            Twist::Invalid(level),
            Twist::Reversed(level),
            Twist::TableBelow(level),
            Twist::TableAt(level),
            Twist::TableAbove(level),
        ]);
        if !granule.has_blocks(level as u8) {
            all.push(Twist::Reserved(level));
        }
        if level < leaf_level {
            all.push(Twist::Shared(level));
        }
    }
    // With a table and a page.
    if first < leaf_level && leaf_level == usize::from(LAST_LEVEL) {
        all.extend([Twist::Recursive, Twist::Loop]);
    }
    all
}

/// One tree to make.
struct Wish {
    granule: Granule,
    t: u8,
    range: usize,
    leaf_level: usize,
    code: u8,
    twist: Twist,
}

impl Wish {
    /// With 48 bits of output nothing lies beyond the limit.
    fn has_beyond(&self) -> bool {
        self.code < WHOLE
    }
}

pub fn run(maker: &mut Maker) {
    for (granule, rounds) in ROUNDS {
        for _ in 0..rounds {
            for t in draw_size_fields(&mut maker.random, granule) {
                each_leaf_level(maker, granule, t);
            }
        }
    }
}

/// The bounds of each first level, and two others.
fn draw_size_fields(random: &mut Random, granule: Granule) -> Vec<u8> {
    let rows = granule.first_levels().iter();
    let mut all: Vec<u8> = rows.flat_map(|row| [row.1, row.2]).collect();
    all.dedup();
    all.extend([draw_t(random), draw_t(random)]);
    all
}

fn each_leaf_level(maker: &mut Maker, granule: Granule, t: u8) {
    let first = granule.first_level(t);
    for leaf_level in granule.leaf_levels().filter(|level| *level >= first) {
        let leaf_level = usize::from(leaf_level);
        for twist in twists(granule, usize::from(first), leaf_level) {
            for (code, range) in (0..=WHOLE).flat_map(|code| [(code, 0), (code, 1)]) {
                let wish = Wish {
                    granule,
                    t,
                    range,
                    leaf_level,
                    code,
                    twist,
                };
                ask(maker, &wish);
            }
        }
    }
}

/// Makes the tree and asks for the path, for the same leaf again with the
/// marks now in place, and for an address beside the path.
fn ask(maker: &mut Maker, wish: &Wish) {
    let random = &mut maker.random;
    let scene = &mut maker.scene;
    draw_scene(random, scene, wish);
    let output = draw_output(random, scene, wish);
    let leaf = draw_leaf(random, wish.granule, wish.leaf_level, output);
    let mut path = scene.draw_path(random, wish.range, wish.leaf_level);
    bend(random, scene, wish, &mut path);
    scene.lay(random, &path, leaf);
    mar(random, scene, wish, &path);
    let address = scene.address(random, &path);
    let (address, again) = spoil(random, scene, wish, &path, address);
    let lowest = u64::from(wish.granule.page_bits());
    let beside = address ^ 1 << random.between(lowest, 63 - u64::from(wish.t));
    for address in [address, again, beside] {
        let access = draw_access(&mut maker.random, wish.granule, address);
        maker.ask(FAMILY, &access, Expect::Walked);
    }
}

/// Pool and regime, the pool where the twist needs it.
fn draw_scene(random: &mut Random, scene: &mut Scene, wish: &Wish) {
    let (placement, least) = match wish.twist {
        Twist::TableBelow(_) => (Placement::EndsAtLimit, 1),
        Twist::TableAt(_) | Twist::TableAbove(_) if wish.has_beyond() => (Placement::Straddles, 2),
        Twist::PastEnd(_) | Twist::BeforeStart(_) | Twist::Far(_) => (Placement::Inside, 1),
        Twist::EitherWay if !wish.has_beyond() => (Placement::EitherWay, 1),
        _ => {
            let some = random.pick(&[
                Placement::Zero,
                Placement::Inside,
                Placement::Inside,
                Placement::EndsAtLimit,
            ]);
            (some, 1)
        }
    };
    let sketch = Sketch {
        granule: wish.granule,
        code: wish.code,
        placement,
        granules: draw_granules(random, wish.granule, least),
    };
    match wish.twist {
        // Memory on the side where the walk will stray, mostly.
        Twist::PastEnd(_) | Twist::BeforeStart(_) if !random.once_in(8) => {
            let before = random.between(1, 2) as usize * wish.granule.length();
            let behind = random.pick(&[8, 4096, 4096, 4103, 8192]);
            scene.draw_within(random, sketch, before, behind);
        }
        _ => scene.draw(random, sketch),
    }
    scene.regime.ranges[wish.range].t = wish.t;
    scene.regime.ranges[wish.range].disabled = matches!(wish.twist, Twist::Disabled);
}

fn draw_output(random: &mut Random, scene: &Scene, wish: &Wish) -> u64 {
    let limit = scene.limit();
    match wish.twist {
        Twist::LeafBelow => limit - 1,
        Twist::LeafAt if wish.has_beyond() => limit,
        Twist::LeafAbove if wish.has_beyond() => limit + random.below(PHYSICAL_LIMIT - limit),
        _ => scene.draw_output(random),
    }
}

/// Leads the path to where the twist wants it, before it is written.
fn bend(random: &mut Random, scene: &Scene, wish: &Wish, path: &mut Path) {
    let leaf_level = wish.leaf_level;
    let (limit, granule) = (scene.limit(), scene.granule_size());
    match wish.twist {
        Twist::LastSlot => {
            path.tables[leaf_level] = scene.granule(scene.granules() - 1);
            path.indices[leaf_level] = scene.entries(wish.range, leaf_level) - 1;
        }
        Twist::FirstSlot => {
            path.tables[leaf_level] = scene.granule(0);
            path.indices[leaf_level] = 0;
        }
        Twist::PastEnd(level) => {
            path.tables[level] = scene.pool_end();
            if !random.once_in(4) {
                path.indices[level] = 0;
            }
        }
        Twist::BeforeStart(level) => {
            path.tables[level] = scene.granule(0) - granule;
            if !random.once_in(4) {
                path.indices[level] = scene.entries(wish.range, level) - 1;
            }
        }
        Twist::Far(level) => {
            path.tables[level] = random.below(limit / granule) * granule;
        }
        Twist::TableBelow(level) => path.tables[level] = limit - granule,
        Twist::TableAt(level) if wish.has_beyond() => path.tables[level] = limit,
        Twist::TableAbove(level) if wish.has_beyond() => {
            path.tables[level] = match random.below(3) {
                0 => scene.pool_end() - granule,
                1 => limit + granule,
                _ => limit + random.below((PHYSICAL_LIMIT - limit) / granule) * granule,
            };
        }
        Twist::OneTable => path.tables = [path.tables[leaf_level]; 4],
        Twist::Recursive => {
            path.tables = [path.tables[leaf_level]; 4];
            path.indices = [path.indices[path.first]; 4];
        }
        _ => {}
    }
}

/// Changes what was written, or the order in which it is read.
fn mar(random: &mut Random, scene: &mut Scene, wish: &Wish, path: &Path) {
    match wish.twist {
        Twist::Invalid(level) => scene.retype(path.entry(level), random.below(2) << 1),
        Twist::Reserved(level) => scene.retype(path.entry(level), 1),
        Twist::Reversed(level) => scene.reverse(path.entry(level)),
        Twist::OtherOrder => scene.regime.ee ^= true,
        Twist::EitherWay => scene.regime.ee ^= random.coin(),
        Twist::Recursive => {
            let table = draw_table(random, wish.granule, path.tables[wish.leaf_level]);
            scene.put(path.entry(wish.leaf_level), table);
        }
        _ => {}
    }
}

/// Adds to what was written, or changes the address. Gives the address for the
/// path and one that reaches the same leaf; or, in a loop, one whose leaf is a
/// table on the path.
fn spoil(
    random: &mut Random,
    scene: &mut Scene,
    wish: &Wish,
    path: &Path,
    address: u64,
) -> (u64, u64) {
    match wish.twist {
        Twist::Loop => {
            let mut round = *path;
            round.indices[2] = scene.draw_index(random, wish.range, 2);
            round.tables[3] = path.tables[2];
            round.indices[3] = path.indices[2];
            let table = draw_table(random, wish.granule, path.tables[2]);
            scene.put(round.entry(2), table);
            return (address, scene.address(random, &round));
        }
        Twist::Shared(level) => {
            let mut other = *path;
            other.indices[level] = scene.draw_index(random, wish.range, level);
            let table = draw_table(random, wish.granule, path.tables[level + 1]);
            scene.put(other.entry(level), table);
            let in_leaf = wish.granule.span_mask(wish.leaf_level as u8);
            let second = scene.address(random, &other);
            return (address, (second & !in_leaf) | (address & in_leaf));
        }
        Twist::TopBit => {
            let wrong = 1 << random.between(64 - u64::from(wish.t), 63);
            return (address ^ wrong, address);
        }
        _ => {}
    }
    (address, address)
}

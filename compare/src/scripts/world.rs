//! Where scripts play: a memory with tables in it, regimes that speak of
//! them, and pages worth asking for.

use crate::cases::scene::{
    draw_clean_leaf, draw_device, draw_granules, draw_leaf, draw_normal, draw_t,
    draw_t_with_tables, draw_table, draw_updates, short_pool, Placement, Scene, Sketch, WHOLE,
};
use crate::geometry::{Granule, LAST_LEVEL};
use crate::granules::with_granule;
use crate::limits::longest_pool;
use crate::random::Random;
use crate::reference::{Regime, AF, AP1, AP2, DBM, MEMORY_LIMIT};
use crate::refusals;
use crate::reversed::other_order;
use crate::session::PLACES;

/// The level of the pages, as an index.
const PAGES: usize = LAST_LEVEL as usize;

/// Which leaves a world has.
#[derive(Clone, Copy, Debug, PartialEq, Eq)]
pub enum Leaves {
    Mixed,
    /// Mostly writable-clean.
    Clean,
}

pub struct World {
    /// All there is to lend.
    pub memory: Vec<u8>,
    /// How much of it is lent as a rule.
    pub length: usize,
    /// Regimes that are accepted over that much; the first is home.
    pub regimes: Vec<Regime>,
    /// One whose pool needs more than that.
    pub far: Option<Regime>,
    /// First addresses of pages.
    pub pages: Vec<u64>,
    /// Its tables are tables in either byte order.
    pub either_way: bool,
    /// Addresses that two of its regimes translate, each by its granule.
    pub shared: Vec<u64>,
    /// Pages at the end of the pool, where the world was made for them.
    pub ends: Option<Ends>,
}

/// Two pages by their first addresses.
#[derive(Clone, Copy, Debug)]
pub struct Ends {
    /// Its leaf is the pool's last descriptor, and writable-clean.
    pub last: u64,
    /// Its walk asks for the first descriptor behind the pool.
    pub behind: u64,
}

pub fn set_bit(value: u64, place: u32, to: bool) -> u64 {
    (value & !(1 << place)) | (u64::from(to) << place)
}

/// A leaf that most accesses can use.
pub fn draw_usable_leaf(
    random: &mut Random,
    granule: Granule,
    level: usize,
    output: u64,
    leaves: Leaves,
) -> u64 {
    let leaf = draw_leaf(random, granule, level, output);
    if leaves == Leaves::Mixed && random.coin() {
        return leaf;
    }
    let leaf = set_bit(leaf, AF, !random.once_in(4));
    let leaf = set_bit(leaf, AP1, !random.once_in(4));
    let leaf = set_bit(leaf, AP2, !random.once_in(4));
    set_bit(leaf, DBM, !random.once_in(4))
}

/// The tables of one range: one for each level, and the way down them.
struct Tree {
    granule: Granule,
    range: usize,
    first: usize,
    tables: [u64; 4],
    trunk: [u64; 4],
    leaves: Leaves,
}

impl Tree {
    fn draw(random: &mut Random, scene: &mut Scene, range: usize, leaves: Leaves) -> Tree {
        let base = random.below(scene.granules());
        let mut tree = Tree::based(scene, base, range, leaves);
        tree.draw_trunk(random, scene);
        tree.plant(random, scene);
        tree
    }

    /// The same in the last granules of a pool that has one for each level.
    fn draw_at_end(random: &mut Random, scene: &mut Scene, range: usize, leaves: Leaves) -> Tree {
        let first = scene
            .regime
            .granule
            .first_level(scene.regime.ranges[range].t);
        let base = scene.granules() - u64::from(4 - first);
        let mut tree = Tree::based(scene, base, range, leaves);
        tree.draw_trunk(random, scene);
        tree.plant(random, scene);
        tree
    }

    /// The table of the first level is the granule with a number. A granule
    /// for each level; where there are too few, some serve two.
    fn based(scene: &Scene, base: u64, range: usize, leaves: Leaves) -> Tree {
        let granule = scene.regime.granule;
        let first = usize::from(granule.first_level(scene.regime.ranges[range].t));
        let mut tree = Tree {
            granule,
            range,
            first,
            tables: [0; 4],
            trunk: [0; 4],
            leaves,
        };
        for level in first..=PAGES {
            let number = (base + (level - first) as u64) % scene.granules();
            tree.tables[level] = scene.granule(number);
        }
        tree
    }

    fn draw_trunk(&mut self, random: &mut Random, scene: &Scene) {
        for level in self.first..=PAGES {
            self.trunk[level] = scene.draw_index(random, self.range, level);
        }
    }

    /// Its trunk is the way to an address.
    fn lead_to(&mut self, scene: &Scene, address: u64) {
        let t = scene.regime.ranges[self.range].t;
        for level in self.first..=PAGES {
            self.trunk[level] = self.granule.index(t, level as u8, address);
        }
    }

    /// Sets the root, and lays the trunk.
    fn plant(&self, random: &mut Random, scene: &mut Scene) {
        scene.regime.ranges[self.range].root = self.tables[self.first];
        self.lay_trunk(random, scene);
    }

    fn lay_trunk(&self, random: &mut Random, scene: &mut Scene) {
        for level in self.first..PAGES {
            self.point(random, scene, level, self.trunk[level], level + 1);
        }
    }

    /// All there is beside the trunk, and the pages it translates.
    fn lay(&self, random: &mut Random, scene: &mut Scene, pages: &mut Vec<u64>) {
        self.lay_aliases(random, scene, pages);
        self.lay_blocks(random, scene, pages);
        self.lay_loop(random, scene, pages);
        self.lay_pages(random, scene, pages);
        // Once more, as the rest may have fallen on it.
        self.lay_trunk(random, scene);
    }

    /// Makes an entry a table descriptor for the table of another level.
    fn point(&self, random: &mut Random, scene: &mut Scene, level: usize, index: u64, to: usize) {
        let descriptor = draw_table(random, self.granule, self.tables[to]);
        scene.put(self.tables[level] + 8 * index, descriptor);
    }

    fn put_leaf(&self, random: &mut Random, scene: &mut Scene, level: usize, index: u64) {
        let output = scene.draw_output(random);
        let leaf = draw_usable_leaf(random, self.granule, level, output, self.leaves);
        scene.put(self.tables[level] + 8 * index, leaf);
    }

    /// The first address of a page, by its four indices.
    fn page(&self, scene: &Scene, indices: &[u64; 4]) -> u64 {
        let span = 64 - u32::from(scene.regime.ranges[self.range].t);
        let mut address = 0;
        for (level, index) in indices.iter().enumerate().skip(self.first) {
            address |= index << self.granule.lowest_index_bit(level as u8);
        }
        if self.range == 1 {
            address |= u64::MAX << span;
        }
        address
    }

    /// The trunk with one index changed.
    fn aside(&self, level: usize, index: u64) -> [u64; 4] {
        let mut indices = self.trunk;
        indices[level] = index;
        indices
    }

    /// Entries of the last table that can be reached.
    fn pages_in(&self, scene: &Scene) -> u64 {
        let t = scene.regime.ranges[self.range].t;
        1 << self.granule.index_bits(t, LAST_LEVEL)
    }

    /// The indices of a page some pages further on in the last table.
    fn further(&self, scene: &Scene, mut indices: [u64; 4], step: u64) -> [u64; 4] {
        indices[PAGES] = (indices[PAGES] + step) % self.pages_in(scene);
        indices
    }

    /// Leaves in the last table, some of them in one place, or in one place
    /// of another granule.
    fn lay_pages(&self, random: &mut Random, scene: &mut Scene, pages: &mut Vec<u64>) {
        let far = random.below(self.pages_in(scene));
        for step in [0, 64, 128, 1, 2, 3, 4, 16, 32, 33, 34, far, far + 1] {
            let indices = self.further(scene, self.trunk, step);
            self.put_leaf(random, scene, PAGES, indices[PAGES]);
            pages.push(self.page(scene, &indices));
        }
    }

    /// Entries beside the trunk that lead to the same table: other pages,
    /// same place, one descriptor.
    fn lay_aliases(&self, random: &mut Random, scene: &mut Scene, pages: &mut Vec<u64>) {
        for level in self.first..PAGES {
            let index = scene.draw_index(random, self.range, level);
            self.point(random, scene, level, index, level + 1);
            let indices = self.aside(level, index);
            pages.push(self.page(scene, &indices));
            let indices = self.further(scene, indices, PLACES as u64);
            pages.push(self.page(scene, &indices));
        }
    }

    /// Blocks: many pages, one descriptor.
    fn lay_blocks(&self, random: &mut Random, scene: &mut Scene, pages: &mut Vec<u64>) {
        let levels = (self.first..PAGES).filter(|level| self.granule.has_blocks(*level as u8));
        for level in levels {
            let index = scene.draw_index(random, self.range, level);
            self.put_leaf(random, scene, level, index);
            for step in [0, 1, 2, 64] {
                let indices = self.further(scene, self.aside(level, index), step);
                pages.push(self.page(scene, &indices));
            }
        }
    }

    /// An entry that points to its own table, so that tables are leaves too.
    fn lay_loop(&self, random: &mut Random, scene: &mut Scene, pages: &mut Vec<u64>) {
        let above = PAGES - 1;
        if self.first > above {
            return;
        }
        let index = scene.draw_index(random, self.range, above);
        self.point(random, scene, above, index, above);
        for last in [self.trunk[above], index] {
            let mut indices = self.aside(above, index);
            indices[PAGES] = last;
            pages.push(self.page(scene, &indices));
        }
    }

    /// In a tree of more than one level at the pool's end: the last entry of
    /// the last table, and one beside the trunk that leads to where the pool
    /// ends.
    fn lay_ends(&self, random: &mut Random, scene: &mut Scene) -> Ends {
        let output = scene.draw_output(random);
        let leaf = draw_clean_leaf(random, self.granule, PAGES, output);
        let last = self.pages_in(scene) - 1;
        scene.put(self.tables[PAGES] + 8 * last, leaf);

        let above = PAGES - 1;
        let entries = scene.entries(self.range, above);
        let index = (self.trunk[above] + random.between(1, entries - 1)) % entries;
        let behind = draw_table(random, self.granule, scene.pool_end());
        scene.put(self.tables[above] + 8 * index, behind);

        let mut past = self.aside(above, index);
        past[PAGES] = 0;
        Ends {
            last: self.page(scene, &self.aside(PAGES, last)),
            behind: self.page(scene, &past),
        }
    }
}

fn draw_placement(random: &mut Random) -> Placement {
    random.pick(&[
        Placement::Zero,
        Placement::Inside,
        Placement::Inside,
        Placement::EndsAtLimit,
    ])
}

/// Bytes before and behind a pool. Behind it there is room for a longer pool,
/// of the largest granules at times.
fn draw_around(random: &mut Random, granule: Granule) -> (usize, usize) {
    let (before, behind) = match granule {
        Granule::Kib4 => (random.pick(&[0, 0, 1, 2]), 2),
        Granule::Kib16 => (random.pick(&[0, 0, 1, 2]), 1),
        Granule::Kib64 => (random.pick(&[0, 0, 0, 1]), random.pick(&[0, 0, 0, 1])),
    };
    let more = random.pick(&[0, 1, 8, 4095]);
    (before * granule.length(), behind * granule.length() + more)
}

/// A pool, a home regime and memory behind the pool, before any tree.
fn draw_scene(
    random: &mut Random,
    granule: Granule,
    placement: Placement,
    least: u64,
    leaves: Leaves,
) -> Scene {
    let mut scene = Scene::new();
    let (_, few) = short_pool(granule);
    let (before, behind) = draw_around(random, granule);
    let sketch = Sketch {
        granule,
        code: match placement {
            Placement::EitherWay => WHOLE,
            _ => random.below(6) as u8,
        },
        placement,
        granules: draw_granules(random, granule, least.min(few)),
    };
    scene.draw_within(random, sketch, before, behind);
    let seldom = if leaves == Leaves::Clean { 12 } else { 4 };
    (scene.regime.ha, scene.regime.hd) = draw_updates(random, seldom);
    for range in &mut scene.regime.ranges {
        range.disabled = random.once_in(16);
    }
    scene
}

/// The other regimes, and how much is lent as a rule.
fn finish(random: &mut Random, scene: Scene, mut pages: Vec<u64>) -> World {
    let home = scene.regime;
    let granule = home.granule.length();
    let pool_end = home.pool.start + home.pool.length;
    let spare = (scene.memory.len() - pool_end).min(granule - 1);
    let some = random.below(spare as u64 + 1) as usize;
    let length = pool_end + random.pick(&[0, spare, some]);
    let mut regimes = vec![home];
    for _ in 0..2 {
        let other = vary(random, &home);
        if refusals::of_set_regime(length, &other).is_none() {
            regimes.push(other);
        }
    }
    if random.once_in(3) {
        regimes.push(other_order(&home));
    }
    let mut far = home;
    far.pool.length += granule;
    let needs_more = refusals::of_set_regime(length, &far) == Some(1);
    let fits_all = refusals::of_set_regime(scene.memory.len(), &far).is_none();

    // The same lower bits above another range, or above none.
    for _ in 0..2 {
        let page = random.pick(&pages);
        let t = home.ranges[usize::from(page >> 63 == 1)].t;
        pages.push(page ^ (1 << random.between(64 - u64::from(t), 63)));
    }
    World {
        memory: scene.memory,
        length,
        regimes,
        far: (needs_more && fits_all).then_some(far),
        pages,
        either_way: scene.either_way,
        shared: Vec::new(),
        ends: None,
    }
}

/// A regime that differs from home in something, at times in its byte order or
/// its granule.
pub fn vary(random: &mut Random, home: &Regime) -> Regime {
    let mut other = *home;
    let page = home.granule.length();
    (other.ha, other.hd) = draw_updates(random, 2);
    other.wxn = random.coin();
    other.ee ^= random.once_in(6);
    if random.once_in(6) {
        other.granule = random.pick(&Granule::ALL);
    }
    for range in &mut other.ranges {
        range.hpd ^= random.once_in(3);
    }
    match random.below(8) {
        0 => other.output_code = random.below(6) as u8,
        1 => other.ranges.swap(0, 1),
        2 => other.ranges[random.below(2) as usize].t = draw_t(random),
        3 => other.ranges[random.below(2) as usize].disabled ^= true,
        4 => other.pool.address ^= home.granule.bytes(),
        5 => other.pool.length -= page,
        6 => {
            let shift = page * random.below(3) as usize;
            other.pool.start += shift;
            other.pool.length = other.pool.length.saturating_sub(shift);
            other.pool.address += random.pick(&[0, shift as u64]);
        }
        _ => {
            for byte in &mut other.attributes {
                *byte = if random.coin() {
                    draw_device(random)
                } else {
                    draw_normal(random)
                };
            }
        }
    }
    other
}

impl World {
    /// Planned trees, one for both ranges or one for each.
    pub fn planned(random: &mut Random, granule: Granule, leaves: Leaves) -> World {
        let placement = draw_placement(random);
        World::planned_at(random, granule, placement, leaves)
    }

    /// The same where the order of a tree's bytes does not matter to its shape.
    pub fn either_way(random: &mut Random, granule: Granule) -> World {
        World::planned_at(random, granule, Placement::EitherWay, Leaves::Clean)
    }

    fn planned_at(
        random: &mut Random,
        granule: Granule,
        placement: Placement,
        leaves: Leaves,
    ) -> World {
        let least = random.pick(&[1, 2, 4, 4, 4]);
        let mut scene = draw_scene(random, granule, placement, least, leaves);
        let mut pages = Vec::new();
        Tree::draw(random, &mut scene, 0, leaves).lay(random, &mut scene, &mut pages);
        if random.coin() {
            Tree::draw(random, &mut scene, 1, leaves).lay(random, &mut scene, &mut pages);
        } else {
            scene.regime.ranges[1] = scene.regime.ranges[0];
            let span = 64 - u32::from(scene.regime.ranges[0].t);
            let upper = |page: &u64| page | u64::MAX << span;
            let mirrored: Vec<u64> = pages.iter().map(upper).collect();
            pages.extend(mirrored);
        }
        finish(random, scene, pages)
    }

    /// Trees for two granules over the same roots, and pages of both; the one
    /// granule or the other is that of home.
    pub fn two_granules(random: &mut Random) -> World {
        use Granule::{Kib16, Kib4, Kib64};
        let pair = random.pick(&[[Kib4, Kib16], [Kib4, Kib64], [Kib4, Kib64], [Kib16, Kib64]]);
        let placement = draw_placement(random);
        let mut scene = draw_scene(random, pair[1], placement, 1, Leaves::Clean);
        let (mut pages, mut shared) = (Vec::new(), Vec::new());
        for range in 0..2 {
            scene.regime.ranges[range].disabled = false;
            shared.push(lay_two(random, &mut scene, pair, range, &mut pages));
        }
        let [home, other] = random.pick(&[pair, [pair[1], pair[0]]]);
        scene.regime.granule = home;
        let other = with_granule(&scene.regime, other);
        let mut world = finish(random, scene, pages);
        world.regimes.push(other);
        World { shared, ..world }
    }

    /// A page for each place, in one table or one block.
    pub fn wide(random: &mut Random, granule: Granule) -> World {
        let placement = draw_placement(random);
        let mut scene = draw_scene(random, granule, placement, 4, Leaves::Mixed);
        let range = random.below(2) as usize;
        scene.regime.ranges[range].disabled = false;
        let leaves = random.pick(&[Leaves::Mixed, Leaves::Clean]);
        let tree = Tree::draw(random, &mut scene, range, leaves);
        let mut pages = Vec::new();
        let above = PAGES - 1;
        let block = tree.first <= above && random.coin();
        if block {
            tree.put_leaf(random, &mut scene, above, tree.trunk[above]);
        }
        let turns = tree.pages_in(&scene) / PLACES as u64;
        for place in 0..PLACES as u64 {
            let index = place + PLACES as u64 * random.below(turns);
            if !block {
                tree.put_leaf(random, &mut scene, PAGES, index);
            }
            pages.push(tree.page(&scene, &tree.aside(PAGES, index)));
        }
        finish(random, scene, pages)
    }

    /// Likely descriptors without a plan, and pages near each other.
    pub fn unplanned(random: &mut Random, granule: Granule) -> World {
        let placement = draw_placement(random);
        let mut scene = draw_scene(random, granule, placement, 2, Leaves::Mixed);
        if random.once_in(8) {
            scene.fill_random(random);
        }
        for range in &mut scene.regime.ranges {
            range.root = scene.regime.pool.address;
        }
        let mut pages = Vec::new();
        for _ in 0..8 {
            let range = random.below(2) as usize;
            let page = granule.floor(scene.draw_address(random, range));
            let apart = PLACES as u64 * granule.bytes();
            let bits = 64 - u64::from(scene.regime.ranges[range].t);
            let farther = random.below(6.min(bits - u64::from(apart.ilog2())));
            pages.extend([page, page ^ apart << farther]);
        }
        finish(random, scene, pages)
    }

    /// A tree at the end of a long pool, with memory for a longer one. In turn
    /// the pool is the longest, or up to a half as long, and so on down to a
    /// short one.
    pub fn long_pool(random: &mut Random, granule: Granule, turn: u64) -> World {
        let (longest, page) = (longest_pool(granule), granule.length());
        let (short, _) = short_pool(granule);
        let halvings = turn % u64::from((longest / short).ilog2() + 1);
        let most = longest >> halvings;
        let granules = match halvings {
            0 => most,
            _ => random.between(most / 2 + 1, most),
        };
        let before = random.pick(&[0, 0, 1, 2]) * page;
        let behind = 2 * page + random.pick(&[0, 1, 8, 4095]);
        let mut world = World::at_end(random, granule, granules, before, behind);
        world.length = world.memory.len() - random.pick(&[1, page / 2, page]);
        world
    }

    /// A tree at the end of a pool in the longest memory, and one byte more.
    /// In turn the pool is the last of that memory or not, and the longest or
    /// a short one.
    pub fn long_memory(random: &mut Random, granule: Granule, turn: u64) -> World {
        let page = granule.length();
        let (short, _) = short_pool(granule);
        let granules = match turn / 2 % 2 {
            0 => longest_pool(granule),
            _ => random.between(4, short),
        };
        let most = MEMORY_LIMIT / page - granules as usize;
        let before = match turn % 2 {
            0 => most,
            _ => random.below(most as u64) as usize,
        };
        let behind = (most - before) * page + 1;
        let mut world = World::at_end(random, granule, granules, before * page, behind);
        world.length = MEMORY_LIMIT;
        world
    }

    /// A tree at the end of a pool, in which a write from EL1 makes marks, with
    /// so much memory before and behind the pool.
    fn at_end(
        random: &mut Random,
        granule: Granule,
        granules: u64,
        before: usize,
        behind: usize,
    ) -> World {
        let mut scene = Scene::new();
        let sketch = Sketch {
            granule,
            code: random.below(6) as u8,
            placement: Placement::Inside,
            granules,
        };
        scene.draw_within(random, sketch, before, behind);
        (scene.regime.ha, scene.regime.hd) = (true, true);
        scene.regime.ranges[0].t = draw_t_with_tables(random, granule);
        scene.regime.ranges[0].disabled = false;
        // So that no table takes the writing away.
        scene.regime.ranges[0].hpd = true;
        let tree = Tree::draw_at_end(random, &mut scene, 0, Leaves::Mixed);
        let mut pages = Vec::new();
        tree.lay(random, &mut scene, &mut pages);
        let ends = tree.lay_ends(random, &mut scene);
        pages.extend([ends.last, ends.behind]);
        World {
            far: None,
            ends: Some(ends),
            ..finish(random, scene, pages)
        }
    }
}

/// Lays a tree for each of two granules, both over one root and with trunks to
/// one address, which it gives.
fn lay_two(
    random: &mut Random,
    scene: &mut Scene,
    pair: [Granule; 2],
    range: usize,
    pages: &mut Vec<u64>,
) -> u64 {
    let root = scene.draw_granule(random);
    let address = scene.draw_address(random, range);
    let trees = pair.map(|granule| {
        scene.regime.granule = granule;
        let base = (root - scene.regime.pool.address) / granule.bytes();
        let mut tree = Tree::based(scene, base, range, Leaves::Clean);
        tree.lead_to(scene, address);
        tree.plant(random, scene);
        tree.lay(random, scene, pages);
        tree
    });
    // Once more, as the second tree may have fallen on the first.
    for tree in &trees {
        tree.lay_trunk(random, scene);
    }
    address
}

/// A descriptor that leads to an address: its type and other bits stay.
pub fn lead_to(granule: Granule, descriptor: u64, address: u64) -> u64 {
    let field = granule.table_field();
    (descriptor & !field) | (address & field)
}

//! Harvests of as many pages as there can be, and over the longest pools and
//! memories.

use super::draw::{draw_likely_leaf, with_map};
use super::scenes::draw_scene;
use super::shared::{entries, fill_pages};
use super::{pages_of, span_of, Harvest, Trial, MOST_PAGES};
use crate::boundary::Harvester;
use crate::cases::scene::{Path, Placement, Scene, Sketch, WHOLE};
use crate::geometry::{Granule, LAST_LEVEL, LEAST_T};
use crate::limits::longest_pool;
use crate::random::Random;
use crate::reference::MEMORY_LIMIT;
use crate::session::{first_of, page_of};

const PAGES: usize = LAST_LEVEL as usize;
/// The level of the tables above the pages, and of blocks with every granule.
const ABOVE: usize = PAGES - 1;

/// The greatest size field whose range has as many pages as can be asked for.
fn greatest_t(granule: Granule) -> u8 {
    (64 - granule.page_bits() - MOST_PAGES.ilog2()) as u8
}

/// The longest pool, or a short one.
fn draw_pool(random: &mut Random, granule: Granule, longest: bool, behind: usize) -> Scene {
    if !longest {
        return draw_scene(random, granule, WHOLE);
    }
    let mut scene = Scene::new();
    let sketch = Sketch {
        granule,
        code: WHOLE,
        placement: Placement::Inside,
        granules: longest_pool(granule),
    };
    scene.draw_within(random, sketch, granule.length(), behind);
    for range in &mut scene.regime.ranges {
        range.disabled = false;
    }
    scene
}

/// A path to the first page of a span of as many pages as can be asked for; its
/// tables are not among the last of the pool.
fn draw_path(random: &mut Random, scene: &mut Scene, range: usize, t: u8) -> Path {
    scene.regime.ranges[range].t = t;
    let granule = scene.regime.granule;
    let mut path = scene.draw_path(random, range, ABOVE);
    let address = scene.draw_address(random, range);
    let page = page_of(granule, address) & !(MOST_PAGES - 1);
    scene.lead_to(&mut path, first_of(granule, page));
    for level in path.first..=ABOVE {
        path.tables[level] = scene.granule((level - path.first) as u64 % scene.granules());
    }
    path
}

/// Descriptors of the level above the pages for as many pages as can be asked
/// for.
fn count_above(granule: Granule) -> u64 {
    MOST_PAGES / entries(granule)
}

/// Makes all these descriptors blocks.
fn lay_blocks(random: &mut Random, scene: &mut Scene, path: &mut Path) {
    let granule = scene.regime.granule;
    let start = path.indices[ABOVE];
    for number in 0..count_above(granule) {
        path.indices[ABOVE] = start + number;
        let output = scene.draw_output(random);
        let block = draw_likely_leaf(random, granule, ABOVE, output);
        scene.lay(random, path, block);
    }
    path.indices[ABOVE] = start;
}

/// Makes them lead to tables full of pages, which are the granules of the pool
/// up to one with a number; where there are too few, they have many names.
fn lay_tables(random: &mut Random, scene: &mut Scene, path: &mut Path, end: u64) {
    let count = count_above(scene.regime.granule);
    // The first ones are for the upper levels.
    let least = end.saturating_sub(count).max(3.min(end - 1));
    for number in least..end {
        let table = scene.granule(number);
        fill_pages(random, scene, table);
    }
    let start = path.indices[ABOVE];
    for number in 0..count {
        path.indices[ABOVE] = start + number;
        scene.lay(random, path, 0);
        let table = end - 1 - (count - 1 - number) % (end - least);
        scene.lead(random, path, ABOVE, scene.granule(table));
    }
    path.indices[ABOVE] = start;
}

/// The first page that a path leads to.
fn first_page(random: &mut Random, scene: &Scene, path: &Path) -> u64 {
    let granule = scene.regime.granule;
    let page = page_of(granule, scene.address(random, path));
    span_of(granule, ABOVE as u8, page).start
}

impl<H: Harvester> Trial<H> {
    pub(super) fn run_large(&mut self, granule: Granule) -> Result<(), String> {
        for range in 0..2 {
            for blocks in [false, true] {
                for t in [LEAST_T, greatest_t(granule)] {
                    self.large(granule, range, t, blocks)?;
                }
            }
        }
        Ok(())
    }

    /// Over the longest pool, or one whose tables have many names each.
    fn large(&mut self, granule: Granule, range: usize, t: u8, blocks: bool) -> Result<(), String> {
        let random = &mut self.random;
        let longest = !blocks && t == LEAST_T;
        let mut scene = draw_pool(random, granule, longest, 8);
        let mut path = draw_path(random, &mut scene, range, t);
        let granules = scene.granules();
        match (blocks, range) {
            (true, _) => lay_blocks(random, &mut scene, &mut path),
            (_, 0) => lay_tables(random, &mut scene, &mut path, granules),
            _ => lay_tables(random, &mut scene, &mut path, granules - granules / 4),
        }
        let first = first_page(random, &scene, &path);
        let asked = with_map(random, first, MOST_PAGES);
        self.case("large", &scene, &asked)?;
        // Off the border of what a table maps, and one page too many.
        let own = pages_of(&scene.regime, range);
        let off = self.random.between(1, 300);
        if u128::from(first + off + MOST_PAGES) <= own.end {
            let asked = with_map(&mut self.random, first + off, MOST_PAGES);
            self.case("large", &scene, &asked)?;
        }
        let asked = with_map(&mut self.random, first, MOST_PAGES + 1);
        self.case("large", &scene, &asked)
    }

    /// The longest memory with the longest pool at its end, one byte less and
    /// one more; a longer pool; and a table just behind the longest pool.
    pub(super) fn run_longest(&mut self) -> Result<(), String> {
        for granule in Granule::ALL {
            self.longest(granule)?;
        }
        Ok(())
    }

    fn longest(&mut self, granule: Granule) -> Result<(), String> {
        let random = &mut self.random;
        let behind = granule.length();
        let mut scene = draw_pool(random, granule, true, behind);
        let mut path = draw_path(random, &mut scene, 0, LEAST_T);
        let granules = scene.granules();
        lay_tables(random, &mut scene, &mut path, granules);
        let first = first_page(random, &scene, &path);
        let last = first + MOST_PAGES - 1;
        let end = scene.pool_end();
        scene.lead(random, &path, ABOVE, end);
        let asked = with_map(random, first, 9);
        self.case("longest", &scene, &asked)?;
        let asked = with_map(&mut self.random, last, 1);
        self.case("longest", &scene, &asked)?;

        let mut longer = Scene {
            memory: scene.memory.clone(),
            ..scene
        };
        longer.regime.pool.length += granule.length();
        self.case("longest", &longer, &asked)?;
        longer.regime.pool.length -= granule.length();
        self.in_longest_memory(longer, &asked)
    }

    /// The same pool at the end of the longest memory.
    fn in_longest_memory(&mut self, mut scene: Scene, asked: &Harvest) -> Result<(), String> {
        let pool = &mut scene.regime.pool;
        let bytes = scene.memory[pool.start..][..pool.length].to_vec();
        pool.start = MEMORY_LIMIT - pool.length;
        let start = pool.start;
        scene.memory.resize(MEMORY_LIMIT, 0x5A);
        scene.memory[start..].copy_from_slice(&bytes);
        self.case("longest", &scene, asked)?;
        scene.memory.push(0x5A);
        self.case("longest", &scene, asked)?;
        scene.memory.truncate(MEMORY_LIMIT - 1);
        self.case("longest", &scene, asked)?;
        scene.memory.resize(MEMORY_LIMIT, 0x5A);
        scene.regime.pool.start += scene.regime.granule.length();
        self.case("longest", &scene, asked)
    }
}

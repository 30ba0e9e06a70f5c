//! Descriptors that are reached in more than one way: tables with two names, or
//! with one name in every entry; tables that point to themselves, so that their
//! descriptors are tables and pages; and a block of two levels.

use super::draw::{draw_dirty_leaf, draw_likely_leaf, draw_near, range_of, with_map};
use super::scenes::draw_scene;
use super::{Harvest, Trial};
use crate::boundary::Harvester;
use crate::cases::scene::{draw_t_with_tables, draw_table, Path, Scene};
use crate::geometry::{Granule, LAST_LEVEL};
use crate::random::Random;
use crate::reference::{AF, AP2, DBM};
use crate::session::page_of;

/// How often each sort is tried.
const TIMES: u32 = 24;

const PAGES: usize = LAST_LEVEL as usize;
/// The level of the tables above the pages.
const ABOVE: usize = PAGES - 1;

/// A table descriptor that is a dirty page too.
fn draw_dirty_table(random: &mut Random, granule: Granule, address: u64) -> u64 {
    let table = draw_table(random, granule, address);
    table & !(1 << AP2) | 1 << AF | 1 << DBM
}

/// Entries of a whole table.
pub fn entries(granule: Granule) -> u64 {
    granule.bytes() / 8
}

/// Fills a table with what is drawn for each entry.
pub fn fill(
    random: &mut Random,
    scene: &mut Scene,
    table: u64,
    mut draw: impl FnMut(&mut Random) -> u64,
) {
    for entry in 0..entries(scene.regime.granule) {
        let descriptor = draw(random);
        scene.put(table + 8 * entry, descriptor);
    }
}

/// Fills a table with pages, most of them dirty.
pub fn fill_pages(random: &mut Random, scene: &mut Scene, table: u64) {
    let (granule, limit) = (scene.regime.granule, scene.limit());
    fill(random, scene, table, |random| {
        let output = random.below(limit);
        draw_likely_leaf(random, granule, PAGES, output)
    });
}

/// A range with tables above its pages, and a path whose last table is the
/// pool's last, and serves no other level.
fn draw_tree(random: &mut Random, granule: Granule) -> (Scene, Path) {
    let mut scene = draw_scene(random, granule, 5);
    let range = random.below(2) as usize;
    scene.regime.ranges[range].t = draw_t_with_tables(random, granule);
    let mut path = scene.draw_path(random, range, PAGES);
    let others = scene.granules() - 1;
    for level in path.first..PAGES {
        path.tables[level] = scene.granule((level - path.first) as u64 % others);
    }
    path.tables[PAGES] = scene.granule(others);
    let leaf = draw_dirty_leaf(random, granule, PAGES, 0);
    scene.lay(random, &path, leaf);
    (scene, path)
}

/// The number of the page that a path leads to.
fn page(random: &mut Random, scene: &Scene, path: &Path) -> u64 {
    page_of(scene.regime.granule, scene.address(random, path))
}

/// So many pages from one on, as far as its range goes.
fn from(random: &mut Random, scene: &Scene, first: u64, count: u64) -> Harvest {
    let own = range_of(&scene.regime, first);
    let most = own.map_or(1, |own| own.end - first);
    with_map(random, first, count.min(most))
}

type Sort<H> = fn(&mut Trial<H>, Granule) -> Result<(), String>;

impl<H: Harvester> Trial<H> {
    pub(super) fn run_shared(&mut self, granule: Granule) -> Result<(), String> {
        let sorts: [Sort<H>; 3] = [Self::two_names, Self::own_table, Self::own_root];
        for _ in 0..TIMES {
            for sort in sorts {
                sort(self, granule)?;
            }
            if granule == Granule::Kib4 {
                self.two_levels()?;
            }
        }
        Ok(())
    }

    /// Two entries beside each other lead to one table of pages, or all entries
    /// do; more pages are asked for than it has.
    fn two_names(&mut self, granule: Granule) -> Result<(), String> {
        let random = &mut self.random;
        let (mut scene, mut path) = draw_tree(random, granule);
        let last = path.tables[PAGES];
        fill_pages(random, &mut scene, last);
        let all = scene.entries(path.range, ABOVE);
        if random.coin() {
            for index in 0..all {
                path.indices[ABOVE] = index;
                scene.lead(random, &path, ABOVE, last);
            }
        }
        let index = random.below(all - 1);
        for beside in [index + 1, index] {
            path.indices[ABOVE] = beside;
            scene.lead(random, &path, ABOVE, last);
        }
        path.indices[PAGES] = 0;
        let first = page(random, &scene, &path) + random.below(entries(granule) - 20);
        let count = entries(granule) + random.between(1, 20);
        let asked = from(random, &scene, first, count);
        self.case("shared", &scene, &asked)
    }

    /// An entry leads to its own table, whose descriptors are pages then.
    fn own_table(&mut self, granule: Granule) -> Result<(), String> {
        let random = &mut self.random;
        let (mut scene, mut path) = draw_tree(random, granule);
        let (own, last) = (path.tables[ABOVE], path.tables[PAGES]);
        fill(random, &mut scene, own, |random| {
            draw_dirty_table(random, granule, last)
        });
        // Once more, as the table may be one of the upper levels' too.
        let leaf = draw_dirty_leaf(random, granule, PAGES, 0);
        scene.lay(random, &path, leaf);
        let descriptor = draw_dirty_table(random, granule, own);
        scene.put(path.entry(ABOVE), descriptor);
        let any = random.below(entries(granule));
        path.indices[PAGES] = random.pick(&[path.indices[ABOVE], any]);
        let near = page(random, &scene, &path);
        let asked = draw_near(random, &scene.regime, near);
        self.case("shared", &scene, &asked)?;
        // And the pages of the table below, beside its own.
        path.indices[PAGES] = 0;
        let first = page(&mut self.random, &scene, &path);
        let count = entries(granule) + 40;
        let asked = from(&mut self.random, &scene, first, count);
        self.case("shared", &scene, &asked)
    }

    /// The root is the table of every level.
    fn own_root(&mut self, granule: Granule) -> Result<(), String> {
        let random = &mut self.random;
        let (mut scene, mut path) = draw_tree(random, granule);
        let root = path.tables[path.first];
        let levels = path.first..=PAGES;
        let most = levels.clone().map(|level| scene.entries(path.range, level));
        let index = random.below(most.min().unwrap_or(1));
        for level in levels {
            path.tables[level] = root;
            path.indices[level] = index;
        }
        fill(random, &mut scene, root, |random| {
            draw_dirty_table(random, granule, root)
        });
        scene.regime.ranges[path.range].root = root;
        let near = page(random, &scene, &path);
        let asked = draw_near(random, &scene.regime, near);
        self.case("shared", &scene, &asked)
    }

    /// A table of level 1 that is one of level 2 too, with a block beside the
    /// entry that says so: the block maps 2^18 pages and sticks out, or 2^9 and
    /// is whole.
    fn two_levels(&mut self) -> Result<(), String> {
        let random = &mut self.random;
        let mut scene = draw_scene(random, Granule::Kib4, 5);
        let range = random.below(2) as usize;
        scene.regime.ranges[range].t = random.between(16, 25) as u8;
        let mut path = scene.draw_path(random, range, ABOVE);
        let block = draw_dirty_leaf(random, Granule::Kib4, ABOVE, 0);
        let below = random.coin();
        let (own, other) = if below {
            let own = random.between(1, 10);
            (own, own - 1)
        } else {
            let own = random.between(500, 510);
            (own, own + 1)
        };
        path.tables[ABOVE] = path.tables[1];
        path.indices[1] = own;
        path.indices[ABOVE] = other;
        scene.lay(random, &path, block);
        let whole = page(random, &scene, &path) & !0x1FF;
        let few = random.between(1, 20);
        // From the block of level 1 to the end of that of level 2, or from the
        // beginning of that to the block of level 1.
        let (first, end) = if below {
            ((whole & !0x3_FFFF) - few, whole + 0x200 + few)
        } else {
            (whole, (whole | 0x3_FFFF) + 1 + few)
        };
        let asked = with_map(random, first, end - first);
        self.case("shared", &scene, &asked)
    }
}

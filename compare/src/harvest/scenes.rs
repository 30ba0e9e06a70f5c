//! Harvests over a path that is laid through a pool of likely descriptors: every
//! size field, leaves of every level, and every way in which they can lie to the
//! pages that are asked for; what stops a path; and the ends of the ranges. Then
//! harvests without a plan.

use super::draw::{draw_dirty_leaf, draw_fitting, draw_likely_leaf, draw_near, span_of, with_map};
use super::{pages_of, Fit, Harvest, Trial, MOST_PAGES};
use crate::boundary::Harvester;
use crate::cases::scene::{draw_t, Path, Placement, Scene, Sketch};
use crate::geometry::{Granule, GREATEST_T, LAST_LEVEL, LEAST_T};
use crate::random::Random;
use crate::session::{first_of, page_of};

/// How often each way to lie is tried for a size field and a level.
const SPANS: u32 = 2;
/// How often each stop is tried for a granule.
const STOPS: u32 = 60;
/// Harvests without a plan, for each granule.
const LIKELY: u32 = 1_200;

/// A pool of about a granule for each level.
pub fn draw_scene(random: &mut Random, granule: Granule, code: u8) -> Scene {
    let mut scene = Scene::new();
    let placement = random.pick(&[Placement::Zero, Placement::Inside, Placement::EndsAtLimit]);
    let granules = match granule {
        Granule::Kib64 => random.between(2, 3),
        _ => random.between(2, 4),
    };
    let sketch = Sketch {
        granule,
        code,
        placement,
        granules,
    };
    scene.draw(random, sketch);
    for range in &mut scene.regime.ranges {
        range.disabled = false;
    }
    scene
}

/// A path to a leaf of a level, and the number of a page that it leads to.
fn lay(random: &mut Random, scene: &mut Scene, range: usize, level: u8) -> (Path, u64) {
    let granule = scene.regime.granule;
    let path = scene.draw_path(random, range, usize::from(level));
    lay_leaf(random, scene, &path);
    let address = scene.address(random, &path);
    (path, page_of(granule, address))
}

/// Lays a path, mostly with a dirty leaf.
fn lay_leaf(random: &mut Random, scene: &mut Scene, path: &Path) {
    let output = scene.draw_output(random);
    let granule = scene.regime.granule;
    let leaf = draw_likely_leaf(random, granule, path.leaf_level, output);
    scene.lay(random, path, leaf);
}

/// The ways in which a leaf can lie.
fn fits(granule: Granule, level: u8) -> Vec<Fit> {
    let pages = span_of(granule, level, 0).end;
    match pages {
        1 => vec![Fit::Whole],
        _ if pages > MOST_PAGES => vec![Fit::Before, Fit::Behind, Fit::Both],
        _ => vec![Fit::Whole, Fit::Before, Fit::Behind, Fit::Both],
    }
}

/// What stops a path.
#[derive(Clone, Copy)]
enum Stop {
    Disabled,
    RootBeyond,
    /// A table or a leaf beyond the output size.
    Beyond,
    /// A table just behind the pool, or a root.
    Behind,
    Invalid,
}

const STOP: [Stop; 5] = [
    Stop::Disabled,
    Stop::RootBeyond,
    Stop::Beyond,
    Stop::Behind,
    Stop::Invalid,
];

/// Puts a stop on a path, at any level where it can be.
fn stop(random: &mut Random, scene: &mut Scene, path: &Path, stop: Stop) {
    let (limit, end) = (scene.limit(), scene.pool_end());
    let range = &mut scene.regime.ranges[path.range];
    let level = random.between(path.first as u64, path.leaf_level as u64) as usize;
    match stop {
        Stop::Disabled => range.disabled = true,
        Stop::RootBeyond => range.root |= limit,
        Stop::Behind if level == path.first => range.root = end,
        Stop::Behind => scene.lead(random, path, level - 1, end),
        Stop::Beyond if level == path.leaf_level => {
            let granule = scene.regime.granule;
            let leaf = draw_dirty_leaf(random, granule, level, limit);
            scene.put(path.entry(level), leaf);
        }
        Stop::Beyond => scene.lead(random, path, level, limit),
        Stop::Invalid => {
            let bits = random.pick(&[0, 2]);
            scene.retype(path.entry(level), bits);
        }
    }
}

impl<H: Harvester> Trial<H> {
    /// All families.
    ///
    /// # Errors
    ///
    /// The first difference, in words.
    pub fn run_all(&mut self) -> Result<(), String> {
        for granule in Granule::ALL {
            for t in LEAST_T..=GREATEST_T {
                self.run_spans(granule, t)?;
                self.run_ends(granule, t)?;
            }
            self.run_stops(granule)?;
            self.run_likely(granule)?;
            self.run_shared(granule)?;
            self.run_refused(granule)?;
            self.run_large(granule)?;
        }
        self.run_longest()
    }

    /// Leaves of each level, lying in each way.
    fn run_spans(&mut self, granule: Granule, t: u8) -> Result<(), String> {
        let first = granule.first_level(t);
        for level in granule.leaf_levels().filter(|level| *level >= first) {
            for fit in fits(granule, level) {
                for turn in 0..2 * SPANS {
                    self.span(granule, t, turn as usize % 2, level, fit)?;
                }
            }
        }
        Ok(())
    }

    fn span(
        &mut self,
        granule: Granule,
        t: u8,
        range: usize,
        level: u8,
        fit: Fit,
    ) -> Result<(), String> {
        let random = &mut self.random;
        let code = random.below(6) as u8;
        let mut scene = draw_scene(random, granule, code);
        scene.regime.ranges[range].t = t;
        let (_, page) = lay(random, &mut scene, range, level);
        let span = span_of(granule, level, page);
        let asked = draw_fitting(random, &scene.regime, &span, fit);
        self.case("spans", &scene, &asked)
    }

    /// A page at either end of its range.
    fn run_ends(&mut self, granule: Granule, t: u8) -> Result<(), String> {
        for range in 0..2 {
            let mut scene = draw_scene(&mut self.random, granule, 5);
            scene.regime.ranges[range].t = t;
            let own = pages_of(&scene.regime, range);
            let (first, end) = (own.start as u64, own.end as u64);
            let all = end - first;
            let few = self.random.between(2, 20);
            for (page, start, count) in [
                (first, first, 1),
                (first, first, few),
                (first, first.wrapping_sub(1), 2),
                (end - 1, end - 1, 1),
                (end - 1, end - few, few),
                (end - 1, end - few, few + 1),
                (end - 1, end, 1),
                (first, first, all.min(MOST_PAGES + 1)),
                (end - 1, end - all.min(MOST_PAGES), all.min(MOST_PAGES) + 1),
            ] {
                // The largest ones seldom.
                if count <= MOST_PAGES / 4 || self.random.once_in(4) {
                    let asked = with_map(&mut self.random, start, count);
                    self.end(&mut scene, range, page, &asked)?;
                }
            }
        }
        Ok(())
    }

    /// A path to a page, and a harvest.
    fn end(
        &mut self,
        scene: &mut Scene,
        range: usize,
        page: u64,
        asked: &Harvest,
    ) -> Result<(), String> {
        let random = &mut self.random;
        let granule = scene.regime.granule;
        let mut path = scene.draw_path(random, range, usize::from(LAST_LEVEL));
        scene.lead_to(&mut path, first_of(granule, page));
        lay_leaf(random, scene, &path);
        self.case("ends", scene, asked)
    }

    /// Each stop at any level.
    fn run_stops(&mut self, granule: Granule) -> Result<(), String> {
        for sort in STOP {
            for turn in 0..STOPS {
                let random = &mut self.random;
                let code = random.below(5) as u8;
                let mut scene = draw_scene(random, granule, code);
                let range = turn as usize % 2;
                let any = draw_t(random);
                scene.regime.ranges[range].t = random.pick(&[LEAST_T, any, any]);
                let level = scene.draw_leaf_level(random, range) as u8;
                let (path, page) = lay(random, &mut scene, range, level);
                stop(random, &mut scene, &path, sort);
                let asked = draw_near(random, &scene.regime, page);
                self.case("stops", &scene, &asked)?;
            }
        }
        Ok(())
    }

    /// Likely descriptors or any bytes, and pages anywhere.
    fn run_likely(&mut self, granule: Granule) -> Result<(), String> {
        for turn in 0..LIKELY {
            let random = &mut self.random;
            let code = random.below(6) as u8;
            let mut scene = draw_scene(random, granule, code);
            if random.once_in(8) {
                scene.fill_random(random);
            }
            let range = turn as usize % 2;
            scene.regime.ranges[range].disabled = random.once_in(40);
            let address = scene.draw_address(random, range);
            let page = page_of(granule, address);
            let asked = draw_near(random, &scene.regime, page);
            self.case("likely", &scene, &asked)?;
        }
        Ok(())
    }
}

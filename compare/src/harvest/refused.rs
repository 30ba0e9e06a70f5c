//! Harvests that are refused: for each row alone, and for any two, where the one
//! that is looked at first must be given.

use super::draw::{draw_near, spoil_map, spoil_pages, with_map};
use super::scenes::draw_scene;
use super::{Harvest, Trial, MOST_PAGES};
use crate::boundary::Harvester;
use crate::cases::scene::Scene;
use crate::geometry::Granule;
use crate::random::Random;
use crate::refusals::{pairs, HARVEST};
use crate::session::page_of;
use crate::spoil::spoil;

/// How often each row is made to apply, and each two of them.
const ALONE: u32 = 60;
const PAIRS: u32 = 6;

/// Makes a row apply.
fn spoil_row(random: &mut Random, row: u8, scene: &mut Scene, asked: &mut Harvest) {
    let length = scene.memory.len();
    match row {
        10 => spoil_pages(random, &scene.regime, asked),
        11 => spoil_map(random, asked),
        row => spoil(random, row, length, &mut scene.regime),
    }
}

impl<H: Harvester> Trial<H> {
    pub(super) fn run_refused(&mut self, granule: Granule) -> Result<(), String> {
        for _ in 0..ALONE {
            for &row in HARVEST {
                self.refused(granule, &[row])?;
            }
        }
        for (row, other) in pairs(HARVEST) {
            // The first row last, so that its reason surely stands; and first,
            // so that the other is made without it.
            for _ in 0..PAIRS {
                self.refused(granule, &[other, row])?;
                self.refused(granule, &[row, other])?;
            }
        }
        self.refused_for_one_byte(granule)
    }

    /// A few pages, and what rows refuse.
    fn refused(&mut self, granule: Granule, rows: &[u8]) -> Result<(), String> {
        let random = &mut self.random;
        let mut scene = draw_scene(random, granule, 5);
        let range = random.below(2) as usize;
        let address = scene.draw_address(random, range);
        let mut asked = draw_near(random, &scene.regime, page_of(granule, address));
        for &row in rows {
            spoil_row(random, row, &mut scene, &mut asked);
        }
        self.case("refused", &scene, &asked)
    }

    /// As many pages as there can be, and a byte less than they need.
    fn refused_for_one_byte(&mut self, granule: Granule) -> Result<(), String> {
        let random = &mut self.random;
        let mut scene = draw_scene(random, granule, 5);
        scene.regime.ranges[0].t = 16;
        let first = random.below(1 << 30);
        for room in [MOST_PAGES as usize / 8 - 1, 0] {
            let asked = Harvest {
                room,
                ..with_map(&mut self.random, first, MOST_PAGES)
            };
            self.case("refused", &scene, &asked)?;
        }
        Ok(())
    }
}

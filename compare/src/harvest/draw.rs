//! Harvests and dirty leaves that are drawn.

use super::{pages_of, Fill, Fit, Harvest, MOST_PAGES};
use crate::cases::scene::draw_leaf;
use crate::geometry::Granule;
use crate::random::Random;
use crate::reference::{Regime, AF, AP2, DBM};
use std::ops::Range;

/// A few pages beside a span.
const FEW: u64 = 17;

/// A leaf that is to be reported.
pub fn draw_dirty_leaf(random: &mut Random, granule: Granule, level: usize, output: u64) -> u64 {
    let leaf = draw_leaf(random, granule, level, output);
    leaf & !(1 << AP2) | 1 << AF | 1 << DBM
}

/// Such a leaf, or seldom one that lacks something.
pub fn draw_likely_leaf(random: &mut Random, granule: Granule, level: usize, output: u64) -> u64 {
    let leaf = draw_dirty_leaf(random, granule, level, output);
    let turned = random.pick(&[AF, DBM, AP2]);
    if random.once_in(4) {
        leaf ^ 1 << turned
    } else {
        leaf
    }
}

/// With a map that is long enough, as far as there can be one; mostly it is
/// exactly so.
pub fn with_map(random: &mut Random, first: u64, count: u64) -> Harvest {
    let least = count.min(MOST_PAGES + 1).div_ceil(8) as usize;
    let noise = Fill::Noise(random.bits());
    Harvest {
        first,
        count,
        room: least + random.pick(&[0, 0, 0, 0, 1, 2, 7, 8, 65]),
        fill: random.pick(&[noise, noise, noise, Fill::Byte(0xFF), Fill::Byte(0)]),
    }
}

/// The range of a page, if it is in one.
pub fn range_of(regime: &Regime, page: u64) -> Option<Range<u64>> {
    let ranges = [0, 1].map(|range| pages_of(regime, range));
    let own = ranges.into_iter().find(|r| r.contains(&u128::from(page)))?;
    Some(own.start as u64..own.end as u64)
}

/// The pages that the leaf of a level maps around a page.
pub fn span_of(granule: Granule, level: u8, page: u64) -> Range<u64> {
    let pages = (granule.span_mask(level) >> granule.page_bits()) + 1;
    let first = page & !(pages - 1);
    first..first + pages
}

/// How many of a span's pages are asked for: often one, or all but one.
fn draw_part(random: &mut Random, most: u64) -> u64 {
    let any = random.between(1, most);
    random.pick(&[1, most, most, any])
}

/// A harvest in which a span lies in this way, with a few more pages where it
/// does not stick out; as far as its range goes. The span must have room for it,
/// and lie in a range.
pub fn draw_fitting(random: &mut Random, regime: &Regime, span: &Range<u64>, fit: Fit) -> Harvest {
    let own = range_of(regime, span.start).expect("the span lies in a range");
    let length = span.end - span.start;
    let (before, behind) = (random.below(FEW), random.below(FEW));
    let before = span.start.saturating_sub(before).max(own.start);
    let behind = span.end.saturating_add(behind).min(own.end);
    let most = (length - 1).min(MOST_PAGES - FEW);
    let pages = match fit {
        Fit::Whole => before..behind.min(before + MOST_PAGES),
        Fit::Before => span.end - draw_part(random, most)..behind,
        Fit::Behind => before..span.start + draw_part(random, most),
        Fit::Both => {
            let part = draw_part(random, most - 1);
            let first = span.start + random.between(1, length - 1 - part);
            first..first + part
        }
    };
    with_map(random, pages.start, pages.end - pages.start)
}

/// A few pages with this one among them, as far as its range goes; in no range
/// that page alone.
pub fn draw_near(random: &mut Random, regime: &Regime, page: u64) -> Harvest {
    let any = random.between(1, 70);
    let count = random.pick(&[1, 7, 8, 9, any, any, any]);
    let Some(own) = range_of(regime, page) else {
        return with_map(random, page, 1);
    };
    let first = page.saturating_sub(random.below(count)).max(own.start);
    let count = count.min(own.end - first);
    with_map(random, first, count)
}

/// Makes row 10 apply, in one of its ways.
pub fn spoil_pages(random: &mut Random, regime: &Regime, asked: &mut Harvest) {
    let bits = regime.granule.page_bits();
    let numbers = 1 << (64 - bits);
    let own = range_of(regime, asked.first).unwrap_or(0..1);
    match random.below(9) {
        0 => asked.count = 0,
        1 => asked.count = MOST_PAGES + 1,
        2 => asked.count = random.pick(&[1 << 32, 1 << 63, u64::MAX]) - random.below(2),
        3 => asked.first |= numbers << random.below(u64::from(bits)),
        4 => asked.first = u64::MAX - random.pick(&[0, 0, 1, 65_535]),
        5 => asked.first = random.pick(&[own.end, own.start.wrapping_sub(1)]),
        // In neither range.
        6 => asked.first = (numbers >> 1) ^ random.below(numbers >> 20),
        7 => {
            asked.count = asked.count.clamp(1, MOST_PAGES);
            asked.first = (own.end - asked.count.min(own.end)) + 1;
        }
        _ => {
            asked.first = own.end - 1;
            asked.count = random.between(2, MOST_PAGES);
        }
    }
}

/// Makes row 11 apply, if there are pages at all.
pub fn spoil_map(random: &mut Random, asked: &mut Harvest) {
    let enough = asked.bytes().min(MOST_PAGES / 8) as usize;
    let any = random.below(enough.max(1) as u64) as usize;
    asked.room = random.pick(&[0, enough.saturating_sub(1), enough.saturating_sub(1), any]);
}

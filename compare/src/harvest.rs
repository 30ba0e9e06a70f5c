//! The harvest of dirty pages, from Q-1 of the customer's requests; and the
//! comparisons that are made with it.
//!
//! It goes page by page: each page that is asked for is walked by itself (RULES
//! 6.1 to 6.5), and only then is anything written. HA, HD and what tables take
//! away have no say; a leaf that is whole on one path and sticks out on another
//! is set again.

mod draw;
mod features;
mod large;
mod refused;
mod scenes;
mod shared;
mod tally;
mod trial;

use crate::boundary::{Harvester, Spelling};
use crate::random::Random;
use crate::reference::{
    bit, find_leaf, offset_in_memory, pool_reader, write_descriptor, Leaf, Regime, Stop, AF, AP2,
    DBM,
};
use crate::refusals;
use crate::session::first_of;
pub use draw::{draw_fitting, draw_near, range_of, span_of, spoil_map, spoil_pages, with_map};
use std::ops::Range;
pub use tally::Tally;
pub use trial::Trial;

/// The most pages that can be asked for.
pub const MOST_PAGES: u64 = 65_536;

/// The bytes of a map before a harvest.
#[derive(Clone, Copy, Debug, PartialEq, Eq)]
pub enum Fill {
    Byte(u8),
    Noise(u64),
}

/// What is asked, and the map that is lent for it.
#[derive(Clone, Copy, Debug, PartialEq, Eq)]
pub struct Harvest {
    /// The number of the first page: address bits 63 down to the granule.
    pub first: u64,
    pub count: u64,
    /// Bytes of the map.
    pub room: usize,
    pub fill: Fill,
}

impl Harvest {
    /// The map as it is lent.
    pub fn map(&self) -> Vec<u8> {
        match self.fill {
            Fill::Byte(byte) => vec![byte; self.room],
            Fill::Noise(seed) => {
                let mut random = Random::new(seed);
                (0..self.room).map(|_| random.bits() as u8).collect()
            }
        }
    }

    /// Bytes of a map that has one bit for each page.
    pub fn bytes(&self) -> u64 {
        self.count.div_ceil(8)
    }
}

/// The numbers of the pages of a range. With a size field that row 3 refuses it
/// is cut or empty.
pub fn pages_of(regime: &Regime, range: usize) -> Range<u128> {
    let span = 64u32.saturating_sub(u32::from(regime.ranges[range].t));
    let page = u128::from(regime.granule.bytes());
    let (all, own) = ((1 << 64) / page, (1 << span) / page);
    match range {
        0 => 0..own,
        _ => all - own..all,
    }
}

/// How what a leaf maps lies to the pages that are asked for.
#[derive(Clone, Copy, Debug, PartialEq, Eq, PartialOrd, Ord)]
pub enum Fit {
    Whole,
    /// It sticks out before the first page.
    Before,
    /// It sticks out behind the last page.
    Behind,
    Both,
}

impl Fit {
    fn of(asked: &Harvest, pages: &Range<u64>) -> Fit {
        // Both are within a range, and so is their sum.
        let before = pages.start < asked.first;
        let behind = pages.end - asked.first > asked.count;
        match (before, behind) {
            (false, false) => Fit::Whole,
            (true, false) => Fit::Before,
            (false, true) => Fit::Behind,
            (true, true) => Fit::Both,
        }
    }
}

/// A leaf that a page reaches.
#[derive(Clone, Copy, Debug, PartialEq, Eq)]
pub struct Reached {
    pub leaf: Leaf,
    /// Where its descriptor is in the memory.
    pub offset: usize,
    pub fit: Fit,
}

impl Reached {
    /// AF and DBM set, AP[2] clear.
    pub fn is_dirty(&self) -> bool {
        let descriptor = self.leaf.descriptor;
        bit(descriptor, AF) && bit(descriptor, DBM) && !bit(descriptor, AP2)
    }
}

/// What a page comes to.
#[derive(Clone, Copy, Debug)]
pub struct Page {
    pub found: Result<Reached, Stop>,
    entries: [u64; 4],
    count: usize,
}

impl Page {
    /// The leaf, where the page is to be reported.
    pub fn dirty(&self) -> Option<Reached> {
        self.found.ok().filter(Reached::is_dirty)
    }

    /// The addresses of the descriptors on the way, in order.
    pub fn visited(&self) -> &[u64] {
        &self.entries[..self.count]
    }
}

/// What each page that is asked for comes to, over the memory as it is. No row
/// must apply.
pub fn survey<'a>(
    memory: &'a [u8],
    regime: &'a Regime,
    asked: &'a Harvest,
) -> impl Iterator<Item = Page> + 'a {
    let mut visited = Vec::with_capacity(4);
    let reader = pool_reader(memory, regime);
    (0..asked.count).map(move |number| {
        visited.clear();
        let address = first_of(regime.granule, asked.first + number);
        let found = find_leaf(&reader, regime, address, &mut visited);
        let mut entries = [0; 4];
        entries[..visited.len()].copy_from_slice(&visited);
        let last = visited.last().copied();
        Page {
            found: found.map(|leaf| reached(regime, asked, address, leaf, last)),
            entries,
            count: visited.len(),
        }
    })
}

/// A leaf that an address reaches, and its place.
fn reached(
    regime: &Regime,
    asked: &Harvest,
    address: u64,
    leaf: Leaf,
    entry: Option<u64>,
) -> Reached {
    let mask = regime.granule.span_mask(leaf.level);
    let bits = regime.granule.page_bits();
    let (first, last) = ((address & !mask) >> bits, (address | mask) >> bits);
    let offset = entry.and_then(|entry| offset_in_memory(&regime.pool, entry));
    Reached {
        leaf,
        offset: offset.expect("the leaf was read there"),
        fit: Fit::of(asked, &(first..last + 1)),
    }
}

/// The plain harvest: the refusal, if there is one. The map is as long as the
/// call says.
pub fn harvest(memory: &mut [u8], regime: &Regime, asked: &Harvest, map: &mut [u8]) -> Option<u8> {
    let refusal = refusals::of_harvest(memory.len(), regime, asked);
    if refusal.is_none() {
        harvest_on(memory, regime, asked, map);
    }
    refusal
}

/// A harvest that is not refused. The map is filled from the pool at entry.
pub fn harvest_on(memory: &mut [u8], regime: &Regime, asked: &Harvest, map: &mut [u8]) {
    let dirty = survey(memory, regime, asked).map(|page| page.dirty());
    let dirty: Vec<Option<Reached>> = dirty.collect();
    map[..asked.bytes() as usize].fill(0);
    for (number, reached) in dirty.iter().enumerate() {
        let Some(reached) = reached else { continue };
        map[number / 8] |= 1 << (number % 8);
        if reached.fit == Fit::Whole {
            let clean = reached.leaf.descriptor | 1 << AP2;
            write_descriptor(memory, reached.offset, clean, regime.ee);
        }
    }
}

/// The second program as a harvest that can be tried.
pub struct Second;

impl Harvester for Second {
    fn harvest(
        &self,
        memory: &mut [u8],
        regime: &Regime,
        asked: &Harvest,
        map: &mut [u8],
        _: Spelling,
    ) -> u8 {
        harvest(memory, regime, asked, map).unwrap_or(0)
    }
}

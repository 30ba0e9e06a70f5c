//! The granules, and what follows from them (RULES 6.2). The rows are those
//! that the customer prints: 01 has them for 4 KiB, Q-10 for 16 and 64 KiB.
//! All else is looked up in them.

use std::fmt;

/// The size of a page and of a table.
#[derive(Clone, Copy, Debug, PartialEq, Eq, PartialOrd, Ord)]
pub enum Granule {
    Kib4,
    Kib16,
    Kib64,
}

/// Physical addresses lie below this (RULES 5.1, rows 2 and 4).
pub const PHYSICAL_LIMIT: u64 = 1 << 48;
/// The least and the greatest size field (RULES 5.1, row 3).
pub const LEAST_T: u8 = 16;
pub const GREATEST_T: u8 = 39;

/// The level of the pages.
pub const LAST_LEVEL: u8 = 3;

struct Shape {
    /// Address bits below the page number.
    page_bits: u32,
    /// A level, and the highest and the lowest address bit of its index.
    index: &'static [(u8, u32, u32)],
    /// Levels with blocks.
    blocks: &'static [u8],
    /// A first level, and the least and the greatest size field for it.
    first: &'static [(u8, u8, u8)],
}

const KIB_4: Shape = Shape {
    page_bits: 12,
    index: &[(0, 47, 39), (1, 38, 30), (2, 29, 21), (3, 20, 12)],
    blocks: &[1, 2],
    first: &[(0, 16, 24), (1, 25, 33), (2, 34, 39)],
};

const KIB_16: Shape = Shape {
    page_bits: 14,
    index: &[(0, 47, 47), (1, 46, 36), (2, 35, 25), (3, 24, 14)],
    blocks: &[2],
    first: &[(0, 16, 16), (1, 17, 27), (2, 28, 38), (3, 39, 39)],
};

const KIB_64: Shape = Shape {
    page_bits: 16,
    index: &[(1, 47, 42), (2, 41, 29), (3, 28, 16)],
    blocks: &[2],
    first: &[(1, 16, 21), (2, 22, 34), (3, 35, 39)],
};

/// Address bits below a leaf of 64 KiB that stands at level 0, which is not
/// there: as with an index of 13 bits above that of level 1. No walk finds such
/// a leaf, but a session of any bytes may hold it (RULES 10.5).
/// This reading was chosen after the library was seen to differ from a first
/// one, so on this point the second program is not independent of it.
const ABOVE_LEVEL_1: u32 = 55;

/// Bits from a lowest one up to the highest of a physical address.
fn address_bits_from(lowest: u32) -> u64 {
    (PHYSICAL_LIMIT - 1) & (u64::MAX << lowest)
}

impl Granule {
    pub const ALL: [Granule; 3] = [Granule::Kib4, Granule::Kib16, Granule::Kib64];

    fn shape(self) -> &'static Shape {
        match self {
            Granule::Kib4 => &KIB_4,
            Granule::Kib16 => &KIB_16,
            Granule::Kib64 => &KIB_64,
        }
    }

    pub fn page_bits(self) -> u32 {
        self.shape().page_bits
    }

    /// Bytes of a page, and of a table.
    pub fn bytes(self) -> u64 {
        1 << self.page_bits()
    }

    /// The same, for lengths and offsets.
    pub fn length(self) -> usize {
        self.bytes() as usize
    }

    /// The first byte of the granule in which an address lies.
    pub fn floor(self, address: u64) -> u64 {
        address & !(self.bytes() - 1)
    }

    /// The levels that there are.
    pub fn levels(self) -> impl Iterator<Item = u8> {
        self.shape().index.iter().map(|row| row.0)
    }

    fn find_index_range(self, level: u8) -> Option<(u32, u32)> {
        let mut rows = self.shape().index.iter();
        let row = rows.find(|row| row.0 == level);
        row.map(|&(_, highest, lowest)| (highest, lowest))
    }

    /// The highest and the lowest address bit that pick an entry.
    ///
    /// # Panics
    ///
    /// Where there is no such level.
    pub fn index_range(self, level: u8) -> (u32, u32) {
        let range = self.find_index_range(level);
        range.unwrap_or_else(|| panic!("there is no level {level} with {self}"))
    }

    pub fn lowest_index_bit(self, level: u8) -> u32 {
        self.index_range(level).1
    }

    /// A leaf of this level maps 2 to that many bytes.
    fn leaf_bits(self, level: u8) -> u32 {
        let range = self.find_index_range(level);
        range.map_or(ABOVE_LEVEL_1, |(_, lowest)| lowest)
    }

    /// Bytes that a leaf of this level maps, less one.
    pub fn span_mask(self, level: u8) -> u64 {
        (1 << self.leaf_bits(level)) - 1
    }

    /// Number of address bits that pick an entry; at the first level those
    /// below 64 - T alone.
    pub fn index_bits(self, t: u8, level: u8) -> u32 {
        let (highest, lowest) = self.index_range(level);
        let above = if level == self.first_level(t) {
            (highest + 1).min(64 - u32::from(t))
        } else {
            highest + 1
        };
        above - lowest
    }

    /// The entry that an address picks in the table of a level.
    pub fn index(self, t: u8, level: u8, address: u64) -> u64 {
        let picked = address >> self.lowest_index_bit(level);
        picked & ((1 << self.index_bits(t, level)) - 1)
    }

    /// The level of the first table.
    ///
    /// # Panics
    ///
    /// Where row 3 applies to the size field.
    pub fn first_level(self, t: u8) -> u8 {
        let mut rows = self.shape().first.iter();
        let row = rows.find(|(_, least, greatest)| (*least..=*greatest).contains(&t));
        row.unwrap_or_else(|| panic!("no first level for T {t}")).0
    }

    /// The first levels, each with the least and the greatest size field.
    pub fn first_levels(self) -> &'static [(u8, u8, u8)] {
        self.shape().first
    }

    pub fn has_blocks(self, level: u8) -> bool {
        self.shape().blocks.contains(&level)
    }

    /// Levels at which a leaf can stand.
    pub fn leaf_levels(self) -> impl Iterator<Item = u8> {
        let is_leaf = move |level: &u8| *level == LAST_LEVEL || self.has_blocks(*level);
        self.levels().filter(is_leaf)
    }

    /// A first level and a leaf level that it can lead to, in every way.
    pub fn ways(self) -> impl Iterator<Item = (u8, u8)> {
        let firsts = self.first_levels().iter().map(|row| row.0);
        firsts.flat_map(move |first| {
            let below = self.leaf_levels().filter(move |level| *level >= first);
            below.map(move |level| (first, level))
        })
    }

    /// Where a table descriptor keeps an address: bits 47 down to the granule.
    pub fn table_field(self) -> u64 {
        address_bits_from(self.page_bits())
    }

    /// Where a leaf does: bits 47 down to its level's lowest index bit.
    pub fn leaf_field(self, level: u8) -> u64 {
        address_bits_from(self.leaf_bits(level))
    }

    /// Those that are smaller.
    pub fn smaller(self) -> impl Iterator<Item = Granule> {
        Granule::ALL.into_iter().filter(move |other| *other < self)
    }

    /// Those that are larger.
    pub fn larger(self) -> impl Iterator<Item = Granule> {
        Granule::ALL.into_iter().filter(move |other| *other > self)
    }

    /// All but this one.
    pub fn others(self) -> impl Iterator<Item = Granule> {
        Granule::ALL.into_iter().filter(move |other| *other != self)
    }
}

impl fmt::Display for Granule {
    fn fmt(&self, out: &mut fmt::Formatter) -> fmt::Result {
        write!(out, "{} KiB", self.bytes() / 1024)
    }
}

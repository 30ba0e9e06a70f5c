//! The harvest of dirty pages in plain Rust: the tables are gone through by
//! recursion, once for the map and once more to make the leaves clean.
//! Pages are counted within their range.

use std::ops::Range;

use super::{bytes_of, page_bits, refuse_regime, value_of, AF, AP2, DBM, OUTPUT_LIMITS};
use crate::boundary::Regime;

/// The most pages of one harvest.
pub const PAGES_LIMIT: u64 = 1 << 16;

fn dirty(value: u64) -> bool {
    value & (AF | DBM | AP2) == AF | DBM
}

/// What an entry says, by steps 4 and 5.
enum Says {
    Nothing,
    Table(u64),
    Leaf,
}

/// The tables as one harvest reads them.
struct Tables {
    base: u64,
    limit: u64,
    page: u8,
    ee: u8,
    /// The page of the map's first bit.
    first: u64,
}

impl Tables {
    /// How many pages an entry maps, by the levels below it: 2 to so much.
    fn span_bits(&self, left: u8) -> u8 {
        (self.page - 3) * left
    }

    /// Where an entry's pages end.
    fn end(&self, left: u8, page: u64) -> u64 {
        let bits = self.span_bits(left);
        ((page >> bits) + 1) << bits
    }

    fn bit(&self, page: u64) -> usize {
        (page - self.first) as usize
    }

    /// Where the entries of these pages lie in the pool. The table is in it
    /// whole or not at all: both begin and end at multiples of the granule.
    fn entries(&self, pool: &[u8], table: u64, left: u8, pages: &Range<u64>) -> Range<usize> {
        let offset = table.wrapping_sub(self.base);
        if offset >= pool.len() as u64 {
            return 0..0;
        }
        let index = |page: u64| page >> self.span_bits(left) & ((1 << (self.page - 3)) - 1);
        let at = |page: u64| (offset + 8 * index(page)) as usize;
        at(pages.start)..at(pages.end - 1) + 8
    }

    fn value(&self, entry: &[u8]) -> u64 {
        value_of(entry.try_into().expect("8 bytes"), self.ee)
    }

    fn address(&self, left: u8, value: u64) -> u64 {
        value & ((1 << 48) - (1 << (self.page + self.span_bits(left))))
    }

    /// For an entry above the last level.
    fn decode(&self, left: u8, value: u64) -> Says {
        let wide = value & 2 != 0;
        // Blocks have at most 1 GiB.
        if value & 1 == 0 || (!wide && self.page + self.span_bits(left) > 30) {
            return Says::Nothing;
        }
        let address = self.address(if wide { 0 } else { left }, value);
        if address >= self.limit {
            Says::Nothing
        } else if wide {
            Says::Table(address)
        } else {
            Says::Leaf
        }
    }

    /// Whether an entry of the last level is a dirty page.
    fn page_dirty(&self, value: u64) -> bool {
        value & 3 == 3 && dirty(value) && self.address(0, value) < self.limit
    }

    /// Reports pages of one table.
    fn report(&self, pool: &[u8], map: &mut [u8], table: u64, left: u8, pages: Range<u64>) {
        let entries = &pool[self.entries(pool, table, left, &pages)];
        if left == 0 {
            return self.report_pages(entries, map, pages.start);
        }
        let mut at = pages.start;
        for entry in entries.chunks_exact(8) {
            let next = self.end(left, at).min(pages.end);
            let value = self.value(entry);
            match self.decode(left, value) {
                Says::Table(table) => self.report(pool, map, table, left - 1, at..next),
                Says::Leaf if dirty(value) => raise(map, self.bit(at)..self.bit(next)),
                _ => {}
            }
            at = next;
        }
    }

    /// The same at the last level, where most entries are.
    fn report_pages(&self, entries: &[u8], map: &mut [u8], start: u64) {
        for (entry, n) in entries.chunks_exact(8).zip(self.bit(start)..) {
            if self.page_dirty(self.value(entry)) {
                map[n / 8] |= 1 << (n % 8);
            }
        }
    }

    /// Cleans the leaves of one table that have all their pages among these.
    fn clean(&self, pool: &mut [u8], table: u64, left: u8, pages: Range<u64>) {
        let entries = self.entries(pool, table, left, &pages);
        if left == 0 {
            return self.clean_pages(&mut pool[entries]);
        }
        let mut at = pages.start;
        for offset in entries.step_by(8) {
            let next = self.end(left, at).min(pages.end);
            let whole = next - at == 1 << self.span_bits(left);
            let entry = &mut pool[offset..offset + 8];
            let value = self.value(entry);
            match self.decode(left, value) {
                Says::Table(table) => self.clean(pool, table, left - 1, at..next),
                Says::Leaf if whole && dirty(value) => self.set(entry, value | AP2),
                _ => {}
            }
            at = next;
        }
    }

    /// The same at the last level.
    fn clean_pages(&self, entries: &mut [u8]) {
        for entry in entries.chunks_exact_mut(8) {
            let value = self.value(entry);
            if self.page_dirty(value) {
                self.set(entry, value | AP2);
            }
        }
    }

    fn set(&self, entry: &mut [u8], value: u64) {
        entry.copy_from_slice(&bytes_of(value, self.ee));
    }
}

/// Raises a run of bits, whole bytes at once.
fn raise(map: &mut [u8], bits: Range<usize>) {
    let (first, last) = (bits.start / 8, bits.end / 8);
    let (low, high) = (0xff << (bits.start % 8), !(0xff << (bits.end % 8)));
    if first == last {
        map[first] |= low & high;
        return;
    }
    map[first] |= low;
    map[first + 1..last].fill(0xff);
    if high != 0 {
        map[last] |= high;
    }
}

fn refuse_pages(regime: &Regime, first: u64, count: u64, map_length: usize) -> Option<u8> {
    let page = page_bits(regime.granule);
    let pages = |tsz: u8| 1 << (64 - page - tsz);
    let within = |range: Range<u64>| range.contains(&first) && count <= range.end - first;
    let end = pages(0);
    if !(1..=PAGES_LIMIT).contains(&count)
        || !(within(0..pages(regime.tsz0)) || within(end - pages(regime.tsz1)..end))
    {
        Some(10)
    } else if map_length < count.div_ceil(8) as usize {
        Some(11)
    } else {
        None
    }
}

#[inline(never)]
pub fn harvest(memory: &mut [u8], regime: &Regime, first: u64, count: u64, map: &mut [u8]) -> u8 {
    let refusal = refuse_regime(memory.len(), regime)
        .or_else(|| refuse_pages(regime, first, count, map.len()));
    if let Some(refusal) = refusal {
        return refusal;
    }
    map[..count.div_ceil(8) as usize].fill(0);

    let page = page_bits(regime.granule);
    let (root, tsz, disabled) = if first >> (55 - page) & 1 == 1 {
        (regime.root1, regime.tsz1, regime.disabled1)
    } else {
        (regime.root0, regime.tsz0, regime.disabled0)
    };
    let limit = OUTPUT_LIMITS[regime.output as usize];
    if disabled != 0 || root >= limit {
        return 0;
    }
    let pool = &mut memory[regime.start..][..regime.length];
    let left = (63 - tsz - page) / (page - 3);
    let first = first & ((1 << (64 - tsz - page)) - 1);
    let tables = Tables {
        base: regime.address,
        limit,
        page,
        ee: regime.ee,
        first,
    };
    tables.report(pool, map, root, left, first..first + count);
    tables.clean(pool, root, left, first..first + count);
    0
}

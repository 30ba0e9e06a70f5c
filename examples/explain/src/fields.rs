//! The fields of addresses and descriptors, by Arm's names (`docs/RULES.md`, 6).

use vmsa::{Granule, Regime, Shareability, TablesSum};

/// So many bits of a number, from its bit `high` down to `low`.
pub const fn bits(number: u64, high: u32, low: u32) -> u64 {
    number << (63 - high) >> (63 - high + low)
}

/// Whether a bit is set.
pub const fn has(number: u64, bit: u32) -> bool {
    bits(number, bit, bit) == 1
}

/// A level of the tables: the highest and the lowest address bit of its index.
#[derive(Clone, Copy, Debug, PartialEq)]
pub struct Level {
    pub number: u8,
    pub high: u32,
    pub low: u32,
}

/// The lowest address bit of a level's index.
pub const fn lowest_bit(granule: Granule, level: u8) -> u32 {
    let page = granule.page_bits();
    page + (3 - level as u32) * (page - 3)
}

/// The levels of a range of size T, the first one first.
pub fn levels(granule: Granule, tsz: u8) -> Vec<Level> {
    let end = 64 - u32::from(tsz);
    let level = |number| {
        let low = lowest_bit(granule, number);
        let high = (low + granule.page_bits() - 3).min(end) - 1;
        (low < end).then_some(Level { number, high, low })
    };
    (0..4).filter_map(level).collect()
}

/// What a descriptor is at its level.
#[derive(Clone, Copy, Debug, PartialEq)]
pub enum Shape {
    /// Bit 0 is clear.
    Invalid,
    /// Bits 1..0 are 01, where there are no blocks.
    NoBlock,
    Table,
    Block,
    Page,
}

impl Shape {
    pub fn of(granule: Granule, level: u8, descriptor: u64) -> Self {
        let blocks = level == 2 || level == 1 && granule == Granule::Kib4;
        match (bits(descriptor, 1, 0), level) {
            (0 | 2, _) => Self::Invalid,
            (1, _) if blocks => Self::Block,
            (1, _) => Self::NoBlock,
            (_, 3) => Self::Page,
            _ => Self::Table,
        }
    }
}

/// The table that a table descriptor names.
pub fn next_table(granule: Granule, descriptor: u64) -> u64 {
    let low = granule.page_bits();
    bits(descriptor, 47, low) << low
}

/// The first address of what a block or page maps.
pub fn frame(granule: Granule, level: u8, descriptor: u64) -> u64 {
    let low = lowest_bit(granule, level);
    bits(descriptor, 47, low) << low
}

/// One field of a descriptor, as it is shown.
#[derive(Debug, PartialEq)]
pub struct Field {
    pub bits: String,
    pub name: &'static str,
    pub value: String,
    pub meaning: String,
}

/// A descriptor's bits `high` to `low`.
fn field(descriptor: u64, (high, low): (u32, u32), name: &'static str, meaning: &str) -> Field {
    let width = (high - low + 1) as usize;
    Field {
        bits: span(high, low),
        name,
        value: format!("{:0width$b}", bits(descriptor, high, low)),
        meaning: meaning.to_string(),
    }
}

/// The names of bits: 47..12, or 10.
pub fn span(high: u32, low: u32) -> String {
    if high == low {
        return high.to_string();
    }
    format!("{high}..{low}")
}

/// The attribute byte that a leaf picks.
pub fn attribute(regime: &Regime, leaf: u64) -> u8 {
    regime.attributes[bits(leaf, 4, 2) as usize]
}

/// The fields of a block or page descriptor, the highest first, and what they
/// say under the tables above it.
pub fn of_leaf(regime: &Regime, level: u8, leaf: u64, tables: TablesSum) -> Vec<Field> {
    let low = lowest_bit(regime.granule, level);
    let byte = attribute(regime, leaf);
    let address = Field {
        value: format!("{:#x}", frame(regime.granule, level, leaf)),
        ..field(leaf, (47, low), "output address", "")
    };
    let index = Field {
        value: bits(leaf, 4, 2).to_string(),
        ..field(
            leaf,
            (4, 2),
            "AttrIndx",
            &format!("{byte:#04x}: {}", memory(byte)),
        )
    };
    let nonglobal = if has(leaf, 11) {
        "of one address space"
    } else {
        "global"
    };
    let accessed = if has(leaf, 10) {
        "accessed"
    } else {
        "not accessed yet"
    };
    vec![
        field(leaf, (54, 54), "UXN", never(leaf, 54, tables.no_el0_fetch)),
        field(leaf, (53, 53), "PXN", never(leaf, 53, tables.no_el1_fetch)),
        field(leaf, (52, 52), "Contiguous", "has no say here"),
        field(leaf, (51, 51), "DBM", dirty_state(regime, leaf, tables)),
        address,
        field(leaf, (11, 11), "nG", nonglobal),
        field(leaf, (10, 10), "AF", accessed),
        field(leaf, (9, 8), "SH", shareability(bits(leaf, 9, 8))),
        field(leaf, (7, 6), "AP[2:1]", &access(leaf, tables)),
        index,
    ]
}

/// What UXN (bit 54) or PXN says, with the bit of the tables above.
fn never(leaf: u64, bit: u32, table: bool) -> &'static str {
    match (has(leaf, bit), table, bit) {
        (true, _, 54) => "EL0 may not fetch",
        (true, ..) => "EL1 may not fetch",
        (false, true, 54) => "counts as 1 under UXNTable: EL0 may not fetch",
        (false, true, _) => "counts as 1 under PXNTable: EL1 may not fetch",
        (false, false, _) => "",
    }
}

/// What DBM says beside AP[2].
fn dirty_state(regime: &Regime, leaf: u64, tables: TablesSum) -> &'static str {
    if !has(leaf, 51) {
        return "";
    }
    match (regime.ha && regime.hd, tables.no_write, has(leaf, 7)) {
        (false, ..) => "has no say while HD is off",
        (true, true, _) => "has no say under APTable[1]",
        (true, false, true) => "writable-clean: the first write clears AP[2]",
        (true, false, false) => "writable, and dirty",
    }
}

/// What AP says, with the bits of the tables above.
fn access(leaf: u64, tables: TablesSum) -> String {
    let ap = bits(leaf, 7, 6);
    let no_el0 = if tables.no_el0 { 0b10 } else { 0b11 };
    let counts = ap & no_el0 | u64::from(tables.no_write) << 1;
    if counts == ap {
        return permissions(ap).to_string();
    }
    format!(
        "counts as {counts:02b} under APTable: {}",
        permissions(counts)
    )
}

fn permissions(ap: u64) -> &'static str {
    match ap {
        0 => "read and write, from EL1 alone",
        1 => "read and write, from EL0 too",
        2 => "read-only, from EL1 alone",
        _ => "read-only, from EL0 too",
    }
}

fn shareability(sh: u64) -> &'static str {
    match sh {
        0 => "Non-shareable",
        1 => "reserved",
        2 => "Outer Shareable",
        _ => "Inner Shareable",
    }
}

/// The same of an answer.
pub fn shareability_of(answer: Shareability) -> &'static str {
    shareability(answer.bits().into())
}

/// What an attribute byte says.
pub fn memory(byte: u8) -> String {
    match byte {
        0x00 => "Device-nGnRnE".to_string(),
        0x04 => "Device-nGnRE".to_string(),
        0x08 => "Device-nGRE".to_string(),
        0x0c => "Device-GRE".to_string(),
        _ => {
            let (outer, inner) = (cache(byte >> 4), cache(byte & 15));
            if outer == inner {
                return format!("Normal, {inner}");
            }
            format!("Normal, outer {outer}, inner {inner}")
        }
    }
}

/// What a half of a Normal attribute byte says.
fn cache(half: u8) -> &'static str {
    match half {
        0 => "reserved",
        1..=3 => "Write-Through Transient",
        4 => "Non-cacheable",
        5..=7 => "Write-Back Transient",
        8..=11 => "Write-Through",
        _ => "Write-Back",
    }
}

#[cfg(test)]
mod tests {
    use super::*;

    #[test]
    fn levels_by_the_granule_and_t() {
        let level = |number, high, low| Level { number, high, low };
        let (four, sixteen, sixty_four) = (Granule::Kib4, Granule::Kib16, Granule::Kib64);
        let last = level(3, 20, 12);
        let lower = [level(1, 38, 30), level(2, 29, 21), last];
        assert_eq!(levels(four, 16)[0], level(0, 47, 39));
        assert_eq!(levels(four, 16)[1..], lower);
        assert_eq!(levels(four, 25), lower);
        assert_eq!(levels(four, 26)[0], level(1, 37, 30));
        assert_eq!(levels(four, 39), [level(2, 24, 21), last]);
        assert_eq!(levels(sixteen, 16)[0], level(0, 47, 47));
        assert_eq!(levels(sixteen, 17)[0], level(1, 46, 36));
        assert_eq!(levels(sixteen, 39), [level(3, 24, 14)]);
        let whole = [level(1, 47, 42), level(2, 41, 29), level(3, 28, 16)];
        assert_eq!(levels(sixty_four, 16), whole);
        assert_eq!(levels(sixty_four, 35), [level(3, 28, 16)]);
    }

    #[test]
    fn shapes() {
        for granule in Granule::ALL {
            let at = |level| [0, 1, 2, 3].map(|low| Shape::of(granule, level, 0xf000 | low));
            let blocks = |has| if has { Shape::Block } else { Shape::NoBlock };
            let none = Shape::Invalid;
            let first = blocks(granule == Granule::Kib4);
            assert_eq!(at(0), [none, Shape::NoBlock, none, Shape::Table]);
            assert_eq!(at(1), [none, first, none, Shape::Table]);
            assert_eq!(at(2), [none, Shape::Block, none, Shape::Table]);
            assert_eq!(at(3), [none, Shape::NoBlock, none, Shape::Page]);
        }
    }

    #[test]
    fn addresses() {
        let all = u64::MAX;
        assert_eq!(next_table(Granule::Kib4, all), 0xffff_ffff_f000);
        assert_eq!(next_table(Granule::Kib64, all), 0xffff_ffff_0000);
        assert_eq!(frame(Granule::Kib4, 1, all), 0xffff_c000_0000);
        assert_eq!(frame(Granule::Kib16, 2, all), 0xffff_fe00_0000);
        assert_eq!(frame(Granule::Kib64, 3, all), 0xffff_ffff_0000);
    }

    #[test]
    fn fields_of_a_leaf() {
        let regime = Regime::new().attribute(7, 0x4f);
        let of = |leaf| of_leaf(&regime, 3, leaf, TablesSum::default());
        let shown = |leaf| {
            let fields = of(leaf).into_iter();
            fields
                .map(|field| (field.name, field.value))
                .collect::<Vec<_>>()
        };
        let clear = shown(3);
        for (bit, name, value) in [
            (54, "UXN", "1"),
            (53, "PXN", "1"),
            (52, "Contiguous", "1"),
            (51, "DBM", "1"),
            (47, "output address", "0x800000000000"),
            (12, "output address", "0x1000"),
            (11, "nG", "1"),
            (10, "AF", "1"),
            (9, "SH", "10"),
            (8, "SH", "01"),
            (7, "AP[2:1]", "10"),
            (6, "AP[2:1]", "01"),
            (4, "AttrIndx", "4"),
            (2, "AttrIndx", "1"),
        ] {
            let set = shown(3 | 1 << bit);
            let other = set.iter().zip(&clear).filter(|(set, clear)| set != clear);
            let other: Vec<_> = other.map(|(set, _)| set).collect();
            assert_eq!(other, [&(name, value.to_string())]);
        }
        let last = of(0x1f).pop().unwrap();
        assert_eq!(
            last.meaning,
            "0x4f: Normal, outer Non-cacheable, inner Write-Back"
        );
    }
    #[test]
    fn a_leaf_under_tables() {
        let all = TablesSum {
            no_write: true,
            no_el0: true,
            no_el0_fetch: true,
            no_el1_fetch: true,
        };
        let regime = Regime::new().ha(true).hd(true);
        let fields = of_leaf(&regime, 3, 1 << 51 | 1 << 6 | 3, all);
        let meaning = |name: &str| {
            let mut fields = fields.iter();
            let field = fields.find(|field| field.name == name);
            field.map(|field| field.meaning.as_str()).unwrap()
        };
        assert_eq!(
            meaning("UXN"),
            "counts as 1 under UXNTable: EL0 may not fetch"
        );
        assert_eq!(
            meaning("PXN"),
            "counts as 1 under PXNTable: EL1 may not fetch"
        );
        assert_eq!(meaning("DBM"), "has no say under APTable[1]");
        assert_eq!(
            meaning("AP[2:1]"),
            "counts as 10 under APTable: read-only, from EL1 alone"
        );
    }
}

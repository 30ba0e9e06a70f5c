//! What RULES 5 to 9 say of every answer, checked on the library's own answer
//! and on the memory before and after. Of the reference only the list of
//! descriptors and the leaf's place are taken.

use crate::bare;
use crate::boundary::{CAnswer, FAULT, REFUSED, SUCCESS};
use crate::geometry::Granule;
use crate::reference::{
    bit, Access, Kind, Regime, Walk, AP_TABLE_0, AP_TABLE_1, PXN_TABLE, UXN_TABLE,
};
use crate::refusals::WALK;

const AF_BIT: u64 = 1 << 10;
const AP2_BIT: u64 = 1 << 7;
const OUTPUT_BITS: [u32; 6] = [32, 36, 40, 42, 44, 48];

/// Address bits that a leaf of a level does not translate, for each granule.
fn mapped_bits(granule: Granule, level: u8) -> Option<u32> {
    match (granule, level) {
        (Granule::Kib4, 1) => Some(30),
        (Granule::Kib4, 2) => Some(21),
        (Granule::Kib4, 3) => Some(12),
        (Granule::Kib16, 2) => Some(25),
        (Granule::Kib16, 3) => Some(14),
        (Granule::Kib64, 2) => Some(29),
        (Granule::Kib64, 3) => Some(16),
        _ => None,
    }
}

/// What the maker of a case already knows of its answer.
#[derive(Clone, Copy, Debug, PartialEq, Eq)]
pub enum Expect {
    Anything,
    /// Not refused.
    Walked,
    Refused(u8),
}

/// The one 8-byte aligned word in which two memories of one length differ.
enum Change {
    None,
    Word(usize),
    Wider,
}

/// The word at an offset, each byte in its place by the regime's order.
fn word(regime: &Regime, memory: &[u8], offset: usize) -> u64 {
    let bytes = memory[offset..offset + 8].iter();
    let add = |sum, (place, &byte)| sum | u64::from(byte) << (8 * place);
    if regime.ee {
        bytes.rev().enumerate().fold(0, add)
    } else {
        bytes.enumerate().fold(0, add)
    }
}

/// Bytes that are compared in one go; then words.
const STRIDE: usize = 1024;

/// Where the first piece of so many bytes begins, from an offset on, in which
/// two memories differ.
fn first_piece(before: &[u8], after: &[u8], from: usize, bytes: usize) -> usize {
    let pieces = before[from..].chunks(bytes);
    let mut pairs = pieces.zip(after[from..].chunks(bytes));
    from + bytes * pairs.position(|(old, new)| old != new).unwrap_or(0)
}

fn change(before: &[u8], after: &[u8]) -> Change {
    if before == after {
        return Change::None;
    }
    let offset = first_piece(before, after, 0, STRIDE);
    let offset = first_piece(before, after, offset, 8);
    let end = offset + 8;
    if end <= before.len() && before[end..] == after[end..] {
        Change::Word(offset)
    } else {
        Change::Wider
    }
}

/// Whether a bit of the tables' sum takes an access away, whatever the leaf is
/// (RULES 6.11 and 7).
fn taken_away(sum: u64, access: &Access) -> bool {
    let user = bit(sum, AP_TABLE_0) && access.el0;
    match (access.kind, access.el0) {
        (Kind::Fetch, true) => bit(sum, UXN_TABLE),
        (Kind::Fetch, false) => bit(sum, PXN_TABLE),
        (Kind::Read | Kind::ProbeRead, _) => user,
        (Kind::Write | Kind::Update | Kind::ProbeWrite, _) => user || bit(sum, AP_TABLE_1),
    }
}

/// The first broken promise in words, if there is one.
pub fn check(
    regime: &Regime,
    access: &Access,
    answer: &CAnswer,
    before: &[u8],
    after: &[u8],
    walk: &Walk,
    expect: Expect,
) -> Result<(), String> {
    let demand = |holds: bool, words: &str| {
        if holds {
            Ok(())
        } else {
            Err(words.to_string())
        }
    };

    demand(answer.tag <= REFUSED, "the tag is none of the three")?;
    demand(
        answer.tag == REFUSED || regime.ha || !regime.hd,
        "walked with HD on and HA off",
    )?;
    match expect {
        Expect::Anything => {}
        Expect::Walked => demand(answer.tag != REFUSED, "refused, with all at its limit")?,
        Expect::Refused(number) => demand(
            answer.tag == REFUSED && answer.refusal == number,
            "not refused with the number the case was made for",
        )?,
    }

    // Beside the tag a refusal has one number, and all else is 0.
    if answer.tag == REFUSED {
        let alone = CAnswer {
            tag: REFUSED,
            refusal: answer.refusal,
            ..CAnswer::default()
        };
        demand(*answer == alone, "a refusal carries more than its number")?;
        demand(
            WALK.contains(&answer.refusal),
            "refused with a number that a plain walk does not have",
        )?;
    }

    // Marks: what changed in memory, and what the answer says of it.
    let changed = change(before, after);
    let (mut accessed, mut dirtied) = (false, false);
    match changed {
        Change::None => {}
        Change::Wider => return Err("more than one descriptor changed".to_string()),
        Change::Word(offset) => {
            let (old, new) = (word(regime, before, offset), word(regime, after, offset));
            demand(
                answer.tag == SUCCESS,
                "memory changed by a fault or a refusal",
            )?;
            demand(
                offset >= regime.pool.start && offset - regime.pool.start < regime.pool.length,
                "memory changed outside the pool",
            )?;
            demand(
                (old ^ new) & !(AF_BIT | AP2_BIT) == 0,
                "a bit changed that is no mark",
            )?;
            accessed = old & AF_BIT != new & AF_BIT;
            dirtied = old & AP2_BIT != new & AP2_BIT;
            demand(
                !accessed || new & AF_BIT != 0,
                "the Access flag was cleared",
            )?;
            demand(!dirtied || new & AP2_BIT == 0, "AP[2] was set")?;
            demand(!dirtied || new & AF_BIT != 0, "dirty without Access flag")?;
            demand(
                matches!(
                    access.kind,
                    Kind::Read | Kind::Write | Kind::Update | Kind::Fetch
                ),
                "a probe changed memory",
            )?;
            demand(
                !dirtied || matches!(access.kind, Kind::Write | Kind::Update),
                "dirtied by an access that writes nothing",
            )?;
            demand(regime.ha, "marked with HA off")?;
            demand(!dirtied || regime.hd, "dirtied with HD off")?;
        }
    }
    demand(
        answer.accessed == u8::from(accessed),
        "the Access flag mark is told wrongly",
    )?;
    demand(
        answer.dirtied == u8::from(dirtied),
        "the dirty mark is told wrongly",
    )?;

    // With 64 KiB there are levels 1 to 3, and level 0 for what is not read.
    let missing = u8::from(regime.granule == Granule::Kib64);
    demand(answer.reads <= 4 - missing, "more reads than levels")?;
    demand(answer.level <= 3, "a level above 3")?;
    demand(
        answer.reads == 0 || answer.level >= missing,
        "a level that is not there",
    )?;
    demand(answer.cacheable <= 1, "a truth value above 1")?;

    if answer.tag == FAULT {
        let base = answer.code.wrapping_sub(u16::from(answer.level));
        demand(
            answer.code == 33 || [0, 4, 8, 12, 20].contains(&base),
            "a code that no fault has",
        )?;
        demand(
            answer.cacheable == 0 || answer.code == 33 || base == 12,
            "rememberable under a fault that reached no usable leaf",
        )?;
    }

    if answer.tag == SUCCESS {
        let bits = OUTPUT_BITS[usize::from(regime.output_code)];
        demand(answer.output >> bits == 0, "output beyond the output size")?;
        let mapped = mapped_bits(regime.granule, answer.level);
        let Some(mapped) = mapped.filter(|_| answer.reads >= 1) else {
            return Err("success without a leaf".to_string());
        };
        demand(
            (answer.output ^ access.address) << (64 - mapped) == 0,
            "output at another place in what its leaf maps",
        )?;
        demand(
            regime.attributes.contains(&answer.attribute),
            "an attribute byte the regime does not have",
        )?;
        let Some((_, offset)) = walk.leaf else {
            return Err("success where the reference found no leaf".to_string());
        };
        let sum = bare::sum(regime, access, before, walk);
        demand(!taken_away(sum, access), "success that a table takes away")?;
        demand(
            answer.dirtied == 0 || !bit(sum, AP_TABLE_1),
            "dirtied under a table's bit 62",
        )?;
        let leaf = word(regime, after, offset);
        if matches!(access.kind, Kind::Write | Kind::Update) {
            demand(
                leaf & AF_BIT != 0 && leaf & AP2_BIT == 0,
                "written, but the leaf is not accessed and dirty",
            )?;
        }
        demand(
            answer.cacheable == u8::from(leaf & AF_BIT != 0),
            "rememberable must say that AF is 1 afterwards",
        )?;
    }
    Ok(())
}

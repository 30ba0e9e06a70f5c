//! The second walker: stage 1, EL1&0.
//!
//! It was written from document 01 of the customer; what the customer's
//! requests change (so far) from these and from
//! docs/RULES.md. It shares nothing with the library or its bindings. The
//! places cited are those of docs/RULES.md, which says the same in numbered
//! sections.
//!
//! One loop goes down the levels over any reader of descriptors and keeps the
//! list of their addresses; the plain walk's reader is the pool. Sums that
//! could pass 2^64 are made in 128 bits.

use crate::geometry::{Granule, LAST_LEVEL};
use crate::refusals;

/// Longest memory that may be lent (RULES 2.1).
pub const MEMORY_LIMIT: usize = 16_777_216;
/// Longest pool (RULES 2.2).
pub const POOL_LIMIT: usize = 1_048_576;

/// Places of the leaf fields (RULES 6.9).
pub const AP1: u32 = 6;
pub const AP2: u32 = 7;
pub const AF: u32 = 10;
pub const NG: u32 = 11;
pub const DBM: u32 = 51;
pub const PXN: u32 = 53;
pub const UXN: u32 = 54;

/// Places of the bits with which a table takes permissions away from all that
/// lies below it (RULES 6.11).
pub const PXN_TABLE: u32 = 59;
pub const UXN_TABLE: u32 = 60;
pub const AP_TABLE_0: u32 = 61;
pub const AP_TABLE_1: u32 = 62;
/// All of them, the lowest first.
pub const TAKING: [u32; 4] = [PXN_TABLE, UXN_TABLE, AP_TABLE_0, AP_TABLE_1];
/// The same as a mask.
pub const TAKING_FIELD: u64 = 0xF << PXN_TABLE;

/// The part of the memory that holds descriptors.
#[derive(Clone, Copy, Debug, PartialEq, Eq)]
pub struct Pool {
    pub start: usize,
    pub length: usize,
    pub address: u64,
}

/// One of the two address ranges.
#[derive(Clone, Copy, Debug, PartialEq, Eq)]
pub struct Range {
    pub root: u64,
    pub t: u8,
    pub disabled: bool,
    /// Bits 62..59 of its tables do not count.
    pub hpd: bool,
}

#[derive(Clone, Copy, Debug, PartialEq, Eq)]
pub struct Regime {
    pub pool: Pool,
    pub ranges: [Range; 2],
    pub output_code: u8,
    pub ha: bool,
    pub hd: bool,
    pub wxn: bool,
    /// Descriptors stand in the pool highest byte first (RULES 2.3 and 3.1).
    pub ee: bool,
    /// The size of pages and tables, of both ranges (RULES 3.1).
    pub granule: Granule,
    pub attributes: [u8; 8],
}

#[derive(Clone, Copy, Debug, PartialEq, Eq, PartialOrd, Ord)]
pub enum Kind {
    Read,
    Write,
    Update,
    Fetch,
    ProbeRead,
    ProbeWrite,
}

impl Kind {
    pub const ALL: [Kind; 6] = [
        Kind::Read,
        Kind::Write,
        Kind::Update,
        Kind::Fetch,
        Kind::ProbeRead,
        Kind::ProbeWrite,
    ];

    pub fn is_probe(self) -> bool {
        matches!(self, Kind::ProbeRead | Kind::ProbeWrite)
    }

    /// Read, write and update: the kinds that move data.
    pub fn moves_data(self) -> bool {
        matches!(self, Kind::Read | Kind::Write | Kind::Update)
    }

    /// Write and update: the kinds that make a leaf dirty.
    pub fn changes_data(self) -> bool {
        matches!(self, Kind::Write | Kind::Update)
    }
}

#[derive(Clone, Copy, Debug, PartialEq, Eq)]
pub struct Access {
    pub address: u64,
    pub size: u64,
    pub el0: bool,
    pub kind: Kind,
}

#[derive(Clone, Copy, Debug, PartialEq, Eq, PartialOrd, Ord)]
pub enum FaultKind {
    AddressSize,
    Translation,
    AccessFlag,
    Permission,
    WalkAbort,
    Alignment,
}

impl FaultKind {
    pub const ALL: [FaultKind; 6] = [
        FaultKind::AddressSize,
        FaultKind::Translation,
        FaultKind::AccessFlag,
        FaultKind::Permission,
        FaultKind::WalkAbort,
        FaultKind::Alignment,
    ];

    /// Those of RULES 6.6 to 6.8.
    pub fn is_of_leaf(self) -> bool {
        use FaultKind::{AccessFlag, Alignment, Permission};
        matches!(self, AccessFlag | Permission | Alignment)
    }
}

/// A fault and its level, before the rest of the answer is known.
#[derive(Clone, Copy, Debug, PartialEq, Eq)]
pub struct Stop {
    pub kind: FaultKind,
    pub level: u8,
}

impl Stop {
    /// RULES 9.1.
    pub fn code(&self) -> u16 {
        let level = u16::from(self.level);
        match self.kind {
            FaultKind::AddressSize => level,
            FaultKind::Translation => 4 + level,
            FaultKind::AccessFlag => 8 + level,
            FaultKind::Permission => 12 + level,
            FaultKind::WalkAbort => 20 + level,
            FaultKind::Alignment => 33,
        }
    }
}

#[derive(Clone, Copy, Debug, PartialEq, Eq)]
pub struct Success {
    pub output: u64,
    pub attribute: u8,
    pub shareability: u8,
    pub nonglobal: bool,
    pub level: u8,
    pub accessed: bool,
    pub dirtied: bool,
    pub rememberable: bool,
    pub reads: u8,
}

#[derive(Clone, Copy, Debug, PartialEq, Eq)]
pub struct Fault {
    pub stop: Stop,
    pub rememberable: bool,
    pub reads: u8,
}

#[derive(Clone, Copy, Debug, PartialEq, Eq)]
pub enum Answer {
    Success(Success),
    Fault(Fault),
    Refused(u8),
}

/// A block or page descriptor, the level where it was found, and what the
/// tables on the way to it take away.
#[derive(Clone, Copy, Debug, PartialEq, Eq)]
pub struct Leaf {
    pub descriptor: u64,
    pub level: u8,
    /// The tables' sum: of bits 62..59 those that count, in their places.
    pub taken: u64,
}

/// An answer with the way that led to it.
#[derive(Clone, Debug)]
pub struct Walk {
    pub answer: Answer,
    /// Physical addresses of the descriptors asked for, in order.
    pub visited: Vec<u64>,
    /// The leaf as found and its offset in memory, once one was reached.
    pub leaf: Option<(Leaf, usize)>,
}

pub fn bit(value: u64, place: u32) -> bool {
    (value >> place) & 1 == 1
}

/// Whether a number is a multiple of a unit above 0.
pub fn is_multiple(number: u64, unit: u64) -> bool {
    number / unit * unit == number
}

// ---------------------------------------------------------------- the shape

/// Bits of output for each code (RULES 3.1).
pub fn output_bits(code: u8) -> u32 {
    [32, 36, 40, 42, 44, 48][usize::from(code)]
}

/// The first physical address beyond the output size.
pub fn output_limit(code: u8) -> u64 {
    1 << output_bits(code)
}

/// The output address bits of a leaf (RULES 6.2).
pub fn leaf_address(granule: Granule, leaf: &Leaf) -> u64 {
    leaf.descriptor & granule.leaf_field(leaf.level)
}

/// RULES 3.3.
pub fn is_device(attribute: u8) -> bool {
    matches!(attribute, 0x00 | 0x04 | 0x08 | 0x0C)
}

/// The attribute byte that the leaf's index, bits 4..2, picks.
pub fn leaf_attribute(regime: &Regime, descriptor: u64) -> u8 {
    regime.attributes[((descriptor >> 2) & 7) as usize]
}

/// Offset in memory of the descriptor at a physical address, where all its
/// 8 bytes are in the pool (RULES 2.3). There is none that a number cannot
/// hold, as of a pool to which row 1 applies.
pub fn offset_in_memory(pool: &Pool, address: u64) -> Option<usize> {
    let first = u128::from(pool.address);
    let end = first + pool.length as u128;
    let wanted = u128::from(address);
    if wanted >= first && wanted + 8 <= end {
        pool.start.checked_add((wanted - first) as usize)
    } else {
        None
    }
}

/// A descriptor's bytes (RULES 2.3): with EE the highest comes first.
pub fn descriptor_bytes(descriptor: u64, ee: bool) -> [u8; 8] {
    if ee {
        descriptor.to_be_bytes()
    } else {
        descriptor.to_le_bytes()
    }
}

/// The descriptor that the 8 bytes at an offset say.
pub fn read_descriptor(memory: &[u8], offset: usize, ee: bool) -> u64 {
    let mut bytes = [0; 8];
    bytes.copy_from_slice(&memory[offset..offset + 8]);
    if ee {
        u64::from_be_bytes(bytes)
    } else {
        u64::from_le_bytes(bytes)
    }
}

pub fn write_descriptor(memory: &mut [u8], offset: usize, descriptor: u64, ee: bool) {
    memory[offset..offset + 8].copy_from_slice(&descriptor_bytes(descriptor, ee));
}

/// What the pool holds: for an address the descriptor there, or none where it
/// is not wholly in the pool, and in the memory.
pub fn pool_reader<'a>(memory: &'a [u8], regime: &'a Regime) -> impl Fn(u64) -> Option<u64> + 'a {
    move |address| {
        let offset = offset_in_memory(&regime.pool, address)?;
        let inside = offset.checked_add(8)? <= memory.len();
        inside.then(|| read_descriptor(memory, offset, regime.ee))
    }
}

// ----------------------------------------------------------------- the walk

/// The range that an address picks, whether or not it lies in it.
pub fn range_at(regime: &Regime, address: u64) -> &Range {
    &regime.ranges[usize::from(bit(address, 55))]
}

/// RULES 6.1: the range of an address. There is none under a regime that only
/// a session of any bytes has (RULES 10.5).
fn range_of(regime: &Regime, address: u64) -> Result<&Range, Stop> {
    let stop = |kind| Err(Stop { kind, level: 0 });
    if refusals::finds_no_table(regime) {
        return stop(FaultKind::Translation);
    }
    let range = range_at(regime, address);
    let top = address >> (64 - u32::from(range.t));
    let wanted = if bit(address, 55) {
        (1 << range.t) - 1
    } else {
        0
    };
    if range.disabled || top != wanted {
        return stop(FaultKind::Translation);
    }
    if range.root >= output_limit(regime.output_code) {
        return stop(FaultKind::AddressSize);
    }
    Ok(range)
}

/// What a descriptor is at its level (RULES 6.4), and the address that it has.
#[derive(Clone, Copy, Debug, PartialEq, Eq)]
pub enum Found {
    Nothing,
    Table(u64),
    Leaf(u64),
}

impl Found {
    pub fn of(granule: Granule, level: u8, descriptor: u64) -> Found {
        match descriptor & 3 {
            3 if level < LAST_LEVEL => Found::Table(descriptor & granule.table_field()),
            3 => Found::Leaf(descriptor & granule.leaf_field(level)),
            1 if granule.has_blocks(level) => Found::Leaf(descriptor & granule.leaf_field(level)),
            _ => Found::Nothing,
        }
    }
}

/// A descriptor that is to be read: where it stands, its level, and bits 62..59
/// of the tables on the way to it, or-ed.
#[derive(Clone, Copy, Debug, PartialEq, Eq)]
pub struct Wanted {
    pub entry: u64,
    pub level: u8,
    /// Whether or not they count: HPD is asked at the leaf. No answer tells the
    /// difference, but the struct of a walk a descriptor at a time does. RULES
    /// 6.11 with 15.10 can be read so that these are none where HPD is on; this
    /// reading was chosen after the library was seen to differ from that one, so
    /// on this point the second program is not independent of it.
    pub bits: u64,
}

/// What a descriptor leads to.
#[derive(Clone, Copy, Debug, PartialEq, Eq)]
pub enum Next {
    Descriptor(Wanted),
    Leaf(Leaf),
}

/// RULES 6.1 and 6.2: the first descriptor.
pub fn first_wanted(regime: &Regime, address: u64) -> Result<Wanted, Stop> {
    let range = range_of(regime, address)?;
    let level = regime.granule.first_level(range.t);
    Ok(Wanted {
        entry: entry_of(regime, range.root, level, address),
        level,
        bits: 0,
    })
}

/// RULES 6.2: where an address has its descriptor in a table.
fn entry_of(regime: &Regime, table: u64, level: u8, address: u64) -> u64 {
    let range = range_at(regime, address);
    table + 8 * regime.granule.index(range.t, level, address)
}

/// RULES 6.3 to 6.5: what a descriptor is, if it can be read.
fn take(regime: &Regime, level: u8, read: Option<u64>) -> Result<(Found, u64), FaultKind> {
    let descriptor = read.ok_or(FaultKind::WalkAbort)?;
    let limit = output_limit(regime.output_code);
    match Found::of(regime.granule, level, descriptor) {
        Found::Nothing => Err(FaultKind::Translation),
        Found::Table(address) | Found::Leaf(address) if address >= limit => {
            Err(FaultKind::AddressSize)
        }
        found => Ok((found, descriptor)),
    }
}

/// RULES 6.3 to 6.5 and 6.11: from the descriptor that is wanted, as it was
/// read, to the next one or to the leaf.
pub fn go_on(
    regime: &Regime,
    address: u64,
    wanted: &Wanted,
    read: Option<u64>,
) -> Result<Next, Stop> {
    let level = wanted.level;
    let taken = take(regime, level, read);
    let (found, descriptor) = taken.map_err(|kind| Stop { kind, level })?;
    let Found::Table(table) = found else {
        let hpd = range_at(regime, address).hpd;
        return Ok(Next::Leaf(Leaf {
            descriptor,
            level,
            taken: if hpd { 0 } else { wanted.bits },
        }));
    };
    Ok(Next::Descriptor(Wanted {
        entry: entry_of(regime, table, level + 1, address),
        level: level + 1,
        bits: wanted.bits | descriptor & TAKING_FIELD,
    }))
}

/// RULES 6.1 to 6.5: from an address to its leaf. Each descriptor address is
/// put on the list before the reader is asked for it.
pub fn find_leaf(
    mut reader: impl FnMut(u64) -> Option<u64>,
    regime: &Regime,
    address: u64,
    visited: &mut Vec<u64>,
) -> Result<Leaf, Stop> {
    let mut wanted = first_wanted(regime, address)?;
    loop {
        visited.push(wanted.entry);
        match go_on(regime, address, &wanted, reader(wanted.entry))? {
            Next::Descriptor(next) => wanted = next,
            Next::Leaf(leaf) => return Ok(leaf),
        }
    }
}

/// W: the leaf may be written (RULES 7.1).
fn writable(regime: &Regime, leaf: &Leaf) -> bool {
    let own = leaf.descriptor;
    let clean = bit(own, DBM) && regime.ha && regime.hd;
    (!bit(own, AP2) || clean) && !bit(leaf.taken, AP_TABLE_1)
}

/// AP[2] set, but a write may clear it (RULES 7.1).
pub fn writable_clean(regime: &Regime, leaf: &Leaf) -> bool {
    bit(leaf.descriptor, AP2) && writable(regime, leaf)
}

/// Direct permissions (RULES 7): those of the leaf, less what the tables take
/// away.
fn permitted(regime: &Regime, access: &Access, leaf: &Leaf) -> bool {
    let (own, taken) = (leaf.descriptor, leaf.taken);
    let user = bit(own, AP1) && !bit(taken, AP_TABLE_0);
    let writable = writable(regime, leaf);
    match (access.kind, access.el0) {
        (Kind::Read | Kind::ProbeRead, true) => user,
        (Kind::Read | Kind::ProbeRead, false) => true,
        (Kind::Write | Kind::Update | Kind::ProbeWrite, true) => user && writable,
        (Kind::Write | Kind::Update | Kind::ProbeWrite, false) => writable,
        (Kind::Fetch, true) => {
            let never = bit(own, UXN) || bit(taken, UXN_TABLE);
            !(never || (regime.wxn && user && writable))
        }
        (Kind::Fetch, false) => {
            let never = bit(own, PXN) || bit(taken, PXN_TABLE);
            !(never || (user && writable) || (regime.wxn && writable))
        }
    }
}

/// RULES 6.6 to 6.8: may this access use this leaf?
fn judge(regime: &Regime, access: &Access, leaf: &Leaf) -> Result<(), FaultKind> {
    let device = is_device(leaf_attribute(regime, leaf.descriptor));
    let misaligned = access.kind.moves_data() && !is_multiple(access.address, access.size);
    if !bit(leaf.descriptor, AF) && !regime.ha {
        return Err(FaultKind::AccessFlag);
    }
    if misaligned && device {
        return Err(FaultKind::Alignment);
    }
    if !permitted(regime, access, leaf) || (access.kind == Kind::Fetch && device) {
        return Err(FaultKind::Permission);
    }
    Ok(())
}

/// What an access on a leaf answers, and the leaf's descriptor afterwards
/// (RULES 8 and 9). A mark is told only where a bit changed.
pub fn settle(regime: &Regime, access: &Access, leaf: &Leaf, reads: u8) -> (Answer, u64) {
    let before = leaf.descriptor;
    if let Err(kind) = judge(regime, access, leaf) {
        let level = leaf.level;
        let fault = Fault {
            stop: Stop { kind, level },
            // Nothing was marked, so AF afterwards is AF before.
            rememberable: kind != FaultKind::AccessFlag && bit(before, AF),
            reads,
        };
        return (Answer::Fault(fault), before);
    }
    let mut after = before;
    if regime.ha && !access.kind.is_probe() {
        after |= 1 << AF;
    }
    if access.kind.changes_data() && writable_clean(regime, leaf) {
        after &= !(1 << AP2);
    }
    let granule = regime.granule;
    let offset = access.address & granule.span_mask(leaf.level);
    let success = Success {
        output: leaf_address(granule, leaf) | offset,
        attribute: leaf_attribute(regime, before),
        shareability: ((before >> 8) & 3) as u8,
        nonglobal: bit(before, NG),
        level: leaf.level,
        accessed: bit(before ^ after, AF),
        dirtied: bit(before ^ after, AP2),
        rememberable: bit(after, AF),
        reads,
    };
    (Answer::Success(success), after)
}

/// What an access answers that came to a leaf or to a fault before one, and
/// the leaf's descriptor afterwards.
pub fn conclude(
    regime: &Regime,
    access: &Access,
    found: &Result<Leaf, Stop>,
    reads: u8,
) -> (Answer, Option<u64>) {
    match found {
        Ok(leaf) => {
            let (answer, after) = settle(regime, access, leaf, reads);
            (answer, Some(after))
        }
        Err(stop) => {
            let fault = Fault {
                stop: *stop,
                rememberable: false,
                reads,
            };
            (Answer::Fault(fault), None)
        }
    }
}

/// A walk over a reader. It makes no marks.
#[derive(Clone, Debug)]
pub struct Course {
    pub answer: Answer,
    /// Physical addresses of the descriptors asked for, in order.
    pub visited: Vec<u64>,
    /// The leaf as found, once one was reached.
    pub leaf: Option<Leaf>,
    /// Its descriptor with the marks that are due.
    pub after: Option<u64>,
}

impl Course {
    pub fn refused(number: u8) -> Course {
        Course {
            answer: Answer::Refused(number),
            visited: Vec::new(),
            leaf: None,
            after: None,
        }
    }
}

/// The steps of a walk that is not refused, over any reader.
pub fn steps(reader: impl FnMut(u64) -> Option<u64>, regime: &Regime, access: &Access) -> Course {
    let mut visited = Vec::with_capacity(4);
    let found = find_leaf(reader, regime, access.address, &mut visited);
    let (answer, after) = conclude(regime, access, &found, visited.len() as u8);
    Course {
        answer,
        visited,
        leaf: found.ok(),
        after,
    }
}

/// The plain walk: its refusals, its steps, its marks.
pub fn walk(memory: &mut [u8], regime: &Regime, access: &Access) -> Walk {
    match refusals::of_walk(memory.len(), regime, access) {
        Some(number) => in_pool(regime, Course::refused(number)),
        None => walk_on(memory, regime, access),
    }
}

/// The plain walk over a memory that stays as it is: all but its marks.
pub fn look(memory: &[u8], regime: &Regime, access: &Access) -> Walk {
    let course = match refusals::of_walk(memory.len(), regime, access) {
        Some(number) => Course::refused(number),
        None => steps(pool_reader(memory, regime), regime, access),
    };
    in_pool(regime, course)
}

/// The steps and marks of a walk that is not refused. Rows 1, 6 and 7 must not
/// apply; the others may, in a session of any bytes (RULES 10.5).
pub fn walk_on(memory: &mut [u8], regime: &Regime, access: &Access) -> Walk {
    let course = steps(pool_reader(memory, regime), regime, access);
    let after = course.after;
    let walk = in_pool(regime, course);
    if let (Some((_, offset)), Some(after)) = (walk.leaf, after) {
        write_descriptor(memory, offset, after, regime.ee);
    }
    walk
}

/// A walk over the pool, with its leaf's place in the memory.
fn in_pool(regime: &Regime, course: Course) -> Walk {
    let last = course.visited.last();
    let offset = last.and_then(|&entry| offset_in_memory(&regime.pool, entry));
    Walk {
        answer: course.answer,
        leaf: course.leaf.zip(offset),
        visited: course.visited,
    }
}

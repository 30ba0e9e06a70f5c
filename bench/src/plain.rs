//! The same rules in plain Rust, with no thought of a proof: a loop over the
//! levels, a session changed where it lies, a walk a descriptor at a time, and
//! a recursion over the tables for the harvest.

mod harvest;
mod stepwise;

pub use harvest::{harvest, PAGES_LIMIT};
pub use stepwise::Stepwise;

use crate::boundary::{Access, Answer, Regime};
use crate::boundary::{FAULT, FETCH, PROBE_READ, PROBE_WRITE, READ, REFUSED, SUCCESS};

pub const MEMORY_LIMIT: usize = 1 << 24;
pub const POOL_LIMIT: usize = 1 << 20;
const OUTPUT_LIMITS: [u64; 6] = [1 << 32, 1 << 36, 1 << 40, 1 << 42, 1 << 44, 1 << 48];

const ADDRESS_SIZE: u16 = 0;
const TRANSLATION: u16 = 4;
const ACCESS_FLAG: u16 = 8;
const PERMISSION: u16 = 12;
const EXTERNAL_ABORT: u16 = 20;
const ALIGNMENT: u16 = 33;

const AP1: u64 = 1 << 6;
const AP2: u64 = 1 << 7;
const AF: u64 = 1 << 10;
const NG: u64 = 1 << 11;
const DBM: u64 = 1 << 51;
const PXN: u64 = 1 << 53;
const UXN: u64 = 1 << 54;

// Bits of a table descriptor.
const PXN_TABLE: u64 = 1 << 59;
const UXN_TABLE: u64 = 1 << 60;
const NO_EL0: u64 = 1 << 61;
const NO_WRITE: u64 = 1 << 62;

/// The page bits of a granule (TG0's numbers; any other is 4 KiB).
fn page_bits(granule: u8) -> u8 {
    match granule {
        1 => 16,
        2 => 14,
        _ => 12,
    }
}

/// Whether `x` is a multiple of the regime's granule.
fn aligned(regime: &Regime, x: u64) -> bool {
    x & ((1 << page_bits(regime.granule)) - 1) == 0
}

/// The lowest bit of the index at a level, by the levels below it.
fn shift(regime: &Regime, left: u8) -> u8 {
    let page = page_bits(regime.granule);
    page + (page - 3) * left
}

/// A descriptor from its bytes.
fn value_of(bytes: [u8; 8], ee: u8) -> u64 {
    if ee != 0 {
        u64::from_be_bytes(bytes)
    } else {
        u64::from_le_bytes(bytes)
    }
}

/// Its bytes.
fn bytes_of(value: u64, ee: u8) -> [u8; 8] {
    if ee != 0 {
        value.to_be_bytes()
    } else {
        value.to_le_bytes()
    }
}

#[inline(never)]
pub fn load(memory: &[u8], at: usize, ee: u8) -> u64 {
    match memory.get(at..).and_then(|rest| rest.first_chunk()) {
        Some(bytes) => value_of(*bytes, ee),
        None => 0,
    }
}

#[inline(never)]
pub fn store(memory: &mut [u8], at: usize, value: u64, ee: u8) {
    if let Some(bytes) = memory.get_mut(at..).and_then(|rest| rest.get_mut(..8)) {
        bytes.copy_from_slice(&bytes_of(value, ee));
    }
}

/// A leaf descriptor, those of the tables on the way to it, added up (four of
/// their bits count), and the levels below it.
#[derive(Clone, Copy)]
struct Leaf {
    value: u64,
    tables: u64,
    left: u8,
}

/// Where a walk ended: the leaf, its offset in the pool, and the reads.
struct Found {
    leaf: Leaf,
    offset: usize,
    reads: u8,
}

fn refused(refusal: u8) -> Answer {
    Answer {
        tag: REFUSED,
        refusal,
        ..Answer::default()
    }
}

fn fault(code: u16, level: u8, reads: u8) -> Answer {
    Answer {
        tag: FAULT,
        code,
        level,
        reads,
        ..Answer::default()
    }
}

fn pool_fits(length: usize, regime: &Regime) -> bool {
    length <= MEMORY_LIMIT
        && aligned(regime, regime.start as u64)
        && aligned(regime, regime.length as u64)
        && regime.length != 0
        && regime.length <= POOL_LIMIT
        && regime.start <= length
        && regime.length <= length - regime.start
}

fn attribute_known(byte: u8) -> bool {
    matches!(byte, 0x00 | 0x04 | 0x08 | 0x0c) || (byte & 0x0f != 0 && byte & 0xf0 != 0)
}

fn refuse_regime(length: usize, regime: &Regime) -> Option<u8> {
    if !pool_fits(length, regime) {
        Some(1)
    } else if !aligned(regime, regime.address) || regime.address > (1 << 48) - regime.length as u64
    {
        Some(2)
    } else {
        refuse_settings(regime)
    }
}

/// What is wrong with a regime, the pool aside.
#[inline(always)]
fn refuse_settings(regime: &Regime) -> Option<u8> {
    let root_known = |root: u64| aligned(regime, root) && root < 1 << 48;
    if !(16..=39).contains(&regime.tsz0) || !(16..=39).contains(&regime.tsz1) || regime.output > 5 {
        Some(3)
    } else if !root_known(regime.root0) || !root_known(regime.root1) {
        Some(4)
    } else if !regime
        .attributes
        .to_le_bytes()
        .into_iter()
        .all(attribute_known)
    {
        Some(5)
    } else if regime.hd != 0 && regime.ha == 0 {
        Some(13)
    } else {
        None
    }
}

fn refuse_access(regime: &Regime, access: &Access) -> Option<u8> {
    // A kind above 5 is taken as an update, here and below.
    let size_known = match access.kind {
        FETCH => access.size == 4 && access.address.is_multiple_of(4),
        PROBE_READ | PROBE_WRITE => access.size == 1,
        _ => matches!(access.size, 1 | 2 | 4 | 8 | 16),
    };
    let page = page_bits(regime.granule);
    if !size_known {
        Some(6)
    } else if access.address >> page != access.address.wrapping_add(access.size - 1) >> page {
        Some(7)
    } else {
        None
    }
}

/// Steps 1 to 5: from the root to the leaf.
fn find(pool: &[u8], regime: &Regime, address: u64) -> Result<Found, Answer> {
    let high = address >> 55 & 1 == 1;
    let (root, tsz, disabled, top) = if high {
        (regime.root1, regime.tsz1, regime.disabled1, u64::MAX)
    } else {
        (regime.root0, regime.tsz0, regime.disabled0, 0)
    };
    let hpd = if high { regime.hpd1 } else { regime.hpd0 };
    let bits = 64 - tsz;
    if disabled != 0 || address >> bits != top >> bits {
        return Err(fault(TRANSLATION, 0, 0));
    }
    let limit = OUTPUT_LIMITS[regime.output as usize];
    if root >= limit {
        return Err(fault(ADDRESS_SIZE, 0, 0));
    }

    let input = address & ((1 << bits) - 1);
    let mut table = root;
    let page = page_bits(regime.granule);
    let stride = page - 3;
    let mut left = (63 - tsz - page) / stride;
    let mut tables = 0;
    let mut reads = 0;
    loop {
        let level = 3 - left;
        let stop = |code: u16, reads: u8| Err(fault(code + u16::from(level), level, reads));
        let shift = page + stride * left;
        let at = table + 8 * (input >> shift & ((1 << stride) - 1));
        reads += 1;

        // Both are multiples of 8: a descriptor that starts in the pool ends
        // in it too.
        let offset = at.wrapping_sub(regime.address);
        if offset >= regime.length as u64 {
            return stop(EXTERNAL_ABORT, reads);
        }
        let offset = offset as usize;
        let bytes = pool[offset..offset + 8].try_into().expect("8 bytes");
        let value = value_of(bytes, regime.ee);

        let wide = value & 2 != 0;
        // Blocks have at most 1 GiB.
        if value & 1 == 0 || (!wide && (left == 0 || shift > 30)) {
            return stop(TRANSLATION, reads);
        }
        if wide && left > 0 {
            table = value & ((1 << 48) - (1 << page));
            if table >= limit {
                return stop(ADDRESS_SIZE, reads);
            }
            tables |= value;
            left -= 1;
            continue;
        }
        let leaf = Leaf {
            value,
            tables: if hpd != 0 { 0 } else { tables },
            left,
        };
        if leaf.base(regime) >= limit {
            return stop(ADDRESS_SIZE, reads);
        }
        return Ok(Found {
            leaf,
            offset,
            reads,
        });
    }
}

impl Leaf {
    fn base(self, regime: &Regime) -> u64 {
        let shift = shift(regime, self.left);
        (self.value & 0xffff_ffff_ffff) >> shift << shift
    }

    /// Steps 6 to 8 and the answer, which says what marks are due.
    fn judge(self, regime: &Regime, access: &Access, reads: u8) -> Answer {
        let level = 3 - self.left;
        let is = |bit: u64| self.value & bit != 0;
        let under = |bit: u64| self.tables & bit != 0;
        let ha = regime.ha != 0;
        if !is(AF) && !ha {
            return fault(ACCESS_FLAG + u16::from(level), level, reads);
        }
        let attribute = (regime.attributes >> (8 * (self.value >> 2 & 7))) as u8;
        let device = attribute < 0x10;
        let fault = |code: u16| Answer {
            cacheable: u8::from(is(AF)),
            ..fault(code, level, reads)
        };

        let plain = !matches!(access.kind, FETCH | PROBE_READ | PROBE_WRITE);
        if plain && device && access.address & (access.size - 1) != 0 {
            return fault(ALIGNMENT);
        }

        let el0 = access.el0 != 0;
        let wxn = regime.wxn != 0;
        let user = || is(AP1) && !under(NO_EL0);
        let uxn = || is(UXN) || under(UXN_TABLE);
        let pxn = || is(PXN) || under(PXN_TABLE);
        let writable = !under(NO_WRITE) && (!is(AP2) || (is(DBM) && ha && regime.hd != 0));
        let permitted = match access.kind {
            READ | PROBE_READ => !el0 || user(),
            FETCH if el0 => !(device || uxn() || wxn && user() && writable),
            FETCH => !(device || pxn() || (user() || wxn) && writable),
            _ => writable && (!el0 || user()),
        };
        if !permitted {
            return fault(PERMISSION + u16::from(level));
        }

        let (accessed, dirtied) = match access.kind {
            READ | FETCH => (!is(AF), false),
            PROBE_READ | PROBE_WRITE => (false, false),
            _ => (!is(AF), is(AP2)),
        };
        let inside = (1 << shift(regime, self.left)) - 1;
        Answer {
            output: self.base(regime) | access.address & inside,
            tag: SUCCESS,
            refusal: 0,
            code: 0,
            level,
            attribute,
            shareability: (self.value >> 8 & 3) as u8,
            nonglobal: u8::from(is(NG)),
            accessed: u8::from(accessed),
            dirtied: u8::from(dirtied),
            cacheable: u8::from(is(AF) || accessed),
            reads,
            spare: [0; 4],
        }
    }

    fn mark(&mut self, answer: &Answer) {
        if answer.accessed != 0 {
            self.value |= AF;
        }
        if answer.dirtied != 0 {
            self.value &= !AP2;
        }
    }
}

/// The walk behind the checks, and the leaf as it leaves it.
fn translate(memory: &mut [u8], regime: &Regime, access: &Access) -> (Answer, Option<Leaf>) {
    let pool = &mut memory[regime.start..regime.start + regime.length];
    let Found {
        mut leaf,
        offset,
        reads,
    } = match find(pool, regime, access.address) {
        Ok(found) => found,
        Err(fault) => return (fault, None),
    };
    let answer = leaf.judge(regime, access, reads);
    if answer.accessed != 0 || answer.dirtied != 0 {
        leaf.mark(&answer);
        pool[offset..offset + 8].copy_from_slice(&bytes_of(leaf.value, regime.ee));
    }
    (answer, Some(leaf))
}

#[inline(never)]
pub fn walk(memory: &mut [u8], regime: &Regime, access: &Access) -> Answer {
    let refusal = refuse_regime(memory.len(), regime).or_else(|| refuse_access(regime, access));
    match refusal {
        Some(refusal) => refused(refusal),
        None => translate(memory, regime, access).0,
    }
}

#[derive(Clone, Copy)]
struct Entry {
    page: u64,
    leaf: Leaf,
}

pub struct Session {
    regime: Option<Regime>,
    entries: [Option<Entry>; 64],
}

impl Session {
    pub fn empty() -> Session {
        Session {
            regime: None,
            entries: [None; 64],
        }
    }

    #[inline(never)]
    pub fn set_regime(&mut self, memory: &[u8], regime: &Regime) -> u8 {
        if let Some(refusal) = refuse_regime(memory.len(), regime) {
            return refusal;
        }
        self.regime = Some(*regime);
        self.entries = [None; 64];
        0
    }

    #[inline(never)]
    pub fn access(&mut self, memory: &mut [u8], access: &Access) -> Answer {
        let Some(regime) = &self.regime else {
            return refused(9);
        };
        if !pool_fits(memory.len(), regime) {
            return refused(1);
        }
        if let Some(refusal) = refuse_access(regime, access) {
            return refused(refusal);
        }

        let page = access.address >> page_bits(regime.granule);
        let place = &mut self.entries[(page % 64) as usize];
        if let Some(entry) = place.filter(|entry| entry.page == page) {
            let answer = entry.leaf.judge(regime, access, 0);
            if answer.dirtied == 0 {
                return answer;
            }
        }
        let (answer, leaf) = translate(memory, regime, access);
        if answer.cacheable != 0 {
            *place = leaf.map(|leaf| Entry { page, leaf });
        }
        answer
    }

    #[inline(never)]
    pub fn store(&self, memory: &mut [u8], address: u64, value: u64) -> u8 {
        let Some(regime) = &self.regime else {
            return 9;
        };
        if !pool_fits(memory.len(), regime) {
            return 1;
        }
        let end = regime.address + regime.length as u64;
        if !address.is_multiple_of(8) || address < regime.address || address > end - 8 {
            return 8;
        }
        let offset = regime.start + (address - regime.address) as usize;
        memory[offset..offset + 8].copy_from_slice(&bytes_of(value, regime.ee));
        0
    }

    #[inline(never)]
    pub fn invalidate_all(&mut self) {
        self.entries = [None; 64];
    }

    #[inline(never)]
    pub fn harvest(&mut self, memory: &mut [u8], first: u64, count: u64, map: &mut [u8]) -> u8 {
        let Some(regime) = &self.regime else {
            return 9;
        };
        let refusal = harvest(memory, regime, first, count, map);
        if refusal == 0 {
            self.entries = [None; 64];
        }
        refusal
    }
}

//! What is measured: one call again and again, on either side.

mod harvest;

use std::array;
use std::hint::black_box;

use harvest::{harvests, Harvest};

use crate::boundary::{self, Access, Answer, Regime, KIB16, KIB4, KIB64, READ, WRITE};
use crate::plain::{self, PAGES_LIMIT};
use crate::steps::Steps;

/// The addresses of every kernel repeat after so many calls.
const PERIOD: usize = 512;

/// The bytes of the memory, all of them the pool. (The kernels of the longest
/// pool have `plain::POOL_LIMIT`.)
pub const MEMORY: usize = 0x1_0000;
pub const POOL_ADDRESS: u64 = 0x4000_0000;

/// The bytes of the map of a harvest.
const MAP: usize = PAGES_LIMIT as usize / 8;

/// The tables of the last level in the longest pool: all but the first three.
pub const LEAF_TABLES: u64 = (plain::POOL_LIMIT as u64 >> 12) - 3;

#[derive(Clone, Copy, PartialEq)]
pub enum Kernel {
    Load,
    Store,
    Walk4,
    Walk4Long,
    Walk4Big,
    Walk4Kib16,
    Walk3Kib64,
    Block2,
    Hit,
    HitLong,
    HitFault,
    Miss,
    SetRegime,
    SessionStore,
    InvalidateAll,
    Step4,
    Step4Offer,
    Harvest(Harvest),
}

#[derive(Clone, Copy)]
pub enum Side {
    Ours,
    Plain,
    /// The loop around the calls, and no call.
    Loop,
}

impl Kernel {
    /// All but those of the harvest.
    const SHORT: [Kernel; 17] = [
        Kernel::Load,
        Kernel::Store,
        Kernel::Walk4,
        Kernel::Walk4Long,
        Kernel::Walk4Big,
        Kernel::Walk4Kib16,
        Kernel::Walk3Kib64,
        Kernel::Block2,
        Kernel::Hit,
        Kernel::HitLong,
        Kernel::HitFault,
        Kernel::Miss,
        Kernel::SetRegime,
        Kernel::SessionStore,
        Kernel::InvalidateAll,
        Kernel::Step4,
        Kernel::Step4Offer,
    ];

    pub fn all() -> Vec<Kernel> {
        let harvests = Harvest::ALL.map(Kernel::Harvest);
        [&Kernel::SHORT[..], &harvests[..]].concat()
    }

    pub fn name(self) -> &'static str {
        match self {
            Kernel::Load => "load",
            Kernel::Store => "store",
            Kernel::Walk4 => "walk4",
            Kernel::Walk4Long => "walk4-long",
            Kernel::Walk4Big => "walk4-big",
            Kernel::Walk4Kib16 => "walk4-16k",
            Kernel::Walk3Kib64 => "walk3-64k",
            Kernel::Block2 => "block2",
            Kernel::Hit => "hit",
            Kernel::HitLong => "hit-long",
            Kernel::HitFault => "hit-fault",
            Kernel::Miss => "miss",
            Kernel::SetRegime => "set-regime",
            Kernel::SessionStore => "session-store",
            Kernel::InvalidateAll => "invalidate-all",
            Kernel::Step4 => "step4",
            Kernel::Step4Offer => "step4-offer",
            Kernel::Harvest(harvest) => harvest.name(),
        }
    }

    pub fn named(name: &str) -> Option<Kernel> {
        Kernel::all()
            .into_iter()
            .find(|kernel| kernel.name() == name)
    }

    /// One of its calls counts as so many.
    pub fn weight(self) -> u64 {
        match self {
            Kernel::Harvest(harvest) => harvest.weight(),
            _ => 1,
        }
    }

    /// Whether the loop around its calls has work of its own to do, so that its
    /// time is to be taken off.
    pub fn prepares(self) -> bool {
        matches!(self, Kernel::Harvest(_))
    }

    /// The address of call `i`, and again of call `i + PERIOD`.
    fn address(self, i: u64) -> u64 {
        match self {
            // 512 pages in a scattered order.
            Kernel::Walk4 | Kernel::Walk4Big | Kernel::Step4 => 0x40_0abc + ((i * 37 % 512) << 12),
            // As many of 16 and of 64 KiB; with 16 KiB, bit 47 takes a level of its own.
            Kernel::Walk4Kib16 => 0x8000_0000_0abc + ((i * 37 % 512) << 14),
            Kernel::Walk3Kib64 => 0xabc + ((i * 37 % 512) << 16),
            // As many, in all tables of the last level.
            Kernel::Walk4Long => 0xabc + ((i * 37 % LEAF_TABLES) << 21) + ((i * 101 % 512) << 12),
            // 512 blocks of 2 MiB.
            Kernel::Block2 => 0x4000_0abc + ((i * 37 % 512) << 21),
            // 64 pages, one for each entry.
            Kernel::Hit => 0x40_0abc + ((i * 37 % 64) << 12),
            // The same, each in a table of its own.
            Kernel::HitLong => 0xabc + ((i * 37 % 64 * 3) << 21) + ((i * 37 % 64) << 12),
            // 64 read-only pages, one for each entry.
            Kernel::HitFault => 0x60_0abc + ((i * 37 % 64) << 12),
            // Two pages of one entry.
            _ => 0x40_0abc + ((i % 2 * 64) << 12),
        }
    }

    /// The memory, all of it the pool.
    fn memory(self) -> Vec<u8> {
        match self {
            Kernel::Walk4Long | Kernel::HitLong => long_memory(),
            Kernel::Walk4Kib16 | Kernel::Walk3Kib64 => tables(self.granule()),
            Kernel::Step4 => clean(memory()),
            Kernel::Harvest(harvest) => harvest.memory(),
            _ => in_order(memory(), self.ee()),
        }
    }

    /// EE of its regime.
    fn ee(self) -> u8 {
        u8::from(self == Kernel::Walk4Big)
    }

    /// The granule of its regime.
    fn granule(self) -> u8 {
        match self {
            Kernel::Walk4Kib16 => KIB16,
            Kernel::Walk3Kib64 => KIB64,
            _ => KIB4,
        }
    }

    /// The kind of its accesses.
    fn kind(self) -> u8 {
        match self {
            Kernel::HitFault | Kernel::Step4 => WRITE,
            _ => READ,
        }
    }
}

impl Side {
    pub fn named(name: &str) -> Option<Side> {
        match name {
            "ours" => Some(Side::Ours),
            "plain" => Some(Side::Plain),
            "loop" => Some(Side::Loop),
            _ => None,
        }
    }
}

/// The regime of the measured calls, for a memory of this length.
pub fn regime(length: usize) -> Regime {
    Regime {
        start: 0,
        length,
        address: POOL_ADDRESS,
        root0: 0x4000_0000,
        root1: 0x4000_0000,
        attributes: u64::MAX,
        tsz0: 16,
        tsz1: 16,
        disabled0: 0,
        disabled1: 0,
        output: 5,
        ha: 1,
        hd: 1,
        wxn: 0,
        hpd0: 0,
        hpd1: 0,
        ee: 0,
        granule: KIB4,
        spare: [0; 4],
    }
}

/// Tables of 512 pages from 0x400000 and of 512 blocks from 0x40000000, every
/// leaf accessed and dirty; and of 64 read-only pages from 0x600000.
pub fn memory() -> Vec<u8> {
    let mut memory = vec![0; MEMORY];
    let mut put = |offset, value| put(&mut memory, offset, value);
    put(0x0000, 0x4000_1003);
    put(0x1000, 0x4000_2003);
    put(0x1008, 0x4000_4003);
    put(0x2010, 0x4000_3003);
    put(0x2018, 0x4000_5003);
    for i in 0..512 {
        let at = 8 * i as usize;
        put(0x3000 + at, 0x0008_0000_8000_0743 | i << 12);
        put(0x4000 + at, 0x0008_0001_0000_0741 | i << 21);
    }
    for i in 0..64 {
        put(0x5000 + 8 * i as usize, 0x8020_07c3 | i << 12);
    }
    memory
}

/// These tables with the 512 pages writable-clean and not accessed: each write
/// has an update due.
fn clean(mut memory: Vec<u8>) -> Vec<u8> {
    for i in 0..512 {
        let at = 0x3000 + 8 * i as usize;
        put(&mut memory, at, 0x0008_0000_8000_03c3 | i << 12);
    }
    memory
}

/// A leaf that is accessed and dirty, of page 0.
const LEAF: u64 = 0x0008_0000_8000_0743;

/// The longest pool, full of tables: every page from 0 on, as far as its
/// tables reach, with its leaf accessed and dirty.
pub fn long_memory() -> Vec<u8> {
    long_tables(|_| LEAF)
}

/// These tables, each page with the leaf given for it as if it were page 0.
fn long_tables(leaf: impl Fn(u64) -> u64) -> Vec<u8> {
    let mut memory = vec![0; plain::POOL_LIMIT];
    let mut put = |offset, value| put(&mut memory, offset, value);
    put(0x0000, 0x4000_1003);
    put(0x1000, 0x4000_2003);
    for table in 0..LEAF_TABLES {
        put(0x2000 + 8 * table as usize, 0x4000_3003 + (table << 12));
    }
    for page in 0..LEAF_TABLES * 512 {
        put(0x3000 + 8 * page as usize, leaf(page) + (page << 12));
    }
    memory
}

/// A table for each level of this granule, one after another, and 512 pages
/// from the first address of the last one on, every leaf accessed and dirty.
/// With 16 KiB the way goes by entry 1 of the first table.
pub fn tables(granule: u8) -> Vec<u8> {
    let (levels, page) = match granule {
        KIB16 => (4, 14),
        KIB64 => (3, 16),
        _ => (4, 12),
    };
    let mut memory = vec![0; levels << page];
    let mut put = |offset, value| put(&mut memory, offset, value);
    for level in 1..levels {
        let first = level == 1 && granule == KIB16;
        let next = POOL_ADDRESS + ((level as u64) << page) + 3;
        put(((level - 1) << page) + 8 * usize::from(first), next);
    }
    for i in 0..512 {
        let at = ((levels - 1) << page) + 8 * i as usize;
        put(at, 0x0008_0000_8000_0743 | i << page);
    }
    memory
}

/// These tables in the byte order of `ee`.
pub fn in_order(mut memory: Vec<u8>, ee: u8) -> Vec<u8> {
    if ee != 0 {
        memory.chunks_exact_mut(8).for_each(<[u8]>::reverse);
    }
    memory
}

pub fn put(memory: &mut [u8], offset: usize, value: u64) {
    memory[offset..offset + 8].copy_from_slice(&value.to_le_bytes());
}

/// A memory, a session and the map of a harvest for each side.
pub struct Bed {
    regime: Regime,
    addresses: [u64; PERIOD],
    /// The memory as it was at first.
    original: Vec<u8>,
    memory: [Vec<u8>; 2],
    maps: [Vec<u8>; 2],
    ours: boundary::Session,
    plain: plain::Session,
}

impl Bed {
    /// Ready for the calls of `kernel`, its 64 pages remembered for a hit.
    pub fn new(kernel: Kernel) -> Bed {
        let memory = kernel.memory();
        let mut bed = Bed {
            regime: Regime {
                ee: kernel.ee(),
                granule: kernel.granule(),
                ..regime(memory.len())
            },
            addresses: array::from_fn(|i| kernel.address(i as u64)),
            memory: [memory.clone(), memory.clone()],
            original: memory,
            maps: [MAP, MAP].map(|length| vec![0; length]),
            ours: boundary::Session::empty(),
            plain: plain::Session::empty(),
        };
        let refusals = [
            bed.ours.set_regime(&bed.memory[0], &bed.regime),
            bed.plain.set_regime(&bed.memory[1], &bed.regime),
        ];
        assert_eq!(refusals, [0, 0]);
        if matches!(kernel, Kernel::Hit | Kernel::HitLong | Kernel::HitFault) {
            bed.run(kernel, Side::Ours, 64);
            bed.run(kernel, Side::Plain, 64);
        }
        bed
    }

    pub fn same_bytes(&self) -> bool {
        self.memory[0] == self.memory[1] && self.maps[0] == self.maps[1]
    }

    /// Runs `calls` calls and gives a checksum of the answers.
    pub fn run(&mut self, kernel: Kernel, side: Side, calls: u64) -> u64 {
        if let Kernel::Harvest(harvest) = kernel {
            return self.harvest(harvest, side, calls);
        }
        let Bed {
            regime,
            addresses,
            memory: [memory, plain_memory],
            ours,
            plain,
            ..
        } = self;
        let (regime, addresses) = (&*regime, &*addresses);
        let kind = kernel.kind();
        let ee = black_box(regime.ee);
        let (memory, plain_memory) = (&mut memory[..], &mut plain_memory[..]);
        match (kernel, side) {
            (Kernel::Load, Side::Ours) => offsets(calls, move |at| boundary::load(memory, at, ee)),
            (Kernel::Load, Side::Plain) => {
                offsets(calls, move |at| plain::load(plain_memory, at, ee))
            }
            (Kernel::Store, Side::Ours) => offsets(calls, move |at| {
                boundary::store(memory, at, at as u64, ee);
                0
            }),
            (Kernel::Store, Side::Plain) => offsets(calls, move |at| {
                plain::store(plain_memory, at, at as u64, ee);
                0
            }),
            (Kernel::Hit | Kernel::HitLong | Kernel::HitFault | Kernel::Miss, Side::Ours) => {
                answers(calls, kind, addresses, move |access| {
                    black_box(&mut *ours).access(memory, access)
                })
            }
            (Kernel::Hit | Kernel::HitLong | Kernel::HitFault | Kernel::Miss, Side::Plain) => {
                answers(calls, kind, addresses, move |access| {
                    black_box(&mut *plain).access(plain_memory, access)
                })
            }
            (Kernel::SetRegime, Side::Ours) => codes(calls, move || {
                black_box(&mut *ours).set_regime(memory, black_box(regime))
            }),
            (Kernel::SetRegime, Side::Plain) => codes(calls, move || {
                black_box(&mut *plain).set_regime(plain_memory, black_box(regime))
            }),
            (Kernel::SessionStore, Side::Ours) => offsets(calls, move |at| {
                let at = at as u64;
                black_box(&mut *ours)
                    .store(memory, POOL_ADDRESS + at, at)
                    .into()
            }),
            (Kernel::SessionStore, Side::Plain) => offsets(calls, move |at| {
                let at = at as u64;
                black_box(&mut *plain)
                    .store(plain_memory, POOL_ADDRESS + at, at)
                    .into()
            }),
            (Kernel::InvalidateAll, Side::Ours) => codes(calls, move || {
                black_box(&mut *ours).invalidate_all();
                0
            }),
            (Kernel::InvalidateAll, Side::Plain) => codes(calls, move || {
                black_box(&mut *plain).invalidate_all();
                0
            }),
            (Kernel::Step4, Side::Ours) => answers(calls, kind, addresses, move |access| {
                stepwise::<boundary::Stepwise>(memory, black_box(regime), access)
            }),
            (Kernel::Step4, Side::Plain) => answers(calls, kind, addresses, move |access| {
                stepwise::<plain::Stepwise>(plain_memory, black_box(regime), access)
            }),
            (Kernel::Step4Offer, Side::Ours) => {
                offers::<boundary::Stepwise>(calls, regime, Steps::value)
            }
            (Kernel::Step4Offer, Side::Plain) => {
                offers::<plain::Stepwise>(calls, regime, Steps::value)
            }
            (Kernel::Step4Offer, Side::Loop) => {
                offers::<boundary::Stepwise>(calls, regime, |_, value| value as u8)
            }
            (Kernel::Load | Kernel::SessionStore, Side::Loop) => offsets(calls, |at| at as u64),
            (Kernel::Store, Side::Loop) => offsets(calls, |_| 0),
            (Kernel::SetRegime | Kernel::InvalidateAll, Side::Loop) => {
                codes(calls, || black_box(0))
            }
            (_, Side::Loop) => {
                let answer = Answer::default();
                answers(calls, kind, addresses, move |_| *black_box(&answer))
            }
            // The kernels of the plain walk.
            (_, Side::Ours) => answers(calls, kind, addresses, move |access| {
                boundary::walk(memory, black_box(regime), access)
            }),
            (_, Side::Plain) => answers(calls, kind, addresses, move |access| {
                plain::walk(plain_memory, black_box(regime), access)
            }),
        }
    }

    /// The same for a kernel of the harvest.
    fn harvest(&mut self, kernel: Harvest, side: Side, calls: u64) -> u64 {
        let Bed {
            regime,
            original,
            memory: [memory, plain_memory],
            maps: [map, plain_map],
            ..
        } = self;
        let (first, changes) = (kernel.first(), kernel.changes());
        match side {
            Side::Ours => harvests(calls, original, changes, memory, |memory| {
                boundary::harvest(memory, black_box(regime), first, PAGES_LIMIT, map)
            }),
            Side::Plain => harvests(calls, original, changes, plain_memory, |memory| {
                plain::harvest(memory, black_box(regime), first, PAGES_LIMIT, plain_map)
            }),
            Side::Loop => harvests(calls, original, changes, memory, |memory| {
                u8::from(black_box(memory).is_empty())
            }),
        }
    }
}

/// A walk a descriptor at a time. Its caller loads each descriptor from the
/// tables, in a few instructions that count on both sides alike.
#[inline(always)]
fn stepwise<S: Steps>(memory: &[u8], regime: &Regime, access: &Access) -> Answer {
    let mut walk = S::start(regime, access);
    while let Some(address) = walk.wanted() {
        let at = address.wrapping_sub(POOL_ADDRESS) as usize;
        match memory.get(at..).and_then(|rest| rest.first_chunk()) {
            Some(bytes) => walk.value(u64::from_le_bytes(*bytes)),
            None => walk.unreachable(),
        };
    }
    walk.end().0
}

/// The third descriptor on the way to the pages from 0x400000 on.
const LEVEL_2: u64 = 0x4000_3003;

/// A walk to such a page that wants that descriptor.
fn at_level_2<S: Steps>(regime: &Regime) -> S {
    let access = Access {
        address: 0x40_0abc,
        size: 4,
        el0: 1,
        kind: WRITE,
        spare: [0; 6],
    };
    let mut walk = S::start(regime, &access);
    walk.value(0x4000_1003);
    walk.value(0x4000_2003);
    walk
}

/// Calls with a copy of that walk, and the descriptor. The loop alone makes the
/// copy too, so that it is not counted.
fn offers<S: Steps>(calls: u64, regime: &Regime, call: impl Fn(&mut S, u64) -> u8) -> u64 {
    let walk = at_level_2(regime);
    codes(calls, move || {
        call(black_box(&mut { walk }), black_box(LEVEL_2))
    })
}

// Each loop is a function of its own for each call, so that its registers are
// not shared out among all of them.

/// The checksum takes in the output, the tag and the reads of each answer;
/// the other fields are compared in `check`, where no time is taken.
///
/// Each access is filled in right before its call, as a device would; its
/// spare bytes once.
///
/// Neither byte goes to the top of the sum: there the compiler would take it
/// out of a wider load, which would wait for the byte stores of the call.
#[inline(never)]
fn answers(
    calls: u64,
    kind: u8,
    addresses: &[u64; PERIOD],
    mut call: impl FnMut(&Access) -> Answer,
) -> u64 {
    let mut sum = 0u64;
    let mut access = Access {
        address: 0,
        size: 0,
        el0: 0,
        kind: 0,
        spare: [0; 6],
    };
    for i in 0..calls {
        access.address = addresses[i as usize % PERIOD];
        access.size = black_box(4);
        access.el0 = black_box(1);
        access.kind = black_box(kind);
        let answer = call(black_box(&access));
        let rest = u64::from(answer.tag) << 8 | u64::from(answer.reads);
        sum = sum.rotate_left(5) ^ answer.output ^ rest << 40;
    }
    sum
}

/// Calls with the offset of a descriptor: all of the memory's, scattered.
#[inline(never)]
fn offsets(calls: u64, mut call: impl FnMut(usize) -> u64) -> u64 {
    let mut sum = 0u64;
    for i in 0..calls {
        let at = black_box(i as usize * 5_167 % (MEMORY / 8) * 8);
        sum = sum.rotate_left(5) ^ call(at);
    }
    sum
}

#[inline(never)]
fn codes(calls: u64, mut call: impl FnMut() -> u8) -> u64 {
    let mut sum = 0u64;
    for _ in 0..calls {
        sum = sum.rotate_left(5) ^ u64::from(call());
    }
    sum
}

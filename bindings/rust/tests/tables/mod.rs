//! For the tests: four tables with one leaf in a pool, as the worked cases
//! have them (`docs/RULES.md`, 12); calls that are made in both byte orders;
//! and random numbers.

#![allow(dead_code)]

pub mod kind;

use std::fmt::Debug;

use vmsa::{
    Access, Answer, Fault, FaultKind, OutputSize, Pages, PhysAddr, Pool, Range, Refusal, Regime,
    Session, VirtAddr,
};

/// Physical address of the pool, and of its root.
pub const POOL: u64 = 0x4000_0000;

/// Bytes of the pool, and of the memory, which is the pool.
pub const LENGTH: usize = 65_536;

/// The fault where a level 3 table is past the pool, after three tables.
pub const EXTERNAL_ABORT: Fault = Fault {
    kind: FaultKind::ExternalAbort,
    level: 3,
    code: 23,
    cacheable: false,
    reads: 4,
};

/// Bits of a table descriptor: what is below it may not be written
/// (APTable[1]), not be accessed from EL0 (APTable[0]), not be fetched from EL0
/// (UXNTable), not be fetched from EL1 (PXNTable).
pub const NO_WRITE: u64 = 1 << 62;
pub const NO_EL0: u64 = 1 << 61;
pub const NO_EL0_FETCH: u64 = 1 << 60;
pub const NO_EL1_FETCH: u64 = 1 << 59;

/// Offsets of the three tables' descriptors, and what stands there.
pub const TABLES: [(usize, u64); 3] = [
    (0x0000, 0x4000_1003),
    (0x1000, 0x4000_2003),
    (0x2010, 0x4000_3003),
];

/// Offset of the leaf in the pool.
pub const LEAF: usize = 0x3018;

/// An address of the page that the leaf maps.
pub const ADDRESS: VirtAddr = VirtAddr(0x40_3abc);

/// The leaf: writable-clean, for EL0 too, its Access flag clear.
pub const CLEAN: u64 = 0x0008_0000_8000_53c3;

pub fn put(memory: &mut [u8], offset: usize, descriptor: u64) {
    put_in(false, memory, offset, descriptor);
}

/// Puts a descriptor in the byte order of EE.
pub fn put_in(ee: bool, memory: &mut [u8], offset: usize, descriptor: u64) {
    let bytes = if ee {
        descriptor.to_be_bytes()
    } else {
        descriptor.to_le_bytes()
    };
    memory[offset..offset + 8].copy_from_slice(&bytes);
}

pub fn get(memory: &[u8], offset: usize) -> u64 {
    u64::from_le_bytes(memory[offset..offset + 8].try_into().unwrap())
}

pub fn memory() -> Vec<u8> {
    under([0; 3])
}

/// The memory with bits of the three tables.
pub fn under(bits: [u64; 3]) -> Vec<u8> {
    let mut memory = vec![0; LENGTH];
    for ((offset, table), bits) in TABLES.into_iter().zip(bits) {
        put(&mut memory, offset, table | bits);
    }
    put(&mut memory, LEAF, CLEAN);
    memory
}

pub fn regime() -> Regime {
    Regime::new()
        .pool(Pool::new(0, LENGTH, PhysAddr(POOL)))
        .range0(Range::new(PhysAddr(POOL), 16))
        .output(OutputSize::Bits48)
        .ha(true)
        .hd(true)
        .attributes([0xff; 8])
}

pub fn read() -> Access {
    Access::read(ADDRESS, 4).el0()
}

pub fn write() -> Access {
    Access::write(ADDRESS, 4).el0()
}

/// The memory with every descriptor in the other byte order.
pub fn turned(memory: &[u8]) -> Vec<u8> {
    let mut turned = memory.to_vec();
    for page in turned.chunks_mut(4096) {
        // Most pages have one byte throughout, and stay as they are.
        if page[1..] != page[..page.len() - 1] {
            page.chunks_exact_mut(8).for_each(<[u8]>::reverse);
        }
    }
    turned
}

/// Makes a call over the memory, then the same over the descriptors in the
/// other byte order with EE turned: both answer alike, and leave the same.
fn in_both<T: Debug + PartialEq>(
    memory: &mut [u8],
    call: impl FnOnce(&mut [u8]) -> T,
    other: impl FnOnce(&mut [u8]) -> T,
) -> T {
    let mut other_memory = turned(memory);
    let given = call(memory);
    assert_eq!(other(&mut other_memory), given, "with EE turned");
    assert!(turned(&other_memory) == memory, "with EE turned");
    given
}

/// The walk, in both byte orders.
pub fn walk(memory: &mut [u8], regime: &Regime, access: &Access) -> Answer {
    let other = regime.ee(!regime.ee);
    in_both(
        memory,
        |memory| vmsa::walk(memory, regime, access),
        |memory| vmsa::walk(memory, &other, access),
    )
}

/// The harvest, in both byte orders, which leave the same map.
pub fn harvest(
    memory: &mut [u8],
    regime: &Regime,
    pages: Pages,
    map: &mut [u8],
) -> Result<(), Refusal> {
    let other = regime.ee(!regime.ee);
    let mut other_map = map.to_vec();
    let given = in_both(
        memory,
        |memory| vmsa::harvest(memory, regime, pages, map),
        |memory| vmsa::harvest(memory, &other, pages, &mut other_map),
    );
    assert!(map == other_map, "with EE turned");
    given
}

/// A session, and one of the other byte order beside it.
#[derive(Clone, Debug, PartialEq)]
pub struct Both(pub Session, Session);

impl Both {
    pub fn new() -> Self {
        Self(Session::new(), Session::new())
    }

    pub fn set_regime(&mut self, memory: &[u8], regime: &Regime) -> Result<(), Refusal> {
        let other = regime.ee(!regime.ee);
        in_both(
            &mut memory.to_vec(),
            |memory| self.0.set_regime(memory, regime),
            |memory| self.1.set_regime(memory, &other),
        )
    }

    pub fn access(&mut self, memory: &mut [u8], access: &Access) -> Answer {
        in_both(
            memory,
            |memory| self.0.access(memory, access),
            |memory| self.1.access(memory, access),
        )
    }

    pub fn store(
        &mut self,
        memory: &mut [u8],
        address: PhysAddr,
        descriptor: u64,
    ) -> Result<(), Refusal> {
        in_both(
            memory,
            |memory| self.0.store(memory, address, descriptor),
            |memory| self.1.store(memory, address, descriptor),
        )
    }

    pub fn invalidate_all(&mut self) {
        self.0.invalidate_all();
        self.1.invalidate_all();
    }

    pub fn harvest(
        &mut self,
        memory: &mut [u8],
        pages: Pages,
        map: &mut [u8],
    ) -> Result<(), Refusal> {
        let mut other_map = map.to_vec();
        let given = in_both(
            memory,
            |memory| self.0.harvest(memory, pages, map),
            |memory| self.1.harvest(memory, pages, &mut other_map),
        );
        assert!(map == other_map, "with EE turned");
        given
    }
}

/// xorshift64.
pub struct Random(pub u64);

impl Random {
    pub fn next(&mut self) -> u64 {
        self.0 ^= self.0 << 13;
        self.0 ^= self.0 >> 7;
        self.0 ^= self.0 << 17;
        self.0
    }

    pub fn below(&mut self, limit: u64) -> u64 {
        (self.next() >> 16) % limit
    }

    pub fn pick<T: Copy>(&mut self, from: &[T]) -> T {
        from[self.below(from.len() as u64) as usize]
    }
}

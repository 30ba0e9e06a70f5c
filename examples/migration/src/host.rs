//! The host's side: the lent memory with two table pools, and the guest's RAM.

use std::error::Error;

use vmsa::{PhysAddr, Pool, Range, Regime, Session, VirtAddr, POOL_LIMIT};

/// The guest's pool, as long as a pool can be.
pub const GUEST: Pool = Pool::new(0, POOL_LIMIT, physical(0));

/// The neighbour's pool, right behind it in memory and in physical addresses.
pub const NEIGHBOUR: Pool = Pool::new(POOL_LIMIT, POOL_LIMIT, physical(POOL_LIMIT));

/// The neighbour's root; its first table is the level 3 one.
pub const NEIGHBOUR_ROOT: PhysAddr = physical(NEIGHBOUR.start + 0x3000);

/// What the neighbour's first descriptor maps.
pub const NEIGHBOUR_RAM: PhysAddr = PhysAddr(0xc000_0000);

/// The guest's RAM.
pub const RAM: PhysAddr = PhysAddr(0x8000_0000);

/// Pages of RAM. The guest maps most of them from address 0x400000 on.
pub const PAGES: usize = 16;

/// A page that the guest maps read-only, and one that it does not map.
pub const READ_ONLY: usize = 12;
pub const UNMAPPED: usize = 13;

/// The page that the pool's last descriptor maps.
pub const LAST_PAGE: usize = PAGES - 1;

/// The address behind it: its table would be the neighbour's first.
pub const PAST_THE_POOL: VirtAddr = VirtAddr(4 << 21);

/// Offsets of the guest's level 3 tables; the second is the pool's last page.
const LEAF_TABLES: [usize; 2] = [0x3000, GUEST.length - 0x1000];

pub const AP2: u64 = 1 << 7;
pub const AF: u64 = 1 << 10;
pub const DBM: u64 = 1 << 51;

/// Inner Shareable, read-only unless DBM lets a write through.
const PAGE: u64 = AP2 | 3 << 8 | 3;

/// The guest, as the monitor sees it.
#[derive(Clone)]
pub struct Host {
    /// The memory lent to the library: the two pools.
    pub tables: Vec<u8>,
    /// The guest's pages.
    pub ram: Vec<u8>,
    /// The guest's session.
    pub session: Session,
}

/// The physical address of an offset of the lent memory.
const fn physical(offset: usize) -> PhysAddr {
    PhysAddr(0x4000_0000 + offset as u64)
}

/// The address that the guest has for a page of RAM.
pub fn page(page: usize) -> VirtAddr {
    match page {
        LAST_PAGE => VirtAddr(PAST_THE_POOL.0 - 0x1000),
        _ => VirtAddr((2 << 21) + ((page as u64) << 12)),
    }
}

/// The guest's regime.
pub fn regime() -> Regime {
    Regime::new()
        .pool(GUEST)
        .range0(Range::new(GUEST.address, 16))
        .ha(true)
        .hd(true)
        .attributes([0xff; 8])
}

impl Host {
    /// Every mapped page writable-clean, but for the one that is read-only.
    pub fn new() -> Result<Self, Box<dyn Error>> {
        let mut host = Self {
            tables: vec![0; GUEST.length + NEIGHBOUR.length],
            ram: (0..PAGES << 12).map(|i| (i % 251) as u8).collect(),
            session: Session::new(),
        };
        host.put_table(0x0000, 0x1000);
        host.put_table(0x1000, 0x2000);
        host.put_table(0x2010, LEAF_TABLES[0]); // from 0x400000 on
        host.put_table(0x2018, LEAF_TABLES[1]); // from 0x600000 on
        host.put_table(0x2020, NEIGHBOUR.start); // from 0x800000 on: past the pool
        for page in 0..LAST_PAGE {
            let leaf = match page {
                READ_ONLY => PAGE,
                UNMAPPED => 0,
                _ => PAGE | DBM,
            };
            host.put_leaf(LEAF_TABLES[0] + 8 * page, page, leaf);
        }
        host.put_leaf(GUEST.length - 8, LAST_PAGE, PAGE | DBM);

        // The neighbour's tables; its first descriptor is a writable-clean leaf.
        let first = NEIGHBOUR.start;
        host.put(first, NEIGHBOUR_RAM.0 | PAGE | DBM);
        host.put_table(first + 0x1000, first);
        host.put_table(first + 0x2000, first + 0x1000);
        host.put_table(first + 0x3000, first + 0x2000);

        // Where a number above is wrong, the check says which.
        regime().check(host.tables.len())?;
        host.session.set_regime(&host.tables, &regime())?;
        Ok(host)
    }

    /// The descriptor at an offset of the lent memory. This guest's tables are
    /// little-endian: its regime has EE off.
    pub fn descriptor(&self, offset: usize) -> u64 {
        let bytes = self.tables[offset..offset + 8].try_into();
        u64::from_le_bytes(bytes.expect("8 bytes"))
    }

    fn put(&mut self, offset: usize, descriptor: u64) {
        self.tables[offset..offset + 8].copy_from_slice(&descriptor.to_le_bytes());
    }

    /// At one offset, the descriptor of the table at another.
    fn put_table(&mut self, offset: usize, table: usize) {
        self.put(offset, physical(table).0 | 3);
    }

    fn put_leaf(&mut self, offset: usize, page: usize, leaf: u64) {
        if leaf != 0 {
            self.put(offset, leaf | (RAM.0 + ((page as u64) << 12)));
        }
    }
}

//! Random tables in a pool, regimes over them, and accesses.

use super::{put_in, regime, Random, POOL};
use vmsa::{Access, AccessKind, Granule, PhysAddr, Pool, Range, Regime, VirtAddr};

/// What random tables are like; most regimes over them are so too.
#[derive(Clone, Copy)]
pub struct Kind {
    pub ee: bool,
    pub granule: Granule,
}

impl Kind {
    /// By a number: most have 4 KiB.
    pub fn of(number: usize) -> Self {
        Self {
            ee: number % 2 == 1,
            granule: match number % 5 {
                3 => Granule::Kib16,
                4 => Granule::Kib64,
                _ => Granule::Kib4,
            },
        }
    }

    /// Bytes of a page.
    pub fn unit(self) -> u64 {
        self.granule.bytes()
    }

    /// Pages of the pool.
    pub fn pages(self) -> u64 {
        match self.granule {
            Granule::Kib4 => 16,
            Granule::Kib16 => 5,
            Granule::Kib64 => 2,
        }
    }

    /// Now and then past the pool.
    pub fn any_page(self, random: &mut Random) -> u64 {
        self.unit() * random.below(self.pages() + 1)
    }

    /// The byte order; one in 16 is the other.
    pub fn order(self, random: &mut Random) -> bool {
        self.ee != (random.below(16) == 0)
    }

    /// A descriptor that often leads somewhere: a table in the pool (a page at
    /// level 3), or a block, with any permissions. One in four has something in
    /// bits 63 to 59.
    pub fn descriptor(self, random: &mut Random) -> u64 {
        let table = match random.below(4) {
            0 => random.next() & 0xf800_0000_0000_0000,
            _ => 0,
        };
        let bits = table | random.next() & 0x0068_0000_0000_0ffc;
        match random.below(32) {
            0 => random.next(),
            1 => 0,
            2..=20 => (POOL + self.any_page(random)) | bits | 3,
            _ => 0x8000_0000 | random.below(0x10000) << 12 | bits | 1,
        }
    }

    /// A pool with a page before it and one behind it.
    pub fn memory(self, random: &mut Random) -> Vec<u8> {
        let pages = self.pages() + 2;
        let mut memory = vec![0; (self.unit() * pages) as usize];
        for slot in 0..32 {
            for page in 0..pages {
                let (ee, descriptor) = (self.order(random), self.descriptor(random));
                let offset = self.unit() * page + 8 * slot;
                put_in(ee, &mut memory, offset as usize, descriptor);
            }
        }
        memory
    }

    pub fn regime(self, random: &mut Random) -> Regime {
        let tsz = random.pick(&[16, 20, 25, 34, 36, 39, 15]);
        let root = POOL + self.unit() * random.below(self.pages());
        let range = Range::new(PhysAddr(root), tsz);
        let (start, length) = (self.unit(), self.unit() * self.pages());
        let pool = Pool::new(start as usize, length as usize, PhysAddr(POOL));
        let (ha, hd) = updates(random);
        let granule = match random.below(16) {
            0 => random.pick(&Granule::ALL),
            _ => self.granule,
        };
        regime()
            .pool(pool)
            .range0(range.hpd(random.below(4) == 0))
            .range1(range.hpd(random.below(4) == 0))
            .ha(ha)
            .hd(hd)
            .wxn(random.below(4) == 0)
            .ee(self.order(random))
            .granule(granule)
            .attribute(random.below(8) as usize, 0x04)
    }

    /// Indexes 0 to 2 at each level, mostly inside the regime's range.
    pub fn access(self, random: &mut Random, regime: Option<Regime>) -> Access {
        let bits = self.granule.page_bits();
        let mut low = random.below(self.unit());
        for level in 0..4 {
            low |= random.below(3) << (bits + level * (bits - 3)).min(47);
        }
        let bits = match regime {
            Some(regime) if random.below(8) != 0 => 64 - regime.range0.tsz,
            _ => 48,
        };
        let mask = (1 << bits) - 1;
        let top = random.pick(&[0, 0, 0, !mask]);
        let kind = random.pick(&AccessKind::ALL);
        let size = match kind {
            AccessKind::Fetch => 4,
            AccessKind::ProbeRead | AccessKind::ProbeWrite => 1,
            _ => 1 << random.below(5),
        };
        let address = (low & mask | top) & !(size - 1) | (random.below(16) / 15);
        let access = Access::new(kind, VirtAddr(address), size);
        match random.below(2) {
            0 => access.el0(),
            _ => access,
        }
    }
}

/// HA and HD; now and then HD alone, which is refused.
fn updates(random: &mut Random) -> (bool, bool) {
    let ha = random.below(4) != 0;
    let hd = if ha {
        random.below(4) != 0
    } else {
        random.below(16) == 0
    };
    (ha, hd)
}

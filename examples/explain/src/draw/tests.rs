//! Drawings of random walks.

use super::*;
use crate::reader::Tables;
use vmsa::{Access, Granule, OutputSize, PhysAddr, Regime, VirtAddr};

/// xorshift64.
struct Random(u64);

impl Random {
    fn next(&mut self) -> u64 {
        self.0 ^= self.0 << 13;
        self.0 ^= self.0 >> 7;
        self.0 ^= self.0 << 17;
        self.0
    }

    fn below(&mut self, limit: u64) -> u64 {
        (self.next() >> 16) % limit
    }

    fn pick<T: Copy>(&mut self, from: &[T]) -> T {
        from[self.below(from.len() as u64) as usize]
    }

    fn range(&mut self) -> Range {
        let root = self.next() & 0x3_ffff_0000;
        let tsz = self.pick(&[16, 17, 20, 25, 28, 34, 39, 39, 15]);
        let hpd = self.below(4) == 0;
        Range::new(PhysAddr(root), tsz).hpd(hpd)
    }

    fn regime(&mut self) -> Regime {
        let ha = self.below(4) != 0;
        let hd = self.below(4) != 0 && (ha || self.below(4) == 0);
        Regime::new()
            .range0(self.range())
            .range1(self.range())
            .output(self.pick(&OutputSize::ALL))
            .granule(self.pick(&Granule::ALL))
            .ha(ha)
            .hd(hd)
            .wxn(self.below(2) == 0)
            .attributes([0x04, 0xff, 0x26, 0x4c, 0x00, 0x08, 0x62, 0xbb])
    }

    fn access(&mut self) -> Access {
        let top = self.pick(&[0, 0, 0xffff_ffff_fe00_0000]);
        let address = VirtAddr(top | self.next() & 0x1ff_ffff);
        let size = self.pick(&[1, 1, 2, 4, 4, 16, 3]);
        let access = Access::new(self.pick(&AccessKind::ALL), address, size);
        match self.below(2) {
            0 => access.el0(),
            _ => access,
        }
    }

    /// Often a table or a page, or a block.
    fn descriptor(&mut self) -> u64 {
        let bits = self.next() & 0x786f_0003_ffff_fffc;
        match self.below(8) {
            0 => self.next(),
            1 => bits | 1,
            _ => bits | 3,
        }
    }

    /// Tables that have what the walk asks for, now and then not.
    fn tables(&mut self, regime: &Regime, access: &Access) -> Tables {
        let mut tables = Tables::default();
        let _ = StepwiseWalk::start(regime, access).run(|address| {
            let descriptor = self.descriptor();
            let reachable = self.below(16) != 0;
            reachable.then(|| {
                tables.put(address.0, descriptor);
                descriptor
            })
        });
        tables
    }
}

#[test]
fn random_walks() {
    let mut random = Random(0x9e37_79b9_7f4a_7c15);
    let mut met = [0; 9];
    for _ in 0..20_000 {
        let (regime, access) = (random.regime(), random.access());
        let drawn = draw(&Description {
            title: None,
            regime,
            access,
            tables: random.tables(&regime, &access),
        });
        for line in drawn.lines() {
            assert!(line.is_ascii() && line.len() <= 100, "{drawn}");
        }
        let of = [
            "answer     success",
            "answer     Address size",
            "answer     Translation",
            "answer     Access flag",
            "answer     Permission",
            "answer     Synchronous",
            "answer     Alignment",
            "answer     refused",
            "update     due",
        ];
        (0..9).for_each(|i| met[i] += u32::from(drawn.contains(of[i])));
    }
    assert_eq!(met[..8].iter().sum::<u32>(), 20_000);
    assert!(met.iter().all(|&count| count > 50), "{met:?}");
}

//! Both sides on random descriptors, tables, regimes and accesses, on any two
//! mistakes of a call, at the limits, on every size field of each granule, and
//! on every leaf under all that tables can take away: each whole answer and
//! each byte of memory is to be the same. What is walked is walked a descriptor
//! at a time too: each address that is named and each end is to be the same.
//! `harvest` does it for the harvest of dirty pages.

mod harvest;

use crate::boundary::{self, Access, Regime};
use crate::boundary::{FAULT, FETCH, KIB16, KIB4, KIB64, PROBE_READ, PROBE_WRITE, READ, REFUSED};
use crate::boundary::{SUCCESS, WRITE};
use crate::kernels::{self, LEAF_TABLES};
use crate::plain::{self, MEMORY_LIMIT, POOL_LIMIT};
use crate::steps::Steps;

const SCENES: u32 = 2_000;
const CALLS: u32 = 100;
const DESCRIPTORS: u32 = 50_000;
/// Walks a descriptor at a time, by any descriptors.
const OFFERED: u32 = 50_000;
/// For each size field of a granule.
const GRANULE_CALLS: u32 = 200;

/// xorshift64*, seeded once: every run makes the same calls.
struct Random {
    state: u64,
    /// The byte order of the tables in memory.
    ee: u8,
}

impl Random {
    fn next(&mut self) -> u64 {
        self.state ^= self.state >> 12;
        self.state ^= self.state << 25;
        self.state ^= self.state >> 27;
        self.state.wrapping_mul(0x2545_f491_4f6c_dd1d)
    }

    fn below(&mut self, limit: u64) -> u64 {
        (self.next() >> 16) % limit
    }

    fn rarely(&mut self) -> bool {
        self.below(16) == 0
    }

    /// Bytes that neither side is to look at.
    fn spare<const N: usize>(&mut self) -> [u8; N] {
        std::array::from_fn(|_| self.next() as u8)
    }

    fn regime(&mut self) -> Regime {
        let flags = self.next();
        let flag = |bit: u32| (flags >> bit & 1) as u8;
        let mut regime = kernels::regime(kernels::MEMORY);
        regime.spare = self.spare();
        regime.ha = flag(0);
        regime.hd = flag(0) & flag(1);
        regime.wxn = flag(2);
        regime.disabled1 = flag(3) & flag(4);
        regime.hpd0 = flag(5) & flag(6);
        regime.hpd1 = 2 * flag(7);
        regime.ee = 4 * self.ee;
        regime.granule = if self.rarely() {
            self.below(4) as u8
        } else {
            KIB4
        };
        if self.rarely() {
            regime.disabled0 = 2;
        }
        if self.below(2) == 0 {
            regime.attributes = 0xff00_4404_ff08_ff0c;
        }
        if self.below(4) == 0 {
            regime.output = self.below(7) as u8;
            regime.tsz0 = 15 + self.below(26) as u8;
            regime.tsz1 = 15 + self.below(26) as u8;
        }
        if self.rarely() {
            match self.below(8) {
                0 => regime.start = 4096,
                1 => regime.length = 0x8000,
                2 => regime.address = (1 << 48) - 0xf000,
                3 => regime.root0 += 8,
                4 => regime.root0 = 1 << 40,
                5 => regime.attributes = 0x10,
                6 => regime.ee = 1 - self.ee,
                _ => (regime.ha, regime.hd) = (0, 2),
            }
        }
        regime
    }

    fn access(&mut self) -> Access {
        let page = match self.below(8) {
            0 => 0x4_0000 + (self.below(8) << 9) + self.below(4),
            1 => self.below(4) << 9,
            2 => 0xf_ffff_0000_0400 + self.below(4),
            3 => self.next() >> 12,
            _ => 0x400 + self.below(2) * 64 + self.below(4),
        };
        let kind = self.below(8) as u8;
        let (size, step) = match kind {
            3 => (4, 4),
            4 | 5 => (1, 1),
            _ => (1 << self.below(5), 1),
        };
        let size = if self.rarely() { self.below(20) } else { size };
        let step = if self.rarely() { 1 } else { step };
        Access {
            address: (page << 12) + self.below(4096) / step * step,
            size,
            el0: self.below(3) as u8,
            kind,
            spare: self.spare(),
        }
    }

    /// A read or write of a page that `kernels::tables` maps under some granule
    /// and size field, or of any address.
    fn mapped(&mut self) -> Access {
        let way = self.below(2) << 47 | self.below(512) << (12 + 2 * self.below(3));
        let address = match self.below(4) {
            0 => self.next() >> self.below(64),
            _ => way + self.below(0x1_0000),
        };
        access(address, 1 << self.below(5), self.below(2) as u8)
    }

    /// The offset of a descriptor of the tables, most often of a leaf.
    fn place(&mut self) -> usize {
        match self.below(8) {
            0 => [0x0000, 0x1000, 0x1008, 0x2010][self.below(4) as usize],
            1 => 0x4000 + 8 * self.below(8) as usize,
            _ => 0x3000 + 8 * (self.below(2) * 64 + self.below(4)) as usize,
        }
    }

    /// The descriptor there, with random bits turned over, those of a table or
    /// those of a leaf.
    fn disturbed(&mut self, memory: &[u8], at: usize) -> u64 {
        let which: &[u32] = if at < 0x3000 {
            &[59, 60, 61, 62, 63]
        } else {
            &[2, 3, 6, 7, 10, 51, 53, 54]
        };
        let bits = 1 << self.below(64) | 1 << which[self.below(which.len() as u64) as usize];
        plain::load(memory, at, self.ee) ^ bits
    }

    fn disturb(&mut self, memory: &mut [u8]) {
        let at = self.place();
        let value = self.disturbed(memory, at);
        plain::store(memory, at, value, self.ee);
    }

    /// The address of a store, most often that of a descriptor at `at`.
    fn store_address(&mut self, regime: &Regime, at: usize) -> u64 {
        let end = regime.address.wrapping_add(regime.length as u64);
        match self.below(16) {
            0 => (regime.address + at as u64) ^ 1 << self.below(64),
            1 => end.wrapping_sub(self.below(3) * 8),
            2 => end.wrapping_sub(self.below(16)),
            3 => regime.address.wrapping_sub(self.below(16)),
            4 => self.next(),
            5 => u64::MAX - self.below(16),
            _ => regime.address + at as u64,
        }
    }

    /// What is offered to a walk: nothing, anything, a block, or most often a
    /// table or a page.
    fn offer(&mut self) -> Option<u64> {
        let value = self.next();
        match self.below(16) {
            0 => None,
            1 => Some(value),
            2 | 3 => Some(value & !2 | 1),
            _ => Some(value | 3),
        }
    }

    /// The offset of a load or a store in `length` bytes, also where it does
    /// not fit.
    fn offset(&mut self, length: usize) -> usize {
        match self.below(8) {
            0 => length.wrapping_sub(self.below(16) as usize),
            1 => length + self.below(16) as usize,
            2 => usize::MAX - self.below(16) as usize,
            3 => self.next() as usize,
            _ => self.below(length as u64 + 1) as usize,
        }
    }
}

/// Gives the number of random calls compared, and panics at the first
/// difference.
pub fn same_answers() -> u32 {
    let mut random = Random {
        state: 0x9e37_79b9_7f4a_7c15,
        ee: 0,
    };
    same_refusals();
    same_limits();
    same_under_tables(0);
    same_under_tables(1);
    same_descriptors(&mut random)
        + same_walks(&mut random)
        + same_granules(&mut random)
        + same_offers(&mut random)
        + harvest::same_harvests(&mut random)
}

/// Spoils a call, whatever else was changed.
type Mistake = fn(&mut Regime, &mut Access);

/// What a walk is refused with, in its order, and what brings it about.
const MISTAKES: [(u8, Mistake); 8] = [
    (1, |regime, _| regime.start = 4096),
    (2, |regime, _| regime.address += 8),
    (3, |regime, _| regime.tsz1 = 40),
    (4, |regime, _| regime.root1 = 1 << 48),
    (5, |regime, _| regime.attributes = 0x10),
    (13, |regime, _| regime.ha = 0),
    (6, |_, access| access.size = 32),
    (7, |_, access| access.address = 0x40_0fff),
];

/// An access from EL0.
fn access(address: u64, size: u64, kind: u8) -> Access {
    Access {
        address,
        size,
        el0: 1,
        kind,
        spare: [0; 6],
    }
}

/// Each mistake alone, and any two of them: the first counts.
fn same_refusals() {
    let (mut ours, mut plain) = (kernels::memory(), kernels::memory());
    for (first, (number, mistake)) in MISTAKES.into_iter().enumerate() {
        for (_, later) in &MISTAKES[first..] {
            let mut regime = kernels::regime(kernels::MEMORY);
            let mut access = access(0x40_0abc, 4, READ);
            later(&mut regime, &mut access);
            mistake(&mut regime, &mut access);

            let answer = boundary::walk(&mut ours, &regime, &access);
            assert_eq!((answer.tag, answer.refusal), (REFUSED, number));
            assert_eq!(answer, plain::walk(&mut plain, &regime, &access));
            same_steps(&regime, &access, |at| in_pool(&ours, &regime, at));
            let reply = boundary::Session::empty().set_regime(&ours, &regime);
            let plain_reply = plain::Session::empty().set_regime(&plain, &regime);
            assert_eq!(reply, plain_reply, "{number}");
        }
    }
    assert!(ours == plain, "other bytes after a refusal");
}

/// A memory and a pool of their limits, and more of each. The pool ends at the
/// memory's limit. A page whose leaf is the pool's last descriptor, and one
/// whose leaf would be just after it.
fn same_limits() {
    let end = LEAF_TABLES << 21;
    for (length, pool, tags) in [
        (MEMORY_LIMIT, POOL_LIMIT, [SUCCESS, FAULT]),
        (MEMORY_LIMIT + 1, POOL_LIMIT, [REFUSED; 2]),
        (MEMORY_LIMIT, POOL_LIMIT + 4096, [REFUSED; 2]),
    ] {
        let mut ours = vec![0; length];
        let mut regime = kernels::regime(pool);
        regime.start = MEMORY_LIMIT - pool;
        fill_to_the_end(&mut ours[regime.start..][..POOL_LIMIT]);
        let mut plain = ours.clone();
        for (address, tag) in [end - 1, end].into_iter().zip(tags) {
            let access = access(address, 1, WRITE);
            let answer = boundary::walk(&mut ours, &regime, &access);
            assert_eq!(answer.tag, tag, "{length} {pool}");
            assert_eq!(answer, plain::walk(&mut plain, &regime, &access));
        }
        assert!(ours == plain, "other bytes: {length} {pool}");
    }
}

/// The longest pool with a writable-clean leaf in its last 8 bytes, and with a
/// level 2 descriptor whose table would start at its end.
fn fill_to_the_end(pool: &mut [u8]) {
    pool.copy_from_slice(&kernels::long_memory());
    let end = kernels::POOL_ADDRESS + pool.len() as u64;
    kernels::put(pool, POOL_LIMIT - 8, 0x0008_0000_8000_03c3);
    kernels::put(pool, 0x2000 + 8 * LEAF_TABLES as usize, end + 3);
}

/// A memory and a session for each side, the tables in the byte order of `ee`.
struct Sides {
    ee: u8,
    memory: [Vec<u8>; 2],
    ours: boundary::Session,
    plain: plain::Session,
}

impl Sides {
    fn new(ee: u8) -> Sides {
        let memory = kernels::in_order(kernels::memory(), ee);
        Sides {
            ee,
            memory: [memory.clone(), memory],
            ours: boundary::Session::empty(),
            plain: plain::Session::empty(),
        }
    }

    fn put(&mut self, at: usize, value: u64) {
        for memory in &mut self.memory {
            plain::store(memory, at, value, self.ee);
        }
    }

    fn set_regime(&mut self, regime: &Regime) {
        assert_eq!(self.ours.set_regime(&self.memory[0], regime), 0);
        assert_eq!(self.plain.set_regime(&self.memory[1], regime), 0);
    }

    fn invalidate_all(&mut self) {
        self.ours.invalidate_all();
        self.plain.invalidate_all();
    }

    /// A walk, also a descriptor at a time, or an access in the session where
    /// no regime is given.
    fn ask(&mut self, regime: Option<&Regime>, access: &Access) {
        let [ours, plain] = &mut self.memory;
        if let Some(regime) = regime {
            same_steps(regime, access, |at| in_pool(ours, regime, at));
        }
        let answers = match regime {
            Some(regime) => [
                boundary::walk(ours, regime, access),
                plain::walk(plain, regime, access),
            ],
            None => [
                self.ours.access(ours, access),
                self.plain.access(plain, access),
            ],
        };
        assert_eq!(answers[0], answers[1], "{access:?}");
        assert_eq!(ours[LEAF..][..8], plain[LEAF..][..8], "{access:?}");
    }
}

/// Where the leaf of the page at 0x400000 lies.
const LEAF: usize = 0x3000;

/// The page under every sum of its tables' bits 62 to 59, in one of the three
/// tables or among them, the tables in one byte order.
fn same_under_tables(ee: u8) {
    let mut sides = Sides::new(ee);
    for sum in 0..16 {
        let among = [sum & 0b1010, sum & 0b0110, sum & 0b0101];
        for [first, second, third] in [[sum, 0, 0], [0, sum, 0], [0, 0, sum], among] {
            sides.put(0x0000, 0x4000_1003 | first << 59);
            sides.put(0x1000, 0x4000_2003 | second << 59);
            sides.put(0x2010, 0x4000_3003 | third << 59);
            same_leaves(&mut sides);
        }
    }
    assert!(sides.memory[0] == sides.memory[1], "other bytes");
}

/// Every combination of the leaf's AP[1], AP[2], DBM, PXN and UXN, and of WXN,
/// HPD0 and HPD1.
fn same_leaves(sides: &mut Sides) {
    for bits in 0..32 {
        let leaf = 0x8000_0703 | (bits & 3) << 6 | (bits >> 2 & 1) << 51 | bits >> 3 << 53;
        for flags in 0..8 {
            let mut regime = kernels::regime(kernels::MEMORY);
            regime.wxn = flags & 1;
            regime.hpd0 = flags & 2;
            regime.hpd1 = flags & 4;
            regime.ee = sides.ee;
            sides.set_regime(&regime);
            same_rights(sides, &regime, leaf);
        }
    }
}

/// Each kind of access, from each level and in each range: by a walk, by a miss
/// in the session and by the hit after it.
fn same_rights(sides: &mut Sides, regime: &Regime, leaf: u64) {
    for kind in [READ, WRITE, FETCH, PROBE_READ, PROBE_WRITE] {
        let size = if kind < PROBE_READ { 4 } else { 1 };
        for (el0, range) in [(0, 0), (1, 0), (0, 0xffff << 48), (1, 0xffff << 48)] {
            let mut access = access(range | 0x40_0abc, size, kind);
            access.el0 = el0;
            sides.put(LEAF, leaf);
            sides.ask(Some(regime), &access);
            sides.put(LEAF, leaf);
            sides.invalidate_all();
            sides.ask(None, &access);
            sides.ask(None, &access);
        }
    }
}

/// Tables of each granule, also by a number that names none, under every size
/// field: a walk and an access of a page that they map, or of any address.
fn same_granules(random: &mut Random) -> u32 {
    let mut calls = 0;
    for granule in [KIB4, KIB16, KIB64, 3, u8::MAX] {
        for tsz in 16..=39 {
            let memory = kernels::tables(granule);
            let regime = Regime {
                tsz0: tsz,
                tsz1: tsz,
                granule,
                ..kernels::regime(memory.len())
            };
            let mut sides = Sides {
                memory: [memory.clone(), memory],
                ..Sides::new(0)
            };
            sides.set_regime(&regime);
            for _ in 0..GRANULE_CALLS {
                let access = random.mapped();
                sides.ask(Some(&regime), &access);
                sides.ask(None, &access);
                calls += 3;
            }
            assert!(sides.memory[0] == sides.memory[1], "other bytes: {granule}");
        }
    }
    calls
}

/// Walks a descriptor at a time by what `read` gives, and no descriptor where it
/// gives none: the same addresses are named and the same end is reached, which
/// stays as it is.
fn same_steps(regime: &Regime, access: &Access, mut read: impl FnMut(u64) -> Option<u64>) {
    let mut ours = boundary::Stepwise::start(regime, access);
    let mut plain = plain::Stepwise::start(regime, access);
    while let Some(address) = ours.wanted() {
        assert_eq!(Some(address), plain.wanted(), "{access:?}");
        let replies = match read(address) {
            Some(value) => [ours.value(value), plain.value(value)],
            None => [ours.unreachable(), plain.unreachable()],
        };
        assert_eq!(replies, [0, 0], "{access:?}");
    }
    let end = ours.end();
    assert_eq!(plain.wanted(), None, "{access:?}");
    assert_eq!(end, plain.end(), "{access:?}");
    assert_eq!([ours.value(3), ours.unreachable()], [12, 12]);
    assert_eq!([plain.value(3), plain.unreachable()], [12, 12]);
    assert_eq!([ours.end(), plain.end()], [end, end]);
}

/// The descriptor at an address in the pool, or none.
fn in_pool(memory: &[u8], regime: &Regime, address: u64) -> Option<u64> {
    let pool = memory.get(regime.start..)?.get(..regime.length)?;
    let offset = address.checked_sub(regime.address)? as usize;
    pool.get(offset..)?.get(..8)?;
    Some(plain::load(pool, offset, regime.ee))
}

/// Walks a descriptor at a time by any descriptors.
fn same_offers(random: &mut Random) -> u32 {
    for _ in 0..OFFERED {
        let (regime, access) = (random.regime(), random.access());
        same_steps(&regime, &access, |_| random.offer());
    }
    OFFERED
}

/// Loads and stores, half of them in fewer than 16 bytes.
fn same_descriptors(random: &mut Random) -> u32 {
    let (mut ours, mut plain) = (kernels::memory(), kernels::memory());
    for _ in 0..DESCRIPTORS {
        let most = [16, ours.len() as u64 + 1][random.below(2) as usize];
        let length = random.below(most) as usize;

        let (at, ee) = (random.offset(length), random.below(3) as u8);
        let value = boundary::load(&ours[..length], at, ee);
        assert_eq!(
            value,
            plain::load(&plain[..length], at, ee),
            "{at} of {length}"
        );

        let (at, value) = (random.offset(length), random.next());
        boundary::store(&mut ours[..length], at, value, ee);
        plain::store(&mut plain[..length], at, value, ee);
        assert!(ours == plain, "other bytes after {at} of {length}");
    }
    2 * DESCRIPTORS
}

fn same_walks(random: &mut Random) -> u32 {
    for _ in 0..SCENES {
        random.ee = random.below(2) as u8;
        let mut ours = kernels::in_order(kernels::memory(), random.ee);
        for _ in 0..random.below(12) {
            random.disturb(&mut ours);
        }
        let mut plain = ours.clone();
        let mut regime = random.regime();
        let mut our_session = boundary::Session::empty();
        let mut plain_session = plain::Session::empty();
        // Some scenes are left to start without a regime.
        if !random.rarely() {
            let refusal = our_session.set_regime(&ours, &regime);
            assert_eq!(refusal, plain_session.set_regime(&plain, &regime));
        }
        for _ in 0..CALLS {
            match random.below(64) {
                0 => {
                    our_session.invalidate_all();
                    plain_session.invalidate_all();
                }
                1..=3 => regime = random.regime(),
                4..=5 => {
                    let refusal = our_session.set_regime(&ours, &regime);
                    assert_eq!(refusal, plain_session.set_regime(&plain, &regime));
                }
                6..=9 => {
                    random.disturb(&mut ours);
                    plain.copy_from_slice(&ours);
                }
                10..=17 => {
                    // Now and then in a shorter memory.
                    let most = [1, 4097][usize::from(random.rarely())];
                    let length = ours.len() - random.below(most) as usize;
                    let at = random.place();
                    let address = random.store_address(&regime, at);
                    let value = random.disturbed(&ours, at);
                    assert_eq!(
                        our_session.store(&mut ours[..length], address, value),
                        plain_session.store(&mut plain[..length], address, value),
                        "{address:#x} of {length}"
                    );
                }
                _ => {}
            }
            let access = random.access();
            same_steps(&regime, &access, |at| in_pool(&ours, &regime, at));
            if random.below(4) == 0 {
                let answer = boundary::walk(&mut ours, &regime, &access);
                assert_eq!(
                    answer,
                    plain::walk(&mut plain, &regime, &access),
                    "{access:?}"
                );
            } else {
                let answer = our_session.access(&mut ours, &access);
                assert_eq!(
                    answer,
                    plain_session.access(&mut plain, &access),
                    "{access:?}"
                );
            }
            assert!(ours == plain, "other bytes after {access:?}");
        }
    }
    2 * SCENES * CALLS
}

//! The translation regime, built up setting by setting.

use crate::{check, ffi, Granule, PhysAddr, Problem};

/// The table pool: its part of the lent memory, and the physical address of
/// its first byte.
///
/// A descriptor at physical address `a` lies at offset
/// `start + (a - address)` of the memory.
#[derive(Clone, Copy, Debug, Default, PartialEq, Eq, Hash)]
pub struct Pool {
    /// Offset of the pool in the memory, a multiple of the granule.
    pub start: usize,
    /// Bytes of the pool: a multiple of the granule, at most
    /// [`crate::POOL_LIMIT`].
    pub length: usize,
    /// Physical address of the first byte, a multiple of the granule.
    pub address: PhysAddr,
}

impl Pool {
    /// A pool of `length` bytes from offset `start`.
    pub const fn new(start: usize, length: usize, address: PhysAddr) -> Self {
        Self {
            start,
            length,
            address,
        }
    }
}

/// One of the two ranges of guest addresses: what TTBR*n*_EL1, T*n*SZ, EPD*n*
/// and HPD*n* say of it.
#[derive(Clone, Copy, Debug, PartialEq, Eq, Hash)]
#[must_use = "a setting hands the range back"]
pub struct Range {
    /// The root table: a multiple of the granule.
    pub root: PhysAddr,
    /// The size field T, 16 to 39: addresses have `64 - tsz` bits.
    pub tsz: u8,
    /// Whether every address of the range is a Translation fault.
    pub disabled: bool,
    /// Whether bits 62 to 59 of the range's tables do not count; see
    /// [`hpd`](Self::hpd()).
    pub hpd: bool,
}

impl Range {
    /// A range that is not disabled, with HPD off.
    pub const fn new(root: PhysAddr, tsz: u8) -> Self {
        Self {
            root,
            tsz,
            disabled: false,
            hpd: false,
        }
    }

    /// A disabled range. Its root and T are valid, for they are checked too.
    pub const DISABLED: Self = Self {
        root: PhysAddr(0),
        tsz: 16,
        disabled: true,
        hpd: false,
    };

    /// Whether what the range's tables take away from all below them does not
    /// count (TCR_EL1.HPD0, HPD1).
    ///
    /// Below a table descriptor with bit 62 (APTable\[1\]) nothing may be
    /// written, and so nothing is marked dirty; with bit 61 (APTable\[0\])
    /// AP\[1\] counts as 0, with bit 60 (UXNTable) UXN as 1, with bit 59
    /// (PXNTable) PXN as 1. Each counts where any table on the way has it.
    ///
    /// ```
    /// use vmsa::{walk, Access, FaultKind, PhysAddr, Pool, Range, Regime, Stop, VirtAddr};
    ///
    /// // A table with bit 62, and a writable-clean block of 2 MiB below it.
    /// let mut memory = vec![0; 0x2000];
    /// memory[..8].copy_from_slice(&0x4000_0000_4000_1003_u64.to_le_bytes());
    /// memory[0x1000..0x1008].copy_from_slice(&0x0008_0000_8020_0781_u64.to_le_bytes());
    ///
    /// let root = PhysAddr(0x4000_0000);
    /// let range = Range::new(root, 25);
    /// let regime = Regime::new()
    ///     .pool(Pool::new(0, 0x2000, root))
    ///     .range0(range)
    ///     .ha(true)
    ///     .hd(true)
    ///     .attributes([0xff; 8]);
    ///
    /// let write = Access::write(VirtAddr(0x1_2340), 8);
    /// let stop = walk(&mut memory, &regime, &write).unwrap_err();
    /// assert_eq!(stop.fault().unwrap().kind, FaultKind::Permission);
    ///
    /// let found = walk(&mut memory, &regime.range0(range.hpd(true)), &write)?;
    /// assert_eq!(found.output, PhysAddr(0x8021_2340));
    /// assert!(found.dirtied);
    /// # Ok::<(), Stop>(())
    /// ```
    pub const fn hpd(mut self, hpd: bool) -> Self {
        self.hpd = hpd;
        self
    }
}

/// How many bits an output address may have, by the codes of TCR_EL1.IPS.
#[derive(Clone, Copy, Debug, PartialEq, Eq, PartialOrd, Ord, Hash)]
pub enum OutputSize {
    /// 32 bits, code 0.
    Bits32,
    /// 36 bits, code 1.
    Bits36,
    /// 40 bits, code 2.
    Bits40,
    /// 42 bits, code 3.
    Bits42,
    /// 44 bits, code 4.
    Bits44,
    /// 48 bits, code 5.
    Bits48,
}

impl OutputSize {
    /// Every size, in the order of the codes.
    pub const ALL: [Self; 6] = [
        Self::Bits32,
        Self::Bits36,
        Self::Bits40,
        Self::Bits42,
        Self::Bits44,
        Self::Bits48,
    ];

    /// The size of a code, or `None` above 5.
    ///
    /// ```
    /// use vmsa::OutputSize;
    ///
    /// let tcr: u64 = 0x0000_0002_0010_0010;
    /// let ips = (tcr >> 32 & 7) as u8;
    /// assert_eq!(OutputSize::from_code(ips), Some(OutputSize::Bits40));
    /// assert_eq!(OutputSize::from_code(6), None);
    /// ```
    pub const fn from_code(code: u8) -> Option<Self> {
        match code {
            0 => Some(Self::Bits32),
            1 => Some(Self::Bits36),
            2 => Some(Self::Bits40),
            3 => Some(Self::Bits42),
            4 => Some(Self::Bits44),
            5 => Some(Self::Bits48),
            _ => None,
        }
    }

    /// The code, 0 to 5.
    pub const fn code(self) -> u8 {
        self as u8
    }

    /// The count of bits.
    pub const fn bits(self) -> u32 {
        match self {
            Self::Bits32 => 32,
            Self::Bits36 => 36,
            Self::Bits40 => 40,
            Self::Bits42 => 42,
            Self::Bits44 => 44,
            Self::Bits48 => 48,
        }
    }
}

/// A translation regime: stage 1 of EL1&0.
///
/// Each setting takes the regime and hands it back with one thing changed. A
/// session keeps the regime that it was given: when the guest changes a
/// register that a setting stands for, [set the
/// regime](crate::Session::set_regime) again.
///
/// ```
/// use vmsa::{OutputSize, PhysAddr, Pool, Range, Regime};
///
/// let mair: u64 = 0xff04;
/// let regime = Regime::new()
///     .pool(Pool::new(0, 0x4000, PhysAddr(0x4000_0000)))
///     .range0(Range::new(PhysAddr(0x4000_0000), 25))
///     .output(OutputSize::Bits40)
///     .ha(true)
///     .attributes(mair.to_le_bytes());
/// assert_eq!(regime.attributes[1], 0xff);
/// assert!(regime.range1.disabled);
///
/// let other = regime.attribute(2, 0x44);
/// assert_eq!(other.attributes, [0x04, 0xff, 0x44, 0, 0, 0, 0, 0]);
/// ```
#[derive(Clone, Copy, Debug, PartialEq, Eq, Hash)]
#[must_use = "a setting hands the regime back"]
pub struct Regime {
    /// The table pool; a stepwise walk needs none.
    pub pool: Pool,
    /// The range of addresses whose bit 55 is 0.
    pub range0: Range,
    /// The range of addresses whose bit 55 is 1.
    pub range1: Range,
    /// The bits of an output address.
    pub output: OutputSize,
    /// Whether walks set the Access flag.
    pub ha: bool,
    /// Whether walks mark pages dirty. This needs `ha`: without it the regime
    /// is refused with [`Refusal::DirtyState`](crate::Refusal::DirtyState).
    pub hd: bool,
    /// Whether writable pages are execute-never.
    pub wxn: bool,
    /// Whether descriptors are big-endian; see [`ee`](Self::ee()).
    pub ee: bool,
    /// The bytes of a page and of a table; see [`granule`](Self::granule()).
    pub granule: Granule,
    /// The bytes of MAIR_EL1, the lowest first.
    pub attributes: [u8; 8],
}

impl Regime {
    /// No pool yet, both ranges disabled and HPD off, 48 bits of output, no
    /// updates, little-endian descriptors, a granule of 4 KiB, and Device memory
    /// only.
    pub const fn new() -> Self {
        Self {
            pool: Pool::new(0, 0, PhysAddr(0)),
            range0: Range::DISABLED,
            range1: Range::DISABLED,
            output: OutputSize::Bits48,
            ha: false,
            hd: false,
            wxn: false,
            ee: false,
            granule: Granule::Kib4,
            attributes: [0; 8],
        }
    }

    /// Sets the table pool, which has no say in a
    /// [`StepwiseWalk`](crate::StepwiseWalk).
    pub const fn pool(mut self, pool: Pool) -> Self {
        self.pool = pool;
        self
    }

    /// Sets the range of addresses whose bit 55 is 0.
    pub const fn range0(mut self, range: Range) -> Self {
        self.range0 = range;
        self
    }

    /// Sets the range of addresses whose bit 55 is 1.
    pub const fn range1(mut self, range: Range) -> Self {
        self.range1 = range;
        self
    }

    /// Sets the bits of an output address.
    pub const fn output(mut self, output: OutputSize) -> Self {
        self.output = output;
        self
    }

    /// Switches the update of the Access flag.
    pub const fn ha(mut self, ha: bool) -> Self {
        self.ha = ha;
        self
    }

    /// Switches the marking of dirty pages, which needs [`ha`](Self::ha).
    ///
    /// ```
    /// use vmsa::{PhysAddr, Pool, Problem, Regime};
    ///
    /// let pool = Pool::new(0, 0x1000, PhysAddr(0x4000_0000));
    /// let regime = Regime::new().pool(pool).hd(true);
    /// let problem = regime.check(0x1000).unwrap_err();
    /// assert_eq!(problem, Problem::HdWithoutHa);
    /// assert_eq!(
    ///     problem.to_string(),
    ///     "refused with 13: HD is on and HA, which it needs, is off",
    /// );
    /// assert_eq!(regime.ha(true).check(0x1000), Ok(()));
    /// ```
    pub const fn hd(mut self, hd: bool) -> Self {
        self.hd = hd;
        self
    }

    /// Switches execute-never for writable pages.
    pub const fn wxn(mut self, wxn: bool) -> Self {
        self.wxn = wxn;
        self
    }

    /// Whether the 8 bytes of each descriptor are big-endian (SCTLR_EL1.EE);
    /// they are little-endian otherwise.
    ///
    /// It holds for the tables of both ranges: for what a walk reads, for the
    /// marks that it makes, and for the bytes that a
    /// [`store`](crate::Session::store) and a [`harvest`](crate::harvest())
    /// write. What a monitor reads of the tables itself is in this order too.
    /// It has no say in a device's data, nor in the leaves that a session holds
    /// and the values that a [`StepwiseWalk`](crate::StepwiseWalk) is offered:
    /// they are numbers.
    ///
    /// ```
    /// use vmsa::{walk, Access, FaultKind, PhysAddr, Pool, Range, Regime, Stop, VirtAddr};
    ///
    /// // A big-endian table with a writable-clean block of 2 MiB.
    /// let mut memory = vec![0; 0x1000];
    /// memory[..8].copy_from_slice(&0x0008_0000_8020_0381_u64.to_be_bytes());
    ///
    /// let root = PhysAddr(0x4000_0000);
    /// let sctlr: u64 = 1 << 25;
    /// let regime = Regime::new()
    ///     .pool(Pool::new(0, 0x1000, root))
    ///     .range0(Range::new(root, 39))
    ///     .ha(true)
    ///     .hd(true)
    ///     .ee(sctlr >> 25 & 1 == 1)
    ///     .attributes([0xff; 8]);
    ///
    /// let write = Access::write(VirtAddr(0x1_2340), 8);
    /// let found = walk(&mut memory, &regime, &write)?;
    /// assert_eq!(found.output, PhysAddr(0x8021_2340));
    /// assert!(found.accessed && found.dirtied);
    /// assert_eq!(memory[..8], [0x00, 0x08, 0x00, 0x00, 0x80, 0x20, 0x07, 0x01]);
    ///
    /// // Read as little-endian, the same bytes are no valid descriptor.
    /// let stop = walk(&mut memory, &regime.ee(false), &write).unwrap_err();
    /// assert_eq!(stop.fault().unwrap().kind, FaultKind::Translation);
    /// # Ok::<(), Stop>(())
    /// ```
    pub const fn ee(mut self, ee: bool) -> Self {
        self.ee = ee;
        self
    }

    /// Sets the granule, which is that of both ranges (TCR_EL1.TG0, TG1).
    ///
    /// The levels and their index bits go by it ([`Granule`]), and so does
    /// whatever goes by pages: the pool and the roots are multiples of it, an
    /// access lies in one page of it, and a session holds pages of it.
    ///
    /// ```
    /// use vmsa::{walk, Access, Granule, PhysAddr, Pool, Range, Refusal, Regime, Stop, VirtAddr};
    ///
    /// // A table of level 3 whose second entry maps a page of 64 KiB.
    /// let mut memory = vec![0; 0x1_0000];
    /// memory[8..16].copy_from_slice(&0x8001_0703_u64.to_le_bytes());
    ///
    /// let root = PhysAddr(0x4000_0000);
    /// let regime = Regime::new()
    ///     .pool(Pool::new(0, 0x1_0000, root))
    ///     .range0(Range::new(root, 39))
    ///     .granule(Granule::Kib64)
    ///     .attributes([0xff; 8]);
    ///
    /// // It passes a multiple of 4,096, and stays in its page.
    /// let read = Access::read(VirtAddr(0x1_2ffc), 8);
    /// let found = walk(&mut memory, &regime, &read)?;
    /// assert_eq!(found.output, PhysAddr(0x8001_2ffc));
    /// assert_eq!((found.level, found.reads), (3, 1));
    ///
    /// let refused = walk(&mut memory, &regime.granule(Granule::Kib4), &read);
    /// assert_eq!(refused, Err(Stop::Refused(Refusal::PageCrossing)));
    /// # Ok::<(), Stop>(())
    /// ```
    pub const fn granule(mut self, granule: Granule) -> Self {
        self.granule = granule;
        self
    }

    /// Sets every attribute byte.
    pub const fn attributes(mut self, attributes: [u8; 8]) -> Self {
        self.attributes = attributes;
        self
    }

    /// Sets attribute byte `index`.
    ///
    /// # Panics
    ///
    /// Where `index` is above 7.
    pub const fn attribute(mut self, index: usize, byte: u8) -> Self {
        self.attributes[index] = byte;
        self
    }

    /// Says in words why [`set_regime`](crate::Session::set_regime) and
    /// [`walk`](crate::walk()) would refuse the regime over a memory of so
    /// many bytes.
    ///
    /// The memory itself is not needed, so a monitor can check its numbers
    /// before it has one. No call needs this check: the library decides, and
    /// makes its own, proved ones.
    ///
    /// # Errors
    ///
    /// The first cause that applies; [`Problem`] has the order.
    ///
    /// ```
    /// use vmsa::{PhysAddr, Pool, Range, Regime, Session};
    ///
    /// # let memory = [0; 0x1000];
    /// let regime = Regime::new()
    ///     .pool(Pool::new(0, 0x1000, PhysAddr(0x4000_0000)))
    ///     .range0(Range::new(PhysAddr(0x4000_0008), 25));
    ///
    /// let problem = regime.check(memory.len()).unwrap_err();
    /// assert_eq!(
    ///     problem.to_string(),
    ///     "refused with 4: the root of range 0, 0x40000008, is no multiple of 4096",
    /// );
    /// let refused = Session::new().set_regime(&memory, &regime);
    /// assert_eq!(refused, Err(problem.refusal()));
    /// ```
    pub fn check(&self, memory_length: usize) -> Result<(), Problem> {
        check::of_regime(self, memory_length)
    }

    /// Says in words why [`StepwiseWalk::start`](crate::StepwiseWalk::start)
    /// would refuse the regime: as [`check`](Self::check) does, but for the
    /// memory and the pool.
    ///
    /// # Errors
    ///
    /// The first cause that applies; [`Problem`] has the order.
    ///
    /// ```
    /// use vmsa::{PhysAddr, Problem, Range, Regime};
    ///
    /// let regime = Regime::new().range0(Range::new(PhysAddr(0x4000_0000), 25));
    /// assert_eq!(regime.check_stepwise(), Ok(()));
    /// assert_eq!(regime.hd(true).check_stepwise(), Err(Problem::HdWithoutHa));
    /// ```
    pub fn check_stepwise(&self) -> Result<(), Problem> {
        check::of_start(self)
    }
}

impl Default for Regime {
    fn default() -> Self {
        Self::new()
    }
}

impl From<&Regime> for ffi::Regime {
    fn from(regime: &Regime) -> Self {
        Self {
            start: regime.pool.start,
            length: regime.pool.length,
            address: regime.pool.address.0,
            root0: regime.range0.root.0,
            root1: regime.range1.root.0,
            attributes: u64::from_le_bytes(regime.attributes),
            tsz0: regime.range0.tsz,
            tsz1: regime.range1.tsz,
            disabled0: regime.range0.disabled.into(),
            disabled1: regime.range1.disabled.into(),
            output: regime.output.code(),
            ha: regime.ha.into(),
            hd: regime.hd.into(),
            wxn: regime.wxn.into(),
            hpd0: regime.range0.hpd.into(),
            hpd1: regime.range1.hpd.into(),
            ee: regime.ee.into(),
            granule: regime.granule.tg0(),
            spare: [0; 4],
        }
    }
}

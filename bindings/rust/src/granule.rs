//! The granule of the translation tables.

/// The granule: how many bytes a page has, and a table.
///
/// A regime has one for both ranges. The guest names it twice, by other
/// numbers: TCR_EL1.TG0 for range 0, TG1 for range 1. A guest in which the two
/// name different granules, with neither range disabled, must not be used.
///
/// ```
/// use vmsa::Granule;
///
/// let tcr: u64 = 0x0000_0002_c010_4010;
/// let granule = Granule::from_tg0((tcr >> 14 & 3) as u8);
/// assert_eq!(granule, Some(Granule::Kib64));
/// assert_eq!(granule, Granule::from_tg1((tcr >> 30 & 3) as u8));
/// ```
///
/// The index bits of the levels, and the blocks, follow from it:
///
/// | Granule | Level 0 | Level 1 | Level 2 | Level 3 | Blocks |
/// |---|---|---|---|---|---|
/// | 4 KiB | 47..39 | 38..30 | 29..21 | 20..12 | 1 GiB at level 1, 2 MiB at level 2 |
/// | 16 KiB | 47 | 46..36 | 35..25 | 24..14 | 32 MiB at level 2 |
/// | 64 KiB | none | 47..42 | 41..29 | 28..16 | 512 MiB at level 2 |
#[derive(Clone, Copy, Debug, Default, PartialEq, Eq, PartialOrd, Ord, Hash)]
pub enum Granule {
    /// 4 KiB.
    #[default]
    Kib4,
    /// 16 KiB.
    Kib16,
    /// 64 KiB.
    Kib64,
}

impl Granule {
    /// Every granule, the smallest first.
    pub const ALL: [Self; 3] = [Self::Kib4, Self::Kib16, Self::Kib64];

    /// The granule of a value of TCR_EL1.TG0, or `None` where it is reserved.
    pub const fn from_tg0(tg0: u8) -> Option<Self> {
        match tg0 {
            0 => Some(Self::Kib4),
            1 => Some(Self::Kib64),
            2 => Some(Self::Kib16),
            _ => None,
        }
    }

    /// The granule of a value of TCR_EL1.TG1, or `None` where it is reserved.
    pub const fn from_tg1(tg1: u8) -> Option<Self> {
        match tg1 {
            1 => Some(Self::Kib16),
            2 => Some(Self::Kib4),
            3 => Some(Self::Kib64),
            _ => None,
        }
    }

    /// Its value in TCR_EL1.TG0.
    pub const fn tg0(self) -> u8 {
        match self {
            Self::Kib4 => 0,
            Self::Kib16 => 2,
            Self::Kib64 => 1,
        }
    }

    /// How many bits of an address lie in a page.
    pub const fn page_bits(self) -> u32 {
        match self {
            Self::Kib4 => 12,
            Self::Kib16 => 14,
            Self::Kib64 => 16,
        }
    }

    /// The bytes of a page, and of a table.
    ///
    /// ```
    /// use vmsa::Granule;
    ///
    /// assert_eq!(Granule::ALL.map(Granule::bytes), [4096, 16_384, 65_536]);
    /// ```
    pub const fn bytes(self) -> u64 {
        1 << self.page_bits()
    }
}

//! Refusals in words: what a regime, an access or a harvest is refused for.

use std::error::Error;
use std::fmt;

use crate::check::end;
use crate::{
    Granule, Pages, PhysAddr, Refusal, VirtAddr, VirtPage, HARVEST_LIMIT, MEMORY_LIMIT, POOL_LIMIT,
};

/// One cause of a refusal, with the value at fault.
///
/// [`Regime::check`](crate::Regime::check),
/// [`Regime::check_stepwise`](crate::Regime::check_stepwise),
/// [`Access::check`](crate::Access::check) and
/// [`Pages::check`](crate::Pages::check) find it, and its words name the
/// value and the limit. They stand beside the library, which decides: they are
/// not proved, but tested to find a problem exactly where the library refuses,
/// with the same number. Of several refusals they take the first, in the order
/// that [`Refusal`] has, and of its causes the first in the order of
/// `docs/RULES.md`, 5.1; of the two ranges, range 0 comes first. Later versions
/// add causes, so a match needs a wildcard arm.
///
/// ```
/// use vmsa::{PhysAddr, Pool, Problem, Refusal, Regime, POOL_LIMIT};
///
/// let length = POOL_LIMIT + 4096;
/// let regime = Regime::new().pool(Pool::new(0, length, PhysAddr(0x4000_0000)));
/// let problem = regime.check(length).unwrap_err();
/// assert_eq!(problem, Problem::PoolTooLong { length });
/// assert_eq!(problem.refusal(), Refusal::MemoryPool);
/// assert_eq!(
///     problem.to_string(),
///     format!("refused with 1: the pool's length, {length}, is above its limit, {POOL_LIMIT}"),
/// );
/// ```
#[derive(Clone, Copy, Debug, PartialEq, Eq, Hash)]
#[non_exhaustive]
pub enum Problem {
    /// The memory has more than [`MEMORY_LIMIT`] bytes.
    MemoryTooLong {
        /// Bytes of the memory.
        length: usize,
    },
    /// The pool's start is not a multiple of the granule.
    PoolStartUnaligned {
        /// The pool's start.
        start: usize,
        /// The regime's granule.
        granule: Granule,
    },
    /// The pool's length is not a multiple of the granule.
    PoolLengthUnaligned {
        /// Bytes of the pool.
        length: usize,
        /// The regime's granule.
        granule: Granule,
    },
    /// The pool's length is 0.
    PoolEmpty,
    /// The pool has more than [`POOL_LIMIT`] bytes.
    PoolTooLong {
        /// Bytes of the pool.
        length: usize,
    },
    /// The pool passes the end of the memory.
    PoolPastMemory {
        /// The pool's start.
        start: usize,
        /// Bytes of the pool.
        length: usize,
        /// Bytes of the memory.
        memory: usize,
    },
    /// The pool's address is not a multiple of the granule.
    PoolAddressUnaligned {
        /// The pool's address.
        address: PhysAddr,
        /// The regime's granule.
        granule: Granule,
    },
    /// The pool's addresses end above 2^48.
    PoolAddressTooHigh {
        /// The pool's address.
        address: PhysAddr,
        /// Bytes of the pool.
        length: usize,
    },
    /// T of a range is below 16 or above 39.
    TszOutOfBounds {
        /// The range, 0 or 1.
        range: u8,
        /// Its T.
        tsz: u8,
    },
    /// The root of a range is not a multiple of the granule.
    RootUnaligned {
        /// The range, 0 or 1.
        range: u8,
        /// Its root.
        root: PhysAddr,
        /// The regime's granule.
        granule: Granule,
    },
    /// The root of a range is not below 2^48.
    RootTooHigh {
        /// The range, 0 or 1.
        range: u8,
        /// Its root.
        root: PhysAddr,
    },
    /// An attribute byte is neither Device nor Normal memory.
    AttributeByte {
        /// Which of the eight, from 0.
        index: usize,
        /// The byte.
        byte: u8,
    },
    /// HD is on and HA is off.
    HdWithoutHa,
    /// The size is not 1, 2, 4, 8 or 16.
    Size {
        /// The size.
        size: u64,
    },
    /// The size of a fetch is not 4.
    FetchSize {
        /// The size.
        size: u64,
    },
    /// The address of a fetch is not a multiple of 4.
    FetchUnaligned {
        /// The address.
        address: VirtAddr,
    },
    /// The size of a probe is not 1.
    ProbeSize {
        /// The size.
        size: u64,
    },
    /// First and last byte lie in different pages of the granule.
    PageCrossing {
        /// The first byte.
        first: VirtAddr,
        /// The last byte, modulo 2^64.
        last: VirtAddr,
        /// The regime's granule.
        granule: Granule,
    },
    /// The first page of a harvest is in neither range.
    FirstPageOutside {
        /// The first page.
        first: VirtPage,
    },
    /// The number of pages is 0.
    NoPages,
    /// There are more than [`HARVEST_LIMIT`] pages.
    TooManyPages {
        /// The number of pages.
        count: u64,
    },
    /// The pages pass the end of the first one's range.
    PagesPastRange {
        /// The range, 0 or 1.
        range: u8,
        /// The last page that is asked for.
        last: VirtPage,
        /// The last page of the range.
        end: VirtPage,
    },
    /// The map has fewer bits than there are pages.
    MapTooShort {
        /// Bytes of the map.
        length: usize,
        /// The pages.
        pages: Pages,
    },
}

impl Problem {
    /// The refusal that it is a cause of.
    pub const fn refusal(self) -> Refusal {
        match self {
            Self::MemoryTooLong { .. }
            | Self::PoolStartUnaligned { .. }
            | Self::PoolLengthUnaligned { .. }
            | Self::PoolEmpty
            | Self::PoolTooLong { .. }
            | Self::PoolPastMemory { .. } => Refusal::MemoryPool,
            Self::PoolAddressUnaligned { .. } | Self::PoolAddressTooHigh { .. } => {
                Refusal::PoolAddress
            }
            Self::TszOutOfBounds { .. } => Refusal::Sizes,
            Self::RootUnaligned { .. } | Self::RootTooHigh { .. } => Refusal::Root,
            Self::AttributeByte { .. } => Refusal::Attributes,
            Self::HdWithoutHa => Refusal::DirtyState,
            Self::Size { .. }
            | Self::FetchSize { .. }
            | Self::FetchUnaligned { .. }
            | Self::ProbeSize { .. } => Refusal::AccessSize,
            Self::PageCrossing { .. } => Refusal::PageCrossing,
            Self::FirstPageOutside { .. }
            | Self::NoPages
            | Self::TooManyPages { .. }
            | Self::PagesPastRange { .. } => Refusal::PageRange,
            Self::MapTooShort { .. } => Refusal::MapLength,
        }
    }
}

/// That a number, named in words, is no multiple of the granule.
fn no_multiple(
    f: &mut fmt::Formatter<'_>,
    granule: Granule,
    named: fmt::Arguments<'_>,
) -> fmt::Result {
    write!(f, "{named}, is no multiple of {}", granule.bytes())
}

impl fmt::Display for Problem {
    fn fmt(&self, f: &mut fmt::Formatter<'_>) -> fmt::Result {
        write!(f, "refused with {}: ", self.refusal().number())?;
        match *self {
            Self::MemoryTooLong { length } => write!(
                f,
                "the memory's length, {length}, is above its limit, {MEMORY_LIMIT}"
            ),
            Self::PoolStartUnaligned { start, granule } => {
                no_multiple(f, granule, format_args!("the pool's start, {start}"))
            }
            Self::PoolLengthUnaligned { length, granule } => {
                no_multiple(f, granule, format_args!("the pool's length, {length}"))
            }
            Self::PoolEmpty => f.write_str("the pool's length is 0"),
            Self::PoolTooLong { length } => write!(
                f,
                "the pool's length, {length}, is above its limit, {POOL_LIMIT}"
            ),
            Self::PoolPastMemory {
                start,
                length,
                memory,
            } => {
                let end = end(start as u64, length);
                write!(
                    f,
                    "the pool's end, {end}, is past the end of the memory, {memory}"
                )
            }
            Self::PoolAddressUnaligned { address, granule } => {
                no_multiple(f, granule, format_args!("the pool's address, {address}"))
            }
            Self::PoolAddressTooHigh { address, length } => {
                let end = end(address.0, length);
                write!(f, "the pool's end address, {end:#x}, is above 2^48")
            }
            Self::TszOutOfBounds { range, tsz } => {
                write!(f, "T of range {range}, {tsz}, is outside 16 to 39")
            }
            Self::RootUnaligned {
                range,
                root,
                granule,
            } => no_multiple(
                f,
                granule,
                format_args!("the root of range {range}, {root}"),
            ),
            Self::RootTooHigh { range, root } => {
                write!(f, "the root of range {range}, {root}, is not below 2^48")
            }
            Self::AttributeByte { index, byte } => write!(
                f,
                "attribute byte {index}, {byte:#04x}, is neither Device (0x00, 0x04, 0x08, 0x0c) \
                 nor Normal (both halves nonzero)"
            ),
            Self::HdWithoutHa => f.write_str("HD is on and HA, which it needs, is off"),
            Self::Size { size } => write!(f, "the size, {size}, is not 1, 2, 4, 8 or 16"),
            Self::FetchSize { size } => write!(f, "the size of a fetch, {size}, is not 4"),
            Self::FetchUnaligned { address } => {
                write!(f, "the address of a fetch, {address}, is no multiple of 4")
            }
            Self::ProbeSize { size } => write!(f, "the size of a probe, {size}, is not 1"),
            Self::PageCrossing {
                first,
                last,
                granule,
            } => write!(
                f,
                "the first byte, {first}, and the last, {last}, \
                 lie in different pages of {} bytes",
                granule.bytes()
            ),
            Self::FirstPageOutside { first } => {
                write!(f, "the first page, {first}, is in neither range")
            }
            Self::NoPages => f.write_str("the number of pages is 0"),
            Self::TooManyPages { count } => write!(
                f,
                "the number of pages, {count}, is above its limit, {HARVEST_LIMIT}"
            ),
            Self::PagesPastRange { range, last, end } => write!(
                f,
                "the last page, {last}, is past that of range {range}, {end}"
            ),
            Self::MapTooShort { length, pages } => write!(
                f,
                "the map's length, {length}, is below {}, the bytes for {} pages",
                pages.map_length(),
                pages.count
            ),
        }
    }
}

impl Error for Problem {}

//! The checks that find a [`Problem`].
//!
//! They stand beside the proved ones and are not proved. Each function has one
//! refusal, its causes in the order of `docs/RULES.md`, 5.1.

use crate::{
    Access, AccessKind, Granule, Pages, PhysAddr, Pool, Problem, Regime, VirtAddr, VirtPage,
    HARVEST_LIMIT, MEMORY_LIMIT, POOL_LIMIT,
};

/// Physical addresses lie below this.
const PHYSICAL_LIMIT: u64 = 1 << 48;

type Checked = Result<(), Problem>;

/// What a set regime checks, in its order.
pub(crate) fn of_regime(regime: &Regime, memory: usize) -> Checked {
    memory_and_pool(regime.granule, &regime.pool, memory)?;
    pool_address(regime.granule, &regime.pool)?;
    of_start(regime)
}

/// What the start of a stepwise walk checks of a regime, in its order.
pub(crate) fn of_start(regime: &Regime) -> Checked {
    let granule = regime.granule;
    sizes(0, regime.range0.tsz)?;
    sizes(1, regime.range1.tsz)?;
    root(granule, 0, regime.range0.root)?;
    root(granule, 1, regime.range1.root)?;
    let mut bytes = regime.attributes.into_iter().enumerate();
    bytes.try_for_each(|(index, byte)| attribute(index, byte))?;
    dirty_state(regime)
}

/// What an access is checked for under a granule, in its order.
pub(crate) fn of_access(granule: Granule, access: &Access) -> Checked {
    access_size(access)?;
    page_crossing(granule, access)
}

/// What the pages and the map of a harvest are checked for under a regime, in
/// its order.
pub(crate) fn of_harvest(regime: &Regime, pages: Pages, map: usize) -> Checked {
    page_range(regime, pages)?;
    map_length(pages, map)
}

/// Refusal 1.
fn memory_and_pool(granule: Granule, pool: &Pool, memory: usize) -> Checked {
    let Pool { start, length, .. } = *pool;
    if memory > MEMORY_LIMIT {
        return Err(Problem::MemoryTooLong { length: memory });
    }
    if unaligned(granule, start as u64) {
        return Err(Problem::PoolStartUnaligned { start, granule });
    }
    if unaligned(granule, length as u64) {
        return Err(Problem::PoolLengthUnaligned { length, granule });
    }
    if length == 0 {
        return Err(Problem::PoolEmpty);
    }
    if length > POOL_LIMIT {
        return Err(Problem::PoolTooLong { length });
    }
    if end(start as u64, length) > memory as u128 {
        return Err(Problem::PoolPastMemory {
            start,
            length,
            memory,
        });
    }
    Ok(())
}

/// Refusal 2.
fn pool_address(granule: Granule, pool: &Pool) -> Checked {
    let (address, length) = (pool.address, pool.length);
    if unaligned(granule, address.0) {
        return Err(Problem::PoolAddressUnaligned { address, granule });
    }
    if end(address.0, length) > PHYSICAL_LIMIT.into() {
        return Err(Problem::PoolAddressTooHigh { address, length });
    }
    Ok(())
}

/// Refusal 3, but for the output size code: no [`crate::OutputSize`] has one
/// that is refused.
fn sizes(range: u8, tsz: u8) -> Checked {
    match tsz {
        16..=39 => Ok(()),
        _ => Err(Problem::TszOutOfBounds { range, tsz }),
    }
}

/// Refusal 4.
fn root(granule: Granule, range: u8, root: PhysAddr) -> Checked {
    if unaligned(granule, root.0) {
        return Err(Problem::RootUnaligned {
            range,
            root,
            granule,
        });
    }
    if root.0 >= PHYSICAL_LIMIT {
        return Err(Problem::RootTooHigh { range, root });
    }
    Ok(())
}

/// Refusal 5.
fn attribute(index: usize, byte: u8) -> Checked {
    let device = matches!(byte, 0x00 | 0x04 | 0x08 | 0x0c);
    let normal = byte & 0x0f != 0 && byte & 0xf0 != 0;
    if device || normal {
        Ok(())
    } else {
        Err(Problem::AttributeByte { index, byte })
    }
}

/// Refusal 13.
fn dirty_state(regime: &Regime) -> Checked {
    if regime.hd && !regime.ha {
        return Err(Problem::HdWithoutHa);
    }
    Ok(())
}

/// Refusal 6.
fn access_size(access: &Access) -> Checked {
    let (address, size) = (access.address, access.size);
    if !matches!(size, 1 | 2 | 4 | 8 | 16) {
        return Err(Problem::Size { size });
    }
    match access.kind {
        AccessKind::Fetch if size != 4 => Err(Problem::FetchSize { size }),
        AccessKind::Fetch if address.0 % 4 != 0 => Err(Problem::FetchUnaligned { address }),
        AccessKind::ProbeRead | AccessKind::ProbeWrite if size != 1 => {
            Err(Problem::ProbeSize { size })
        }
        _ => Ok(()),
    }
}

/// Refusal 7. Where the size is 0, the last byte is the first.
fn page_crossing(granule: Granule, access: &Access) -> Checked {
    let first = access.address;
    let last = VirtAddr(first.0.wrapping_add(access.size.saturating_sub(1)));
    if first.0 / granule.bytes() != last.0 / granule.bytes() {
        return Err(Problem::PageCrossing {
            first,
            last,
            granule,
        });
    }
    Ok(())
}

/// Refusal 10.
fn page_range(regime: &Regime, pages: Pages) -> Checked {
    let Pages { first, count } = pages;
    let Some((range, end)) = range_of(regime, first) else {
        return Err(Problem::FirstPageOutside { first });
    };
    if count == 0 {
        return Err(Problem::NoPages);
    }
    if count > HARVEST_LIMIT {
        return Err(Problem::TooManyPages { count });
    }
    let last = VirtPage(first.0 + (count - 1));
    if last > end {
        return Err(Problem::PagesPastRange { range, last, end });
    }
    Ok(())
}

/// The range that a page lies in, disabled or not, and the last page there.
fn range_of(regime: &Regime, page: VirtPage) -> Option<(u8, VirtPage)> {
    let all = 1_u64 << (64 - regime.granule.page_bits());
    // None for a T of 64 and more, which is refused.
    let pages = |tsz: u8| all.checked_shr(tsz.into()).unwrap_or(0);
    let (lower, upper) = (pages(regime.range0.tsz), pages(regime.range1.tsz));
    if page.0 < lower {
        return Some((0, VirtPage(lower - 1)));
    }
    (all - upper..all)
        .contains(&page.0)
        .then_some((1, VirtPage(all - 1)))
}

/// Refusal 11.
fn map_length(pages: Pages, length: usize) -> Checked {
    if length < pages.map_length() {
        return Err(Problem::MapTooShort { length, pages });
    }
    Ok(())
}

/// Whether a number is no multiple of the granule.
fn unaligned(granule: Granule, number: u64) -> bool {
    number % granule.bytes() != 0
}

/// Where so many bytes end; the sum does not wrap.
pub(crate) fn end(start: u64, length: usize) -> u128 {
    u128::from(start) + length as u128
}

//! The plain harvest.

use super::{CRegime, Spelling};
use crate::harvest::Harvest;
use crate::reference::Regime;

/// A plain harvest that can be tried: the library's, or in the tests another
/// one.
pub trait Harvester {
    /// Gives 0, or the number of the refusal. The map is as long as the call
    /// says.
    fn harvest(
        &self,
        memory: &mut [u8],
        regime: &Regime,
        asked: &Harvest,
        map: &mut [u8],
        spelling: Spelling,
    ) -> u8;
}

pub type HarvestFunction =
    unsafe extern "C" fn(*mut u8, usize, *const CRegime, u64, u64, *mut u8, usize) -> u8;

/// The library under test.
#[derive(Clone, Copy)]
pub struct LibraryHarvest {
    function: HarvestFunction,
}

impl LibraryHarvest {
    /// # Safety
    ///
    /// The function must touch no byte but those of the memory, the map and the
    /// regime it is lent, must not write the regime, and must be fit to be
    /// called with any numbers.
    pub unsafe fn new(function: HarvestFunction) -> Self {
        LibraryHarvest { function }
    }
}

impl Harvester for LibraryHarvest {
    fn harvest(
        &self,
        memory: &mut [u8],
        regime: &Regime,
        asked: &Harvest,
        map: &mut [u8],
        spelling: Spelling,
    ) -> u8 {
        let regime = spelling.regime(regime);
        let (start, length) = (memory.as_mut_ptr(), memory.len());
        let (bits, room) = (map.as_mut_ptr(), map.len());
        let (first, count) = (asked.first, asked.count);
        // SAFETY: each pointer and length are those of one slice that, like the
        // regime, is ours alone for the time of the call; the rest is promised
        // to `new`.
        unsafe { (self.function)(start, length, &regime, first, count, bits, room) }
    }
}

//! Accesses that end otherwise than they would without one of the bits that
//! tables take something away with (RULES 6.11): what both tallies count by.

use crate::reference::{
    bit, settle, Access, Answer, Kind, Leaf, Regime, AP_TABLE_0, AP_TABLE_1, PXN_TABLE, TAKING,
    UXN_TABLE,
};
use crate::tally::level_name;
use std::fmt;

/// A bit of the tables' sum, and an access that it decides.
#[derive(Clone, Copy, Debug, PartialEq, Eq, PartialOrd, Ord)]
pub struct Decision {
    pub bit: u32,
    pub el0: bool,
    pub kind: Kind,
}

impl Decision {
    /// Whether RULES 7 lets such a bit decide such an access, over some leaf.
    /// A fetch may be granted by bits 62 and 61, which make a page one that
    /// cannot be written; all else is denied.
    fn can_be(self) -> bool {
        match (self.bit, self.kind) {
            (AP_TABLE_1, Kind::Read | Kind::ProbeRead) => false,
            (AP_TABLE_1, _) => true,
            (AP_TABLE_0, kind) => self.el0 || kind == Kind::Fetch,
            (UXN_TABLE, Kind::Fetch) => self.el0,
            (PXN_TABLE, Kind::Fetch) => !self.el0,
            _ => false,
        }
    }

    /// All that can occur.
    pub fn all() -> impl Iterator<Item = Self> {
        let levels = [false, true].into_iter();
        let asked = levels.flat_map(|el0| Kind::ALL.map(|kind| (el0, kind)));
        let each = asked.flat_map(|(el0, kind)| TAKING.map(|bit| Decision { bit, el0, kind }));
        each.filter(|decision| decision.can_be())
    }
}

impl fmt::Display for Decision {
    fn fmt(&self, out: &mut fmt::Formatter) -> fmt::Result {
        let (bit, level, kind) = (self.bit, level_name(self.el0), self.kind);
        write!(out, "{bit} {level} {kind:?}")
    }
}

/// Whether an access of a leaf succeeds under a sum of the tables.
pub fn succeeds(regime: &Regime, access: &Access, leaf: &Leaf, taken: u64) -> bool {
    let (answer, _) = settle(regime, access, &Leaf { taken, ..*leaf }, 0);
    matches!(answer, Answer::Success(_))
}

/// The bits of a leaf's sum without which an access would end otherwise.
pub fn decided<'a>(
    regime: &'a Regime,
    access: &'a Access,
    leaf: &'a Leaf,
) -> impl Iterator<Item = Decision> + 'a {
    let with = succeeds(regime, access, leaf, leaf.taken);
    let there = TAKING.into_iter().filter(|&place| bit(leaf.taken, place));
    let (el0, kind) = (access.el0, access.kind);
    there.filter_map(move |place| {
        let without = succeeds(regime, access, leaf, leaf.taken & !(1 << place));
        (with != without).then_some(Decision {
            bit: place,
            el0,
            kind,
        })
    })
}

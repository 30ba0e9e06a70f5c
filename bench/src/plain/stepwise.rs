//! The walk a descriptor at a time in plain Rust: what the loop over the levels
//! has in its variables stands in a struct here.
//!
//! The start checks the regime and the access, and no offer checks them again:
//! nobody else makes such a struct or changes it. (The library's may be any
//! bytes, and each offer to it checks.)

use super::{fault, page_bits, refuse_access, refuse_settings, refused, shift, Leaf};
use super::{ADDRESS_SIZE, EXTERNAL_ABORT, OUTPUT_LIMITS, TRANSLATION};
use crate::boundary::{Access, Answer, Regime};
use crate::steps::{Steps, Update};

#[derive(Clone, Copy)]
pub struct Stepwise {
    regime: Regime,
    access: Access,
    state: State,
}

#[derive(Clone, Copy)]
enum State {
    Wants(Wanted),
    Ended(Answer, Option<Update>),
}

/// A descriptor that is wanted: its address, the tables on the way to it, added
/// up, the levels below it, and the reads with this one.
#[derive(Clone, Copy)]
struct Wanted {
    address: u64,
    tables: u64,
    left: u8,
    reads: u8,
}

/// The address of an entry: of the table of a level, for an address.
fn entry(regime: &Regime, table: u64, left: u8, address: u64) -> u64 {
    let stride = page_bits(regime.granule) - 3;
    table + 8 * (address >> shift(regime, left) & ((1 << stride) - 1))
}

/// Step 1, and the entry of the first level's table.
fn begin(regime: &Regime, address: u64) -> State {
    let (root, tsz, disabled, top) = if address >> 55 & 1 == 1 {
        (regime.root1, regime.tsz1, regime.disabled1, u64::MAX)
    } else {
        (regime.root0, regime.tsz0, regime.disabled0, 0)
    };
    let bits = 64 - tsz;
    if disabled != 0 || address >> bits != top >> bits {
        return State::Ended(fault(TRANSLATION, 0, 0), None);
    }
    if root >= OUTPUT_LIMITS[regime.output as usize] {
        return State::Ended(fault(ADDRESS_SIZE, 0, 0), None);
    }
    let page = page_bits(regime.granule);
    let left = (63 - tsz - page) / (page - 3);
    State::Wants(Wanted {
        address: entry(regime, root, left, address & ((1 << bits) - 1)),
        tables: 0,
        left,
        reads: 1,
    })
}

impl Wanted {
    fn stop(self, code: u16) -> State {
        let level = 3 - self.left;
        State::Ended(fault(code + u16::from(level), level, self.reads), None)
    }

    /// Steps 4 and 5: on to the next table, or to the leaf.
    fn take(self, regime: &Regime, access: &Access, value: u64) -> State {
        let limit = OUTPUT_LIMITS[regime.output as usize];
        let wide = value & 2 != 0;
        // Blocks have at most 1 GiB.
        if value & 1 == 0 || (!wide && (self.left == 0 || shift(regime, self.left) > 30)) {
            return self.stop(TRANSLATION);
        }
        if !wide || self.left == 0 {
            return self.conclude(regime, access, value);
        }
        let table = value & ((1 << 48) - (1 << page_bits(regime.granule)));
        if table >= limit {
            return self.stop(ADDRESS_SIZE);
        }
        State::Wants(Wanted {
            address: entry(regime, table, self.left - 1, access.address),
            tables: self.tables | value,
            left: self.left - 1,
            reads: self.reads + 1,
        })
    }

    /// Steps 5 to 8 of a leaf, and the update that is due.
    fn conclude(self, regime: &Regime, access: &Access, value: u64) -> State {
        let high = access.address >> 55 & 1 == 1;
        let hpd = if high { regime.hpd1 } else { regime.hpd0 };
        let mut leaf = Leaf {
            value,
            tables: if hpd != 0 { 0 } else { self.tables },
            left: self.left,
        };
        if leaf.base(regime) >= OUTPUT_LIMITS[regime.output as usize] {
            return self.stop(ADDRESS_SIZE);
        }
        let answer = leaf.judge(regime, access, self.reads);
        if answer.accessed == 0 && answer.dirtied == 0 {
            return State::Ended(answer, None);
        }
        leaf.mark(&answer);
        let update = Update {
            address: self.address,
            expected: value,
            value: leaf.value,
        };
        State::Ended(answer, Some(update))
    }
}

impl Steps for Stepwise {
    #[inline(never)]
    fn start(regime: &Regime, access: &Access) -> Stepwise {
        let refusal = refuse_settings(regime).or_else(|| refuse_access(regime, access));
        Stepwise {
            regime: *regime,
            access: *access,
            state: match refusal {
                Some(refusal) => State::Ended(refused(refusal), None),
                None => begin(regime, access.address),
            },
        }
    }

    #[inline(never)]
    fn value(&mut self, value: u64) -> u8 {
        let State::Wants(wanted) = self.state else {
            return 12;
        };
        self.state = wanted.take(&self.regime, &self.access, value);
        0
    }

    #[inline(never)]
    fn unreachable(&mut self) -> u8 {
        let State::Wants(wanted) = self.state else {
            return 12;
        };
        self.state = wanted.stop(EXTERNAL_ABORT);
        0
    }

    #[inline(always)]
    fn wanted(&self) -> Option<u64> {
        match self.state {
            State::Wants(wanted) => Some(wanted.address),
            State::Ended(..) => None,
        }
    }

    #[inline(always)]
    fn end(&self) -> (Answer, Option<Update>) {
        match self.state {
            State::Wants(_) => (Answer::default(), None),
            State::Ended(answer, update) => (answer, update),
        }
    }
}

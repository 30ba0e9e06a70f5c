//! Why a walk ends as it does, in words.
//!
//! The library decides; this finds the words for what it has decided.

use vmsa::{Access, AccessKind, ExceptionLevel, Fault, FaultKind, PhysAddr, Regime, TablesSum};

use crate::fields::{attribute, frame, has, next_table, Shape};

/// The last descriptor that a walk has asked for.
#[derive(Clone, Copy)]
pub struct Last {
    pub address: PhysAddr,
    /// What stands there, or `None` where it cannot be read.
    pub descriptor: Option<u64>,
    pub level: u8,
    /// The sum of the tables above it.
    pub tables: TablesSum,
}

/// Why a fault was given: at least one reason.
pub fn fault(regime: &Regime, access: &Access, fault: &Fault, last: Option<Last>) -> Vec<String> {
    let Some(last) = last else {
        return vec![before_any_read(regime, access, fault.kind)];
    };
    let descriptor = last.descriptor.unwrap_or_default();
    let output = regime.output.bits();
    let text = match fault.kind {
        FaultKind::AddressSize => {
            let address = named(regime, last.level, descriptor);
            format!("the address that it names, {address:#x}, is not below 2^{output}")
        }
        FaultKind::Translation => match Shape::of(regime.granule, last.level, descriptor) {
            Shape::NoBlock => format!("bits 1..0 are 01: level {} has no blocks", last.level),
            _ => "bit 0 is clear: the descriptor is not valid".to_string(),
        },
        FaultKind::AccessFlag => "AF is 0, and HA is off".to_string(),
        FaultKind::Permission => return permission(regime, access, descriptor, last.tables),
        FaultKind::ExternalAbort => format!("the descriptor at {} cannot be read", last.address),
        FaultKind::Alignment => format!(
            "{} is no multiple of {}, and the memory is Device",
            access.address, access.size
        ),
    };
    vec![text]
}

/// The address of a table, or of what a block or page maps.
fn named(regime: &Regime, level: u8, descriptor: u64) -> u64 {
    match Shape::of(regime.granule, level, descriptor) {
        Shape::Table => next_table(regime.granule, descriptor),
        _ => frame(regime.granule, level, descriptor),
    }
}

/// The fault comes from the range alone.
fn before_any_read(regime: &Regime, access: &Access, kind: FaultKind) -> String {
    let upper = has(access.address.0, 55);
    let (number, range) = match upper {
        false => (0, regime.range0),
        true => (1, regime.range1),
    };
    if kind == FaultKind::AddressSize {
        let (root, output) = (range.root, regime.output.bits());
        return format!("the root, {root}, is not below 2^{output}");
    }
    if range.disabled {
        return format!("range {number} is disabled");
    }
    let low = 64 - u32::from(range.tsz);
    format!("address bits 63..{low} are not all {}", u8::from(upper))
}

/// What of the leaf, and of the tables above it, does not permit the access.
/// There is nothing of it exactly where the access is permitted.
pub fn permission(regime: &Regime, access: &Access, leaf: u64, tables: TablesSum) -> Vec<String> {
    let rights = Rights::new(regime, leaf, tables);
    let reasons = match access.kind {
        AccessKind::Read | AccessKind::ProbeRead => rights.no_access(access.el),
        AccessKind::Write | AccessKind::Update | AccessKind::ProbeWrite => {
            [rights.no_access(access.el), rights.no_write()].concat()
        }
        AccessKind::Fetch => rights.no_fetch(access.el),
    };
    reasons.into_iter().map(str::to_string).collect()
}

/// What a leaf permits under its tables (`docs/RULES.md`, 7).
struct Rights {
    leaf: u64,
    tables: TablesSum,
    hd: bool,
    wxn: bool,
    device: bool,
}

impl Rights {
    fn new(regime: &Regime, leaf: u64, tables: TablesSum) -> Self {
        Self {
            leaf,
            tables,
            hd: regime.ha && regime.hd,
            wxn: regime.wxn,
            device: attribute(regime, leaf) & 0xf0 == 0,
        }
    }

    /// Why EL0 has no access; EL1 always has.
    fn no_access(&self, el: ExceptionLevel) -> Vec<&'static str> {
        let el0 = el == ExceptionLevel::El0;
        told(&[
            (el0 && !has(self.leaf, 6), "AP[1] is 0: not from EL0"),
            (
                el0 && self.tables.no_el0,
                "APTable[0] is in the tables' bits: not from EL0",
            ),
        ])
    }

    /// Why nobody may write.
    fn no_write(&self) -> Vec<&'static str> {
        let (read_only, dbm) = (has(self.leaf, 7), has(self.leaf, 51));
        told(&[
            (
                self.tables.no_write,
                "APTable[1] is in the tables' bits: no writing",
            ),
            (read_only && !dbm, "AP[2] is 1: read-only"),
            (
                read_only && dbm && !self.hd,
                "AP[2] is 1: read-only, and DBM has no say while HD is off",
            ),
        ])
    }

    /// Why a level may not fetch.
    fn no_fetch(&self, el: ExceptionLevel) -> Vec<&'static str> {
        let write = self.no_write().is_empty();
        let el0_write = write && self.no_access(ExceptionLevel::El0).is_empty();
        let device = (self.device, "it is a fetch, and the memory is Device");
        match el {
            ExceptionLevel::El0 => told(&[
                (has(self.leaf, 54), "UXN is 1"),
                (self.tables.no_el0_fetch, "UXNTable is in the tables' bits"),
                (self.wxn && el0_write, "WXN is on, and EL0 may write"),
                device,
            ]),
            ExceptionLevel::El1 => told(&[
                (has(self.leaf, 53), "PXN is 1"),
                (self.tables.no_el1_fetch, "PXNTable is in the tables' bits"),
                (el0_write, "EL0 may write, so EL1 may not fetch"),
                (self.wxn && write, "WXN is on, and it may be written"),
                device,
            ]),
        }
    }
}

/// The reasons that apply.
fn told(reasons: &[(bool, &'static str)]) -> Vec<&'static str> {
    let apply = reasons.iter().filter(|(applies, _)| *applies);
    apply.map(|&(_, reason)| reason).collect()
}

#[cfg(test)]
mod tests {
    use super::*;
    use vmsa::{Range, Step, StepwiseWalk, Stop, VirtAddr};

    /// A block of level 2 with AF, and each combination of AP, DBM, PXN, UXN
    /// and two attribute bytes.
    fn leaves() -> impl Iterator<Item = u64> {
        (0..64_u64).map(|set| {
            let bit = |from: u32, to: u32| (set >> from & 1) << to;
            0x8020_0401 | bit(0, 6) | bit(1, 7) | bit(2, 51) | bit(3, 53) | bit(4, 54) | bit(5, 2)
        })
    }

    /// Each kind from each level, aligned.
    fn accesses() -> impl Iterator<Item = Access> {
        AccessKind::ALL.into_iter().flat_map(|kind| {
            let size = match kind {
                AccessKind::ProbeRead | AccessKind::ProbeWrite => 1,
                _ => 4,
            };
            let access = Access::new(kind, VirtAddr(0x1000), size);
            [access, access.el0()]
        })
    }

    /// Whether the library denies an access to a leaf under a table's bits, and
    /// the reasons found.
    fn asked(regime: &Regime, access: &Access, bits: u64, leaf: u64) -> (bool, Vec<String>) {
        let Step::Wants(walk) = StepwiseWalk::start(regime, access) else {
            panic!("it wants a table");
        };
        let Step::Wants(walk) = walk.value(0x4000_1003 | bits << 59) else {
            panic!("it wants the block");
        };
        let reasons = permission(regime, access, leaf, walk.tables());
        let Step::Ended(ended) = walk.value(leaf) else {
            panic!("the block ends it");
        };
        let denied = match ended.settle(|_| true) {
            Some(Ok(_)) => false,
            Some(Err(Stop::Fault(fault))) => {
                assert_eq!(fault.kind, FaultKind::Permission);
                true
            }
            other => panic!("{other:?}"),
        };
        (denied, reasons)
    }

    #[test]
    fn a_reason_exactly_where_the_library_denies() {
        let range = Range::new(PhysAddr(0x4000_0000), 25);
        for set in 0..16 {
            let on = |bit: u32| set >> bit & 1 == 1;
            let regime = Regime::new()
                .range0(range.hpd(on(0)))
                .attributes([0x04, 0xff, 0, 0, 0, 0, 0, 0])
                .ha(on(1))
                .hd(on(1) && on(2))
                .wxn(on(3));
            for leaf in leaves() {
                for access in accesses() {
                    for bits in 0..16 {
                        let (denied, reasons) = asked(&regime, &access, bits, leaf);
                        assert_eq!(denied, !reasons.is_empty(), "{leaf:#x}, {access:?}");
                    }
                }
            }
        }
    }
}

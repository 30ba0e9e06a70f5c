//! What a walk or a session answers.

use std::error::Error;
use std::fmt;

use crate::{ffi, PhysAddr, Refusal};

/// The answer to an access: where it goes, or what stops it.
///
/// A monitor hands a fault to the guest, and takes a refusal as its own
/// mistake:
///
/// ```
/// use vmsa::{Answer, Fault, PhysAddr, Refusal, Stop};
///
/// enum Next {
///     Copy(PhysAddr),
///     Inject(Fault),
///     Report(Refusal),
/// }
///
/// fn next(answer: Answer) -> Next {
///     match answer {
///         Ok(found) => Next::Copy(found.output),
///         Err(Stop::Fault(fault)) => Next::Inject(fault),
///         Err(Stop::Refused(refusal)) => Next::Report(refusal),
///     }
/// }
/// ```
pub type Answer = Result<Translation, Stop>;

/// What an access that succeeds is told.
#[derive(Clone, Copy, Debug, PartialEq, Eq, Hash)]
pub struct Translation {
    /// The physical address, below 2 to the bits of output.
    pub output: PhysAddr,
    /// The byte of MAIR_EL1 that the leaf picks.
    pub attribute: u8,
    /// Shareability, as the leaf has it.
    pub shareability: Shareability,
    /// nG: the translation belongs to one address space.
    pub nonglobal: bool,
    /// The level of the leaf: 3 for a page, 2 for a block, and 1 for one of
    /// 1 GiB (granule of 4 KiB).
    pub level: u8,
    /// This access set the Access flag.
    pub accessed: bool,
    /// This access cleared AP\[2\]: the page has become dirty.
    pub dirtied: bool,
    /// A TLB may hold the translation.
    pub cacheable: bool,
    /// The count of descriptor reads, at most 4; 0 where a session held it.
    pub reads: u8,
}

impl Translation {
    /// Whether the attribute byte says Device memory; it says Normal
    /// otherwise.
    pub const fn is_device(&self) -> bool {
        self.attribute & 0xf0 == 0
    }
}

/// The field SH of a leaf.
#[derive(Clone, Copy, Debug, PartialEq, Eq, Hash)]
pub enum Shareability {
    /// 0b00.
    NonShareable,
    /// 0b01.
    Reserved,
    /// 0b10.
    OuterShareable,
    /// 0b11.
    InnerShareable,
}

impl Shareability {
    /// The two bits of the field.
    pub const fn bits(self) -> u8 {
        self as u8
    }

    const fn from_bits(bits: u8) -> Self {
        match bits & 3 {
            0 => Self::NonShareable,
            1 => Self::Reserved,
            2 => Self::OuterShareable,
            _ => Self::InnerShareable,
        }
    }
}

/// What a fault is about.
#[derive(Clone, Copy, Debug, PartialEq, Eq, Hash)]
pub enum FaultKind {
    /// A root, table or output address beyond the bits of output.
    AddressSize,
    /// No translation: an invalid descriptor, a disabled range, or an address
    /// outside its range.
    Translation,
    /// The Access flag is clear, and the walk does not set it.
    AccessFlag,
    /// The leaf, or a table on the way to it, does not permit the access; or a
    /// fetch from Device memory.
    Permission,
    /// External abort on the walk: a descriptor not wholly in the pool, or not
    /// reachable.
    ExternalAbort,
    /// An unaligned access to Device memory.
    Alignment,
}

impl FaultKind {
    /// The fault status code at a level, as ESR_ELx holds it.
    pub const fn code(self, level: u8) -> u16 {
        let level = level as u16;
        match self {
            Self::AddressSize => level,
            Self::Translation => 4 + level,
            Self::AccessFlag => 8 + level,
            Self::Permission => 12 + level,
            Self::ExternalAbort => 20 + level,
            Self::Alignment => 33,
        }
    }

    const fn from_code(code: u16) -> Option<Self> {
        match code {
            0..=3 => Some(Self::AddressSize),
            4..=7 => Some(Self::Translation),
            8..=11 => Some(Self::AccessFlag),
            12..=15 => Some(Self::Permission),
            20..=23 => Some(Self::ExternalAbort),
            33 => Some(Self::Alignment),
            _ => None,
        }
    }
}

impl fmt::Display for FaultKind {
    fn fmt(&self, f: &mut fmt::Formatter<'_>) -> fmt::Result {
        f.write_str(match self {
            Self::AddressSize => "Address size fault",
            Self::Translation => "Translation fault",
            Self::AccessFlag => "Access flag fault",
            Self::Permission => "Permission fault",
            Self::ExternalAbort => "Synchronous External abort on translation table walk",
            Self::Alignment => "Alignment fault",
        })
    }
}

/// A fault, for the guest.
///
/// ```
/// use vmsa::{Fault, FaultKind};
///
/// let fault = Fault {
///     kind: FaultKind::Permission,
///     level: 2,
///     code: 14,
///     cacheable: true,
///     reads: 3,
/// };
/// assert_eq!(fault.to_string(), "Permission fault, level 2 (0b001110)");
/// assert_eq!(fault.code, fault.kind.code(fault.level));
/// ```
#[derive(Clone, Copy, Debug, PartialEq, Eq, Hash)]
pub struct Fault {
    /// What it is about.
    pub kind: FaultKind,
    /// The level, 0 to 3; that of an Alignment fault is the leaf's.
    pub level: u8,
    /// The fault status code, as ESR_ELx holds it.
    pub code: u16,
    /// A TLB may hold the leaf.
    pub cacheable: bool,
    /// The count of descriptor reads, at most 4; 0 where a session held the
    /// leaf.
    pub reads: u8,
}

impl fmt::Display for Fault {
    fn fmt(&self, f: &mut fmt::Formatter<'_>) -> fmt::Result {
        match self.kind {
            FaultKind::Alignment => write!(f, "{} (0b{:06b})", self.kind, self.code),
            kind => write!(f, "{kind}, level {} (0b{:06b})", self.level, self.code),
        }
    }
}

impl Error for Fault {}

/// What stops an access.
#[derive(Clone, Copy, Debug, PartialEq, Eq, Hash)]
pub enum Stop {
    /// The guest's tables do not let it through.
    Fault(Fault),
    /// The call itself makes no sense.
    Refused(Refusal),
}

impl Stop {
    /// The fault, where it is one.
    pub const fn fault(self) -> Option<Fault> {
        match self {
            Self::Fault(fault) => Some(fault),
            Self::Refused(_) => None,
        }
    }

    /// The refusal, where it is one.
    pub const fn refusal(self) -> Option<Refusal> {
        match self {
            Self::Fault(_) => None,
            Self::Refused(refusal) => Some(refusal),
        }
    }
}

impl fmt::Display for Stop {
    fn fmt(&self, f: &mut fmt::Formatter<'_>) -> fmt::Result {
        match self {
            Self::Fault(fault) => fault.fmt(f),
            Self::Refused(refusal) => refusal.fmt(f),
        }
    }
}

impl Error for Stop {}

impl From<Fault> for Stop {
    fn from(fault: Fault) -> Self {
        Self::Fault(fault)
    }
}

impl From<Refusal> for Stop {
    fn from(refusal: Refusal) -> Self {
        Self::Refused(refusal)
    }
}

/// For what the library never answers.
pub(crate) const OUTSIDE: &str = "the linked library does not have this crate's interface";

impl From<ffi::Answer> for Answer {
    fn from(words: ffi::Answer) -> Self {
        match words.tag {
            0 => Ok(Translation {
                output: PhysAddr(words.output),
                attribute: words.attribute,
                shareability: Shareability::from_bits(words.shareability),
                nonglobal: words.nonglobal != 0,
                level: words.level,
                accessed: words.accessed != 0,
                dirtied: words.dirtied != 0,
                cacheable: words.cacheable != 0,
                reads: words.reads,
            }),
            1 => Err(Stop::Fault(Fault {
                kind: FaultKind::from_code(words.code).expect(OUTSIDE),
                level: words.level,
                code: words.code,
                cacheable: words.cacheable != 0,
                reads: words.reads,
            })),
            _ => Err(Stop::Refused(
                Refusal::from_number(words.refusal).expect(OUTSIDE),
            )),
        }
    }
}

/// What a set regime, a store or a harvest gives: 0, or the number of the
/// refusal.
pub(crate) fn accepted(number: u8) -> Result<(), Refusal> {
    match number {
        0 => Ok(()),
        _ => Err(Refusal::from_number(number).expect(OUTSIDE)),
    }
}

#[cfg(test)]
mod tests {
    use super::*;

    /// A number that no library gives.
    const UNKNOWN: u8 = u8::MAX;

    #[test]
    fn each_number_is_its_refusal() {
        assert_eq!(accepted(0), Ok(()));
        for number in 0..=u8::MAX {
            let mut refusals = Refusal::ALL.iter().copied();
            let expected = refusals.find(|refusal| refusal.number() == number);
            assert_eq!(Refusal::from_number(number), expected);
        }
    }

    #[test]
    #[should_panic(expected = "does not have this crate's interface")]
    fn reply_with_an_unknown_number() {
        let _ = accepted(UNKNOWN);
    }

    #[test]
    #[should_panic(expected = "does not have this crate's interface")]
    fn answer_with_an_unknown_number() {
        let _ = Answer::from(ffi::Answer {
            tag: 2,
            refusal: UNKNOWN,
            ..ffi::Answer::default()
        });
    }
}

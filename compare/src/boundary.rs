//! The library's C interface: its structs, and a safe way to call it.
//!
//! The functions themselves are declared in `main.rs`, so that this module
//! can be built and tested without the library.
//!
//! No struct has padding. Its spare bytes, and bits 7..4 of an entry's
//! `tables`, have no say in what the library is given, and are 0 in what it
//! writes. So there is noise in all of them that it is given, and wherever it
//! only writes.

mod harvest;
mod session;
mod stepwise;

use crate::geometry::Granule;
use crate::random::Random;
use crate::reference::{Access, Answer, Kind, Pool, Range, Regime};
pub use harvest::{HarvestFunction, Harvester, LibraryHarvest};
pub use session::{CEntry, CSession, LibrarySession, Reply, SessionFunctions, Subject, SUM_BITS};
use std::mem::{self, offset_of, size_of};
use std::{array, slice};
pub use stepwise::{CStepwise, LibraryStepwise, Stepper, StepwiseFunctions};

#[repr(C)]
#[derive(Clone, Copy, Debug)]
pub struct CRegime {
    pub start: usize,
    pub length: usize,
    pub address: u64,
    pub root0: u64,
    pub root1: u64,
    /// Eight attribute bytes, byte 0 lowest.
    pub attributes: u64,
    pub tsz0: u8,
    pub tsz1: u8,
    pub disabled0: u8,
    pub disabled1: u8,
    pub output: u8,
    pub ha: u8,
    pub hd: u8,
    pub wxn: u8,
    pub hpd0: u8,
    pub hpd1: u8,
    pub ee: u8,
    /// As in Arm's TG0: see `granule_of`.
    pub granule: u8,
    pub spare: [u8; 4],
}

#[repr(C)]
#[derive(Clone, Copy, Debug)]
pub struct CAccess {
    pub address: u64,
    pub size: u64,
    pub el0: u8,
    pub kind: u8,
    pub spare: [u8; 6],
}

#[repr(C)]
#[derive(Clone, Copy, Debug, Default, PartialEq, Eq)]
pub struct CAnswer {
    pub output: u64,
    /// 0 success, 1 fault, 2 refused.
    pub tag: u8,
    pub refusal: u8,
    pub code: u16,
    pub level: u8,
    pub attribute: u8,
    pub shareability: u8,
    pub nonglobal: u8,
    pub accessed: u8,
    pub dirtied: u8,
    pub cacheable: u8,
    pub reads: u8,
    pub spare: [u8; 4],
}

// The numbers of the two larger granules; any other says 4 KiB.
const GRANULE_64: u8 = 1;
const GRANULE_16: u8 = 2;

/// The granule that a byte says.
pub fn granule_of(byte: u8) -> Granule {
    match byte {
        GRANULE_64 => Granule::Kib64,
        GRANULE_16 => Granule::Kib16,
        _ => Granule::Kib4,
    }
}

impl CRegime {
    /// The regime that these numbers say.
    pub fn read(&self) -> Regime {
        let range = |root, t, disabled, hpd| Range {
            root,
            t,
            disabled: disabled != 0,
            hpd: hpd != 0,
        };
        Regime {
            pool: Pool {
                start: self.start,
                length: self.length,
                address: self.address,
            },
            ranges: [
                range(self.root0, self.tsz0, self.disabled0, self.hpd0),
                range(self.root1, self.tsz1, self.disabled1, self.hpd1),
            ],
            output_code: self.output,
            ha: self.ha != 0,
            hd: self.hd != 0,
            wxn: self.wxn != 0,
            ee: self.ee != 0,
            granule: granule_of(self.granule),
            attributes: self.attributes.to_le_bytes(),
        }
    }
}

impl CRegime {
    /// The same numbers as they are spelled, and nothing in the spare bytes.
    pub fn kept(&self) -> CRegime {
        CRegime {
            spare: [0; 4],
            ..*self
        }
    }
}

impl CAccess {
    /// As for a regime.
    pub fn kept(&self) -> CAccess {
        CAccess {
            spare: [0; 6],
            ..*self
        }
    }

    /// The access that these numbers say.
    pub fn read(&self) -> Access {
        Access {
            address: self.address,
            size: self.size,
            el0: self.el0 != 0,
            kind: match self.kind {
                0 => Kind::Read,
                1 => Kind::Write,
                3 => Kind::Fetch,
                4 => Kind::ProbeRead,
                5 => Kind::ProbeWrite,
                _ => Kind::Update,
            },
        }
    }
}

const _: () = {
    assert!(size_of::<CRegime>() == 64);
    assert!(offset_of!(CRegime, granule) == 59);
    assert!(size_of::<CAccess>() == 24);
    assert!(size_of::<CAnswer>() == 24);
};

/// Structs of integers without padding.
///
/// # Safety
///
/// Every byte of a value must belong to an integer.
unsafe trait Plain: Copy {}

// SAFETY: the sizes of its fields add up to 24.
unsafe impl Plain for CAnswer {}

fn bytes<T: Plain>(of: &T) -> &[u8] {
    // SAFETY: every byte belongs to an integer, and so is initialised.
    unsafe { slice::from_raw_parts((of as *const T).cast(), size_of::<T>()) }
}

fn bytes_mut<T: Plain>(of: &mut T) -> &mut [u8] {
    // SAFETY: as above, and integers take any bytes.
    unsafe { slice::from_raw_parts_mut((of as *mut T).cast(), size_of::<T>()) }
}

/// The first byte in which a struct is not as it should be.
fn difference<T: Plain>(name: &str, is: &T, wanted: &T) -> Option<String> {
    let (is, wanted) = (bytes(is), bytes(wanted));
    if is == wanted {
        return None;
    }
    let at = is.iter().zip(wanted).position(|(a, b)| a != b)?;
    let (is, should) = (is[at], wanted[at]);
    Some(format!(
        "byte {at} of the {name} is {is:#04x}, and should be {should:#04x}"
    ))
}

/// A struct of random bytes.
fn scribbled<T: Plain>(noise: u64) -> T {
    // SAFETY: integers can be 0.
    let mut of: T = unsafe { mem::zeroed() };
    let mut random = Random::new(noise);
    for piece in bytes_mut(&mut of).chunks_mut(8) {
        piece.copy_from_slice(&random.bits().to_le_bytes()[..piece.len()]);
    }
    of
}

pub const SUCCESS: u8 = 0;
pub const FAULT: u8 = 1;
pub const REFUSED: u8 = 2;

/// How the plain numbers are spelled: any nonzero byte says true, every number
/// above 5 says update, as 2 does, and every one above 2 a granule of 4 KiB, as
/// 0 does. The noise fills spare bytes, and memory that the library only
/// writes.
#[derive(Clone, Copy, Debug)]
pub struct Spelling {
    pub truth: u8,
    pub update: u8,
    pub kib_4: u8,
    pub noise: u64,
}

impl Spelling {
    pub const PLAIN: Spelling = Spelling {
        truth: 1,
        update: 2,
        kib_4: 0,
        noise: 0,
    };

    pub fn draw(random: &mut Random) -> Self {
        let noise = random.bits();
        if random.coin() {
            return Spelling {
                noise,
                ..Spelling::PLAIN
            };
        }
        let any = random.between(1, 0xFF) as u8;
        let above_2 = random.between(3, 0xFF) as u8;
        Spelling {
            truth: random.pick(&[1, 2, 3, 4, 16, 0x7F, 0x80, 0xFE, 0xFF, any, any, any]),
            update: random.pick(&[2, 6, 7, 8, 9, 10, 0x80, 0x85, 0xFE, 0xFF]),
            kib_4: random.pick(&[0, 3, 0x81, 0x82, above_2, above_2, above_2, above_2]),
            noise,
        }
    }

    /// The spare bytes of the struct with a number.
    fn spare<const N: usize>(self, number: u64) -> [u8; N] {
        let bytes = Random::new(self.noise ^ number).bits().to_le_bytes();
        array::from_fn(|i| bytes[i])
    }

    fn flag(self, value: bool) -> u8 {
        if value {
            self.truth
        } else {
            0
        }
    }

    fn granule(self, granule: Granule) -> u8 {
        match granule {
            Granule::Kib4 => self.kib_4,
            Granule::Kib16 => GRANULE_16,
            Granule::Kib64 => GRANULE_64,
        }
    }

    pub fn regime(self, regime: &Regime) -> CRegime {
        let [lower, upper] = &regime.ranges;
        CRegime {
            start: regime.pool.start,
            length: regime.pool.length,
            address: regime.pool.address,
            root0: lower.root,
            root1: upper.root,
            attributes: u64::from_le_bytes(regime.attributes),
            tsz0: lower.t,
            tsz1: upper.t,
            disabled0: self.flag(lower.disabled),
            disabled1: self.flag(upper.disabled),
            output: regime.output_code,
            ha: self.flag(regime.ha),
            hd: self.flag(regime.hd),
            wxn: self.flag(regime.wxn),
            hpd0: self.flag(lower.hpd),
            hpd1: self.flag(upper.hpd),
            ee: self.flag(regime.ee),
            granule: self.granule(regime.granule),
            spare: self.spare(1),
        }
    }

    pub fn access(self, access: &Access) -> CAccess {
        CAccess {
            address: access.address,
            size: access.size,
            el0: self.flag(access.el0),
            kind: match access.kind {
                Kind::Read => 0,
                Kind::Write => 1,
                Kind::Update => self.update,
                Kind::Fetch => 3,
                Kind::ProbeRead => 4,
                Kind::ProbeWrite => 5,
            },
            spare: self.spare(2),
        }
    }
}

/// An answer of the reference in the library's form; what a case does not
/// carry is 0, and so is what is spare.
pub fn plain_answer(answer: &Answer) -> CAnswer {
    match *answer {
        Answer::Success(success) => CAnswer {
            output: success.output,
            tag: SUCCESS,
            level: success.level,
            attribute: success.attribute,
            shareability: success.shareability,
            nonglobal: u8::from(success.nonglobal),
            accessed: u8::from(success.accessed),
            dirtied: u8::from(success.dirtied),
            cacheable: u8::from(success.rememberable),
            reads: success.reads,
            ..CAnswer::default()
        },
        Answer::Fault(fault) => CAnswer {
            tag: FAULT,
            code: fault.stop.code(),
            level: fault.stop.level,
            cacheable: u8::from(fault.rememberable),
            reads: fault.reads,
            ..CAnswer::default()
        },
        Answer::Refused(number) => CAnswer {
            tag: REFUSED,
            refusal: number,
            ..CAnswer::default()
        },
    }
}

pub type WalkFunction =
    unsafe extern "C" fn(*mut u8, usize, *const CRegime, *const CAccess, *mut CAnswer);

/// The library under test.
#[derive(Clone, Copy)]
pub struct Library {
    walk: WalkFunction,
}

impl Library {
    /// # Safety
    ///
    /// The function must touch no byte but the `length` bytes and the three
    /// structs it is lent, must not write those lent as `*const`, and must be
    /// fit to be called with any numbers in them.
    pub unsafe fn new(walk: WalkFunction) -> Self {
        Library { walk }
    }

    pub fn walk(
        &self,
        memory: &mut [u8],
        regime: &Regime,
        access: &Access,
        spelling: Spelling,
    ) -> CAnswer {
        let (regime, access) = (spelling.regime(regime), spelling.access(access));
        let (start, length) = (memory.as_mut_ptr(), memory.len());
        let mut answer = scribbled(spelling.noise);
        // SAFETY: pointer and length are those of one slice that, like the
        // structs, is ours alone for the time of the call; the rest is
        // promised to `new`.
        unsafe { (self.walk)(start, length, &regime, &access, &mut answer) };
        answer
    }
}

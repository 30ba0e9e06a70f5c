//! The walk a descriptor at a time: its struct, and its functions.

use super::{
    difference, plain_answer, scribbled, CAccess, CAnswer, CRegime, Plain, Spelling, REFUSED,
    SUM_BITS,
};
use crate::random::Random;
use crate::reference::{Access, Regime, PXN_TABLE, TAKING_FIELD};
use crate::stepwise::{End, State, Stepwise};
use std::mem::{offset_of, size_of};

/// A walk a descriptor at a time (RULES 15.10).
#[repr(C)]
#[derive(Clone, Copy, Debug)]
pub struct CStepwise {
    pub regime: CRegime,
    pub access: CAccess,
    pub answer: CAnswer,
    pub address: u64,
    pub expected: u64,
    pub value: u64,
    pub ended: u8,
    pub update: u8,
    /// Levels below the descriptor that is wanted.
    pub left: u8,
    /// The tables' sum in bits 3..0 (RULES 15.8).
    pub tables: u8,
    pub spare: [u8; 4],
}

const _: () = {
    assert!(offset_of!(CStepwise, access) == 64);
    assert!(offset_of!(CStepwise, answer) == 88);
    assert!(offset_of!(CStepwise, address) == 112);
    assert!(offset_of!(CStepwise, expected) == 120);
    assert!(offset_of!(CStepwise, value) == 128);
    assert!(offset_of!(CStepwise, ended) == 136);
    assert!(offset_of!(CStepwise, update) == 137);
    assert!(offset_of!(CStepwise, left) == 138);
    assert!(offset_of!(CStepwise, tables) == 139);
    assert!(offset_of!(CStepwise, spare) == 140);
    assert!(size_of::<CStepwise>() == 144);
};

// SAFETY: the sizes of its fields add up to 144, and those of a regime, an
// access and an answer to theirs.
unsafe impl Plain for CStepwise {}

/// The answer of a walk that has not ended.
const NO_ANSWER: CAnswer = CAnswer {
    output: 0,
    tag: REFUSED,
    refusal: 0,
    code: 0,
    level: 0,
    attribute: 0,
    shareability: 0,
    nonglobal: 0,
    accessed: 0,
    dirtied: 0,
    cacheable: 0,
    reads: 0,
    spare: [0; 4],
};

impl CStepwise {
    /// What a call leaves of a walk (RULES 15.10): its regime and its access as
    /// they are spelled, and 0 wherever there is nothing to say. RULES 15.1 and
    /// 15.9 can be read so that flags and the granule have one spelling here;
    /// this reading was chosen after the library was seen to differ from that.
    pub fn of(regime: &CRegime, access: &CAccess, state: &State) -> Self {
        let empty = CStepwise {
            regime: regime.kept(),
            access: access.kept(),
            answer: NO_ANSWER,
            address: 0,
            expected: 0,
            value: 0,
            ended: 0,
            update: 0,
            left: 0,
            tables: 0,
            spare: [0; 4],
        };
        match *state {
            State::Wants { entry, left, bits } => CStepwise {
                address: entry,
                left,
                tables: (bits >> PXN_TABLE) as u8 & SUM_BITS,
                ..empty
            },
            State::Ended(end) => empty.ended_with(&end),
        }
    }

    fn ended_with(self, end: &End) -> Self {
        let ended = CStepwise {
            answer: plain_answer(&end.answer),
            ended: 1,
            ..self
        };
        match end.update {
            None => ended,
            Some(update) => CStepwise {
                address: update.address,
                expected: update.expected,
                value: update.value,
                update: 1,
                ..ended
            },
        }
    }

    /// The walk that these numbers say, where it has not ended; whatever they
    /// are (RULES 16.6).
    pub fn read(&self) -> Option<Stepwise> {
        (self.ended == 0).then(|| Stepwise {
            regime: self.regime.read(),
            access: self.access.read(),
            state: State::Wants {
                entry: self.address,
                left: self.left,
                bits: u64::from(self.tables) << PXN_TABLE & TAKING_FIELD,
            },
        })
    }

    /// The first byte in which it is not as it should be.
    pub fn difference(&self, wanted: &CStepwise) -> Option<String> {
        difference("walk", self, wanted)
    }

    /// A walk of random bytes.
    pub fn scribbled(noise: u64) -> Self {
        scribbled(noise)
    }

    /// Turns some bits of some bytes over.
    pub fn disturb(&mut self, random: &mut Random, count: u64) {
        let bytes = super::bytes_mut(self);
        for _ in 0..count {
            let at = random.below(bytes.len() as u64) as usize;
            bytes[at] ^= random.between(1, 0xFF) as u8;
        }
    }
}

/// A walk that can be tried: the library's, or in the tests another one.
pub trait Stepper {
    /// Every byte of what stood in the walk is to be overwritten.
    fn start(&self, regime: &CRegime, access: &CAccess, walk: &mut CStepwise);
    fn value(&self, walk: &mut CStepwise, value: u64) -> u8;
    fn unreachable(&self, walk: &mut CStepwise) -> u8;

    /// Offers a value, or that there is none to be had.
    fn offer(&self, walk: &mut CStepwise, offered: Option<u64>) -> u8 {
        match offered {
            Some(value) => self.value(walk, value),
            None => self.unreachable(walk),
        }
    }

    /// Starts a walk over noise.
    fn begin(&self, regime: &Regime, access: &Access, spelling: Spelling) -> CStepwise {
        let mut walk = scribbled(spelling.noise);
        let (regime, access) = (spelling.regime(regime), spelling.access(access));
        self.start(&regime, &access, &mut walk);
        walk
    }
}

/// The library's functions on such a walk.
#[derive(Clone, Copy)]
pub struct StepwiseFunctions {
    pub start: unsafe extern "C" fn(*const CRegime, *const CAccess, *mut CStepwise),
    pub value: unsafe extern "C" fn(*mut CStepwise, u64) -> u8,
    pub unreachable: unsafe extern "C" fn(*mut CStepwise) -> u8,
}

/// The library under test.
#[derive(Clone, Copy)]
pub struct LibraryStepwise {
    functions: StepwiseFunctions,
}

impl LibraryStepwise {
    /// # Safety
    ///
    /// The functions must touch no byte but the structs they are lent, must
    /// write none lent as `*const`, and must be fit to be called with any
    /// numbers and any walk.
    pub unsafe fn new(functions: StepwiseFunctions) -> Self {
        LibraryStepwise { functions }
    }
}

impl Stepper for LibraryStepwise {
    fn start(&self, regime: &CRegime, access: &CAccess, walk: &mut CStepwise) {
        // SAFETY: the structs are ours alone for the time of the call; the
        // rest is promised to `new`.
        unsafe { (self.functions.start)(regime, access, walk) }
    }

    fn value(&self, walk: &mut CStepwise, value: u64) -> u8 {
        // SAFETY: as for `start`.
        unsafe { (self.functions.value)(walk, value) }
    }

    fn unreachable(&self, walk: &mut CStepwise) -> u8 {
        // SAFETY: as for `start`.
        unsafe { (self.functions.unreachable)(walk) }
    }
}

//! The library's C interface, with the records and functions of the Rust
//! bindings, and the two functions of `kernels`, which only this program
//! calls. Both sides take and give these records.

#[path = "../../bindings/rust/src/ffi.rs"]
#[allow(dead_code)]
mod ffi;

pub use ffi::{Access, Answer, Regime};

use crate::steps::{Steps, Update};

pub const READ: u8 = 0;
pub const WRITE: u8 = 1;
pub const FETCH: u8 = 3;
pub const PROBE_READ: u8 = 4;
pub const PROBE_WRITE: u8 = 5;

pub const KIB4: u8 = 0;
pub const KIB64: u8 = 1;
pub const KIB16: u8 = 2;

pub const SUCCESS: u8 = 0;
pub const FAULT: u8 = 1;
pub const REFUSED: u8 = 2;

extern "C" {
    fn vmsa_descriptor_load(memory: *const u8, length: usize, at: usize, ee: u8) -> u64;
    fn vmsa_descriptor_store(memory: *mut u8, length: usize, at: usize, value: u64, ee: u8);
}

#[inline(always)]
pub fn load(memory: &[u8], at: usize, ee: u8) -> u64 {
    // SAFETY: the pointer and length are those of a slice lent to this call,
    // and the library takes any offset and stays inside the slice.
    unsafe { vmsa_descriptor_load(memory.as_ptr(), memory.len(), at, ee) }
}

#[inline(always)]
pub fn store(memory: &mut [u8], at: usize, value: u64, ee: u8) {
    // SAFETY: as for `load`; the slice is lent to this call alone.
    unsafe { vmsa_descriptor_store(memory.as_mut_ptr(), memory.len(), at, value, ee) }
}

#[inline(always)]
pub fn walk(memory: &mut [u8], regime: &Regime, access: &Access) -> Answer {
    ffi::walk(memory, regime, access)
}

#[inline(always)]
pub fn harvest(memory: &mut [u8], regime: &Regime, first: u64, count: u64, map: &mut [u8]) -> u8 {
    ffi::harvest(memory, regime, first, count, map)
}

/// The library's session; its fields are the library's own.
#[derive(Clone, Copy, Debug, PartialEq)]
pub struct Session(ffi::Session);

impl Session {
    pub fn empty() -> Session {
        Session(ffi::session_empty())
    }

    #[inline(always)]
    pub fn set_regime(&mut self, memory: &[u8], regime: &Regime) -> u8 {
        ffi::session_set_regime(&mut self.0, memory, regime)
    }

    #[inline(always)]
    pub fn access(&mut self, memory: &mut [u8], access: &Access) -> Answer {
        ffi::session_access(&mut self.0, memory, access)
    }

    #[inline(always)]
    pub fn store(&mut self, memory: &mut [u8], address: u64, value: u64) -> u8 {
        ffi::session_store(&mut self.0, memory, address, value)
    }

    #[inline(always)]
    pub fn invalidate_all(&mut self) {
        ffi::session_invalidate_all(&mut self.0);
    }

    #[inline(always)]
    pub fn harvest(&mut self, memory: &mut [u8], first: u64, count: u64, map: &mut [u8]) -> u8 {
        ffi::session_harvest(&mut self.0, memory, first, count, map)
    }
}

/// The library's walk a descriptor at a time.
#[derive(Clone, Copy)]
pub struct Stepwise(ffi::Stepwise);

impl Steps for Stepwise {
    #[inline(always)]
    fn start(regime: &Regime, access: &Access) -> Stepwise {
        Stepwise(ffi::stepwise_start(regime, access))
    }

    #[inline(always)]
    fn value(&mut self, value: u64) -> u8 {
        ffi::stepwise_value(&mut self.0, value)
    }

    #[inline(always)]
    fn unreachable(&mut self) -> u8 {
        ffi::stepwise_unreachable(&mut self.0)
    }

    #[inline(always)]
    fn wanted(&self) -> Option<u64> {
        (self.0.ended == 0).then_some(self.0.address)
    }

    #[inline(always)]
    fn end(&self) -> (Answer, Option<Update>) {
        let update = Update {
            address: self.0.address,
            expected: self.0.expected,
            value: self.0.value,
        };
        (self.0.answer, (self.0.update != 0).then_some(update))
    }
}

//! The C interface: the structs, the functions, and a safe form of each.
//!
//! Only integers and pointers cross. No struct has padding: the spare bytes
//! have no say in what is given to the library, and are 0 in what it gives.

#![allow(unsafe_code)]

use std::mem::{offset_of, size_of, MaybeUninit};

// The path is named because `bench` takes this file in from its own folder.
#[cfg(test)]
#[path = "ffi/tests.rs"]
mod tests;

#[repr(C)]
#[derive(Clone, Copy, Debug, PartialEq, Eq)]
pub struct Regime {
    pub start: usize,
    pub length: usize,
    pub address: u64,
    pub root0: u64,
    pub root1: u64,
    pub attributes: u64,
    pub tsz0: u8,
    pub tsz1: u8,
    pub disabled0: u8,
    pub disabled1: u8,
    pub output: u8,
    pub ha: u8,
    pub hd: u8,
    pub wxn: u8,
    pub hpd0: u8,
    pub hpd1: u8,
    pub ee: u8,
    pub granule: u8,
    pub spare: [u8; 4],
}

#[repr(C)]
#[derive(Clone, Copy, Debug, PartialEq, Eq)]
pub struct Access {
    pub address: u64,
    pub size: u64,
    pub el0: u8,
    pub kind: u8,
    pub spare: [u8; 6],
}

#[repr(C)]
#[derive(Clone, Copy, Debug, Default, PartialEq, Eq)]
pub struct Answer {
    pub output: u64,
    pub tag: u8,
    pub refusal: u8,
    pub code: u16,
    pub level: u8,
    pub attribute: u8,
    pub shareability: u8,
    pub nonglobal: u8,
    pub accessed: u8,
    pub dirtied: u8,
    pub cacheable: u8,
    pub reads: u8,
    pub spare: [u8; 4],
}

#[repr(C)]
#[derive(Clone, Copy, Debug, Default, PartialEq, Eq)]
pub struct Entry {
    pub page: u64,
    pub value: u64,
    pub left: u8,
    pub held: u8,
    pub tables: u8,
    pub spare: [u8; 5],
}

pub const ENTRIES: usize = 64;

#[repr(C)]
#[derive(Clone, Copy, Debug, PartialEq, Eq)]
pub struct Session {
    pub regime: Regime,
    pub entries: [Entry; ENTRIES],
    pub set: u8,
    pub spare: [u8; 7],
}

#[repr(C)]
#[derive(Clone, Copy, Debug, PartialEq, Eq)]
pub struct Stepwise {
    pub regime: Regime,
    pub access: Access,
    pub answer: Answer,
    pub address: u64,
    pub expected: u64,
    pub value: u64,
    pub ended: u8,
    pub update: u8,
    pub left: u8,
    pub tables: u8,
    pub spare: [u8; 4],
}

/// The size of a field.
const fn width<S, F>(_: fn(&S) -> &F) -> usize {
    size_of::<F>()
}

/// Where each field lies, and that there is no padding: the sizes of the
/// fields add up to that of the struct. With another layout the crate does not
/// compile.
macro_rules! layout {
    ($name:ident: $size:literal, $($field:ident: $offset:literal),+) => {
        const _: () = {
            assert!(size_of::<$name>() == $size);
            $(assert!(offset_of!($name, $field) == $offset);)+
            assert!(0 $(+ width(|s: &$name| &s.$field))+ == $size);
        };
    };
}

layout!(
    Regime: 64,
    start: 0, length: 8, address: 16, root0: 24, root1: 32, attributes: 40,
    tsz0: 48, tsz1: 49, disabled0: 50, disabled1: 51, output: 52,
    ha: 53, hd: 54, wxn: 55, hpd0: 56, hpd1: 57, ee: 58, granule: 59, spare: 60
);
layout!(Access: 24, address: 0, size: 8, el0: 16, kind: 17, spare: 18);
layout!(
    Answer: 24,
    output: 0, tag: 8, refusal: 9, code: 10, level: 12, attribute: 13,
    shareability: 14, nonglobal: 15, accessed: 16, dirtied: 17, cacheable: 18,
    reads: 19, spare: 20
);
layout!(
    Entry: 24,
    page: 0, value: 8, left: 16, held: 17, tables: 18, spare: 19
);
layout!(Session: 1608, regime: 0, entries: 64, set: 1600, spare: 1601);
layout!(
    Stepwise: 144,
    regime: 0, access: 64, answer: 88, address: 112, expected: 120, value: 128,
    ended: 136, update: 137, left: 138, tables: 139, spare: 140
);

extern "C" {
    fn vmsa_version() -> u32;
    fn vmsa_walk(
        memory: *mut u8,
        length: usize,
        regime: *const Regime,
        access: *const Access,
        answer: *mut Answer,
    );
    fn vmsa_session_empty(session: *mut Session);
    fn vmsa_session_set_regime(
        session: *mut Session,
        memory: *const u8,
        length: usize,
        regime: *const Regime,
    ) -> u8;
    fn vmsa_session_access(
        session: *mut Session,
        memory: *mut u8,
        length: usize,
        access: *const Access,
        answer: *mut Answer,
    );
    fn vmsa_session_store(
        session: *mut Session,
        memory: *mut u8,
        length: usize,
        address: u64,
        value: u64,
    ) -> u8;
    fn vmsa_session_invalidate_all(session: *mut Session);
    fn vmsa_harvest(
        memory: *mut u8,
        length: usize,
        regime: *const Regime,
        first: u64,
        count: u64,
        map: *mut u8,
        map_length: usize,
    ) -> u8;
    fn vmsa_session_harvest(
        session: *mut Session,
        memory: *mut u8,
        length: usize,
        first: u64,
        count: u64,
        map: *mut u8,
        map_length: usize,
    ) -> u8;
    fn vmsa_stepwise_start(regime: *const Regime, access: *const Access, walk: *mut Stepwise);
    fn vmsa_stepwise_value(walk: *mut Stepwise, value: u64) -> u8;
    fn vmsa_stepwise_unreachable(walk: *mut Stepwise) -> u8;
}

// What makes each call below sound: the structs have the library's layout (the
// asserts above), a slice is a pointer and its length, and the library takes
// any value, stays inside the slices and the structs, writes none that is lent
// as `*const`, and keeps no pointer. An answer, the fresh session and the start
// of a stepwise walk it only writes, and every byte of it; any bytes are one.

pub fn version() -> u32 {
    // SAFETY: takes nothing.
    unsafe { vmsa_version() }
}

pub fn walk(memory: &mut [u8], regime: &Regime, access: &Access) -> Answer {
    let mut answer = MaybeUninit::uninit();
    // SAFETY: the pointer and length are those of a slice lent to this call.
    // The call reads nothing of the answer and writes all of it, so that it is
    // initialised afterwards.
    unsafe {
        vmsa_walk(
            memory.as_mut_ptr(),
            memory.len(),
            regime,
            access,
            answer.as_mut_ptr(),
        );
        answer.assume_init()
    }
}

pub fn session_empty() -> Session {
    let mut session = MaybeUninit::uninit();
    // SAFETY: the call reads nothing of the session and writes all of it, so
    // that it is initialised afterwards.
    unsafe {
        vmsa_session_empty(session.as_mut_ptr());
        session.assume_init()
    }
}

pub fn session_set_regime(session: &mut Session, memory: &[u8], regime: &Regime) -> u8 {
    // SAFETY: as for `walk`; the session is lent to this call alone, and the
    // memory is only read.
    unsafe { vmsa_session_set_regime(session, memory.as_ptr(), memory.len(), regime) }
}

pub fn session_access(session: &mut Session, memory: &mut [u8], access: &Access) -> Answer {
    let mut answer = MaybeUninit::uninit();
    // SAFETY: as for `walk`, the answer too; the session is lent to this call
    // alone.
    unsafe {
        vmsa_session_access(
            session,
            memory.as_mut_ptr(),
            memory.len(),
            access,
            answer.as_mut_ptr(),
        );
        answer.assume_init()
    }
}

pub fn session_store(session: &mut Session, memory: &mut [u8], address: u64, value: u64) -> u8 {
    // SAFETY: as for `session_access`.
    unsafe { vmsa_session_store(session, memory.as_mut_ptr(), memory.len(), address, value) }
}

pub fn session_invalidate_all(session: &mut Session) {
    // SAFETY: the session is lent to this call alone.
    unsafe { vmsa_session_invalidate_all(session) }
}

pub fn harvest(memory: &mut [u8], regime: &Regime, first: u64, count: u64, map: &mut [u8]) -> u8 {
    // SAFETY: as for `walk`; the map is a slice too, and being lent as `&mut`
    // overlaps nothing.
    unsafe {
        vmsa_harvest(
            memory.as_mut_ptr(),
            memory.len(),
            regime,
            first,
            count,
            map.as_mut_ptr(),
            map.len(),
        )
    }
}

pub fn session_harvest(
    session: &mut Session,
    memory: &mut [u8],
    first: u64,
    count: u64,
    map: &mut [u8],
) -> u8 {
    // SAFETY: as for `harvest`; the session is lent to this call alone.
    unsafe {
        vmsa_session_harvest(
            session,
            memory.as_mut_ptr(),
            memory.len(),
            first,
            count,
            map.as_mut_ptr(),
            map.len(),
        )
    }
}

pub fn stepwise_start(regime: &Regime, access: &Access) -> Stepwise {
    let mut walk = MaybeUninit::uninit();
    // SAFETY: the call reads nothing of the walk and writes all of it, so that
    // it is initialised afterwards.
    unsafe {
        vmsa_stepwise_start(regime, access, walk.as_mut_ptr());
        walk.assume_init()
    }
}

pub fn stepwise_value(walk: &mut Stepwise, value: u64) -> u8 {
    // SAFETY: the walk is lent to this call alone.
    unsafe { vmsa_stepwise_value(walk, value) }
}

pub fn stepwise_unreachable(walk: &mut Stepwise) -> u8 {
    // SAFETY: the walk is lent to this call alone.
    unsafe { vmsa_stepwise_unreachable(walk) }
}

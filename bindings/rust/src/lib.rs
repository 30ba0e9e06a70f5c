//! Stage 1 translation of an Arm guest's addresses, for the emulated devices
//! of a monitor: VMSAv8-64, EL1&0 regime, granules of 4, 16 and 64 KiB, 48 bits
//! of output.
//!
//! A device that reads or writes guest memory asks [`walk`], or a [`Session`]
//! that holds translations, for the physical address; where the tables cannot
//! be lent, a [`StepwiseWalk`](#a-descriptor-at-a-time). The walk obeys the
//! guest's permissions, sets the Access flag and marks written pages dirty,
//! as the hardware would, for a guest that uses none of the features
//! [below](#what-a-guest-must-not-use). A [harvest](#dirty-pages) says which
//! pages are marked, and makes them clean again, for a migration say. The work
//! is done by a proved library with a C interface; this crate is its safe form.
//!
//! The caller lends a memory. The guest's tables lie in a part of it, the
//! [`Pool`]; no byte outside the pool is changed or has a say in any answer.
//! Nothing needs checking before a call: any bytes, any regime and any access
//! get an answer, which is a [`Translation`], a [`Fault`] for the guest, or a
//! [`Refusal`] where the call itself makes no sense. Neither a fault nor a
//! refusal changes the memory. `docs/RULES.md`, in the library's repository,
//! has all the rules.
//!
//! ```
//! use vmsa::{Access, OutputSize, PhysAddr, Pool, Range, Regime, VirtAddr};
//!
//! // Four tables of one entry each; the last maps page 0x403 writable-clean.
//! let mut memory = vec![0; 0x10000];
//! let mut put = |offset: usize, descriptor: u64| {
//!     memory[offset..offset + 8].copy_from_slice(&descriptor.to_le_bytes());
//! };
//! put(0x0000, 0x4000_1003);
//! put(0x1000, 0x4000_2003);
//! put(0x2010, 0x4000_3003);
//! put(0x3018, 0x0008_0000_8000_53c3);
//!
//! let regime = Regime::new()
//!     .pool(Pool::new(0, 0x10000, PhysAddr(0x4000_0000)))
//!     .range0(Range::new(PhysAddr(0x4000_0000), 16))
//!     .output(OutputSize::Bits48)
//!     .ha(true)
//!     .hd(true)
//!     .attributes([0xff; 8]);
//!
//! let write = Access::write(VirtAddr(0x40_3abc), 4).el0();
//! let found = vmsa::walk(&mut memory, &regime, &write)?;
//! assert_eq!(found.output, PhysAddr(0x8000_5abc));
//! assert!(found.accessed && found.dirtied);
//! assert_eq!(memory[0x3018..0x3020], 0x0008_0000_8000_5743_u64.to_le_bytes());
//!
//! let stop = vmsa::walk(&mut memory, &regime, &Access::fetch(VirtAddr(0x40_4000))).unwrap_err();
//! assert_eq!(stop.to_string(), "Translation fault, level 3 (0b000111)");
//! # Ok::<(), vmsa::Stop>(())
//! ```
//!
//! # A descriptor at a time
//!
//! Tables that lie across a slow bus, say, cannot be lent. A [`StepwiseWalk`]
//! has no memory: it names the address of the next descriptor, and is offered
//! the value that stands there. Where marks are due it hands out the one
//! update, and gives the answer once that is made. The pool and EE of the
//! regime have no say.
//!
//! ```
//! use std::collections::HashMap;
//! use vmsa::{Access, PhysAddr, Range, Regime, StepwiseWalk, VirtAddr};
//!
//! // The same tables, by the addresses of their descriptors.
//! let mut tables = HashMap::from([
//!     (0x4000_0000, 0x4000_1003),
//!     (0x4000_1000, 0x4000_2003),
//!     (0x4000_2010, 0x4000_3003),
//!     (0x4000_3018, 0x0008_0000_8000_53c3),
//! ]);
//!
//! let regime = Regime::new()
//!     .range0(Range::new(PhysAddr(0x4000_0000), 16))
//!     .ha(true)
//!     .hd(true)
//!     .attributes([0xff; 8]);
//!
//! let write = Access::write(VirtAddr(0x40_3abc), 4).el0();
//! let ended = StepwiseWalk::start(&regime, &write).run(|address| tables.get(&address.0).copied());
//! let answer = ended.settle(|update| {
//!     // Nobody else writes these tables.
//!     tables.insert(update.address.0, update.new);
//!     true
//! });
//! assert_eq!(answer.unwrap()?.output, PhysAddr(0x8000_5abc));
//! assert_eq!(tables[&0x4000_3018], 0x0008_0000_8000_5743);
//! # Ok::<(), vmsa::Stop>(())
//! ```
//!
//! [`StepwiseWalk`] shows the same by hand, step by step, and [`Ended::settle`]
//! the update where others write the tables too.
//!
//! # Dirty pages
//!
//! [`Session::harvest`] fills a map of bits: which of up to [`HARVEST_LIMIT`]
//! [`Pages`] are marked dirty. Those pages are then clean again, so that the
//! next write marks them again. [`harvest()`] does the same with no session.
//!
//! It reports the pages whose leaf is marked dirty, and nothing else. **A
//! written page is lost where a monitor forgets one of these:**
//!
//! 1. A page that was written and whose Access flag the guest has cleared since
//!    is **not** reported; nor is one that it has made clean or unmapped itself.
//!    With a guest that ages its pages, harvest before it does, or take every
//!    leaf with DBM set, AP\[2\] clear and the Access flag clear for dirty
//!    yourself.
//! 2. [`harvest()`] over a pool that a session has translations of **loses
//!    marks**: an entry still holds the leaf as dirty and answers the next
//!    write, which makes no new mark. Use [`Session::harvest`], or else call
//!    [`Session::invalidate_all`] at once, before the next access. Either
//!    empties one session: empty every other one that uses this pool, and throw
//!    away a [`StepwiseWalk`] that is under way.
//! 3. A page that is writable without DBM (DBM clear, AP\[2\] clear) is
//!    **never** reported. Take it for dirty always, or have the guest use DBM.
//! 4. Copy a page **after** the harvest that reports it. Where vCPUs run,
//!    invalidate their TLBs in between: they may hold the page as dirty, and
//!    write it without a mark. And carry out, before the copy, each write whose
//!    access was answered before the harvest.
//! 5. Two addresses share a leaf where two entries lead to one table. A harvest
//!    of both reports both. A harvest of one alone makes the leaf clean, and a
//!    later harvest of the other does not report it: ask for both at once, or go
//!    by the addresses that the pages lead to.
//!
//! A page that is reported is one of guest addresses. Where it leads to, a probe
//! says:
//!
//! ```
//! use vmsa::{Access, Granule, Pages, PhysAddr, Session, Stop};
//!
//! /// Where the pages lie that were written since the last call.
//! fn written(session: &mut Session, tables: &mut [u8], pages: Pages) -> Result<Vec<PhysAddr>, Stop> {
//!     let mut map = vec![0; pages.map_length()];
//!     session.harvest(tables, pages, &mut map)?;
//!     pages
//!         .dirty(&map)
//!         .map(|page| Access::probe_read(page.address(Granule::Kib4)))
//!         .map(|probe| Ok(session.access(tables, &probe)?.output))
//!         .collect()
//! }
//! # let mut tables = vec![0; 0x1000];
//! # tables[8..16].copy_from_slice(&0x0008_0000_8020_0781_u64.to_le_bytes());
//! # let root = PhysAddr(0x4000_0000);
//! # let regime = vmsa::Regime::new()
//! #     .pool(vmsa::Pool::new(0, 0x1000, root))
//! #     .range0(vmsa::Range::new(root, 39))
//! #     .ha(true)
//! #     .hd(true)
//! #     .attributes([0xff; 8]);
//! # let mut session = Session::new();
//! # session.set_regime(&tables, &regime)?;
//! # let write = Access::write(vmsa::VirtAddr(0x21_2340), 8);
//! # session.access(&mut tables, &write)?;
//! # let pages = Pages::new(vmsa::VirtPage(0x210), 4);
//! # let outputs = [0x8021_0000, 0x8021_1000, 0x8021_2000, 0x8021_3000].map(PhysAddr);
//! # assert_eq!(written(&mut session, &mut tables, pages)?, outputs);
//! # let pages = Pages::new(vmsa::VirtPage(0), 0x2000);
//! # assert_eq!(written(&mut session, &mut tables, pages)?.len(), 512);
//! # assert_eq!(written(&mut session, &mut tables, pages)?, []);
//! # Ok::<(), Stop>(())
//! ```
//!
//! # Limits
//!
//! A memory has at most [`MEMORY_LIMIT`] bytes, its pool at most [`POOL_LIMIT`],
//! and a harvest at most [`HARVEST_LIMIT`] pages. Lend the pool, not the guest's
//! RAM: the memory may be the pool and nothing else. A stepwise walk has neither
//! memory nor pool, and so no such limit. What a regime, an access or a harvest
//! is refused for, [`Regime::check`], [`Regime::check_stepwise`],
//! [`Access::check`] and [`Pages::check`] say in words.
//!
//! # What a guest must not use
//!
//! - Top-byte-ignore (TCR_EL1.TBI0, TBI1) and tagged addresses
//! - 52-bit addresses (FEAT_LPA, FEAT_LPA2)
//! - Different granules for the two ranges (TCR_EL1.TG0, TG1)
//! - A root that is aligned to its own small table, and not to the granule
//! - Dirty state management without that of the Access flag (TCR_EL1.HD 1, HA 0)
//! - Attribute byte 0xF0 (FEAT_MTE2), and those of FEAT_XS with one half zero
//! - PAN and EPAN; E0PD0, E0PD1, NFD0 and NFD1
//! - The Contiguous bit
//! - Permission indirection and overlays (FEAT_S1PIE, FEAT_S1POE)
//! - Protected table walks (HCR_EL2.PTW), and the protections of FEAT_THE
//! - The Access flag of table descriptors (TCR2_EL1.HAFT)
//! - Concatenated tables at the first level
//! - Realm and Secure state
//! - Unaligned atomics, and atomics where memory does not support them
//! - Alignment checking of Normal memory (SCTLR_EL1.A)
//! - Stage 1 switched off (SCTLR_EL1.M 0)
//! - 128-bit descriptors (FEAT_D128), VMSAv8-32
//! - Until they are added: ASIDs, stage 2
//!
//! Most of these are settings that the library is not told of: it walks the
//! tables all the same, and its answer need not be the hardware's.
//! `docs/RULES.md`, section 14, says of each what the library does, and what
//! hardware would do.
//!
//! # Threads
//!
//! `&mut [u8]` already says that nobody else reads or writes the memory while
//! a call runs, and Rust holds the monitor's own threads to it. A vCPU of the
//! guest is none of them: it writes guest memory behind Rust's back. The
//! library marks a descriptor by a plain store and not by a compare-and-swap,
//! so it could undo what a vCPU has just written there. A monitor whose tables
//! lie in memory that a running vCPU can write has three ways:
//!
//! - It stops the vCPUs for the call.
//! - It lends a copy of the pool. A success changes at most one descriptor of
//!   it, a fault or a refusal none. The monitor makes that change in the
//!   guest's memory itself, with a compare-and-swap of the old 8 bytes with
//!   the new, not swapped, whatever [`Regime::ee`](Regime::ee()) is. Where
//!   that fails, the session holds a leaf that the guest's tables do not have:
//!   empty it, and ask again.
//! - It walks a descriptor at a time, each read by an aligned load. This needs
//!   no copy, and [`Ended::settle`] makes the compare-and-swap; nothing is held.
//!
//! A harvest changes many descriptors. Over a copy of the pool each change is
//! made by a compare-and-swap of its own; where one fails the leaf stays as it
//! is, and if it is dirty the next harvest reports it.
//!
//! The second of them, with a session:
//!
//! ```
//! use std::sync::atomic::{AtomicU64, Ordering::SeqCst};
//! use vmsa::{Access, Answer, Session};
//!
//! /// An access over tables that vCPUs write meanwhile.
//! fn access(session: &mut Session, tables: &[AtomicU64], access: &Access) -> Answer {
//!     loop {
//!         let found: Vec<u64> = tables.iter().map(|entry| entry.load(SeqCst)).collect();
//!         let mut copy: Vec<u8> = found.iter().flat_map(|entry| entry.to_ne_bytes()).collect();
//!         let answer = session.access(&mut copy, access);
//!         let left = |at| u64::from_ne_bytes(copy[8 * at..][..8].try_into().unwrap());
//!         let Some(at) = (0..found.len()).find(|&at| left(at) != found[at]) else {
//!             return answer;
//!         };
//!         if tables[at].compare_exchange(found[at], left(at), SeqCst, SeqCst).is_ok() {
//!             return answer;
//!         }
//!         session.invalidate_all();
//!     }
//! }
//! # let tables: Vec<AtomicU64> = (0..512).map(|_| AtomicU64::new(0)).collect();
//! # tables[0].store(0x0008_0000_8020_0781, SeqCst);
//! # let root = vmsa::PhysAddr(0x4000_0000);
//! # let regime = vmsa::Regime::new()
//! #     .pool(vmsa::Pool::new(0, 0x1000, root))
//! #     .range0(vmsa::Range::new(root, 39))
//! #     .ha(true)
//! #     .hd(true)
//! #     .attributes([0xff; 8]);
//! # let mut session = Session::new();
//! # session.set_regime(&[0; 0x1000], &regime)?;
//! # let write = Access::write(vmsa::VirtAddr(0x1_2340), 8);
//! # assert!(access(&mut session, &tables, &write)?.dirtied);
//! # assert_eq!(tables[0].load(SeqCst), 0x0008_0000_8020_0701);
//! # assert_eq!(access(&mut session, &tables, &write)?.reads, 0);
//! # Ok::<(), vmsa::Stop>(())
//! ```
//!
//! A [`Session`] and a [`StepwiseWalk`] may go from thread to thread like any
//! other value.

#![deny(missing_docs)]
#![deny(unsafe_code)]

mod access;
mod address;
mod answer;
mod check;
mod ffi;
mod granule;
mod harvest;
mod problem;
mod refusal;
mod regime;
mod session;
mod stepwise;

pub use access::{Access, AccessKind, ExceptionLevel};
pub use address::{PhysAddr, VirtAddr, VirtPage};
pub use answer::{Answer, Fault, FaultKind, Shareability, Stop, Translation};
pub use granule::Granule;
pub use harvest::{harvest, DirtyPages, Pages};
pub use problem::Problem;
pub use refusal::Refusal;
pub use regime::{OutputSize, Pool, Range, Regime};
pub use session::Session;
pub use stepwise::{Ended, LeafUpdate, Step, StepwiseWalk, TablesSum};

/// The most bytes of a lent memory.
pub const MEMORY_LIMIT: usize = 16_777_216;

/// The most bytes of a pool: 256 tables of 4 KiB, 64 of 16 KiB, or 16 of
/// 64 KiB. The last descriptor of such a pool is at offset `POOL_LIMIT - 8`.
pub const POOL_LIMIT: usize = 1_048_576;

/// The most pages of a harvest.
pub const HARVEST_LIMIT: u64 = 65_536;

/// The version of the C interface that this crate speaks.
pub const VERSION: u32 = 11;

/// The version of the library that is linked in; to be [`VERSION`].
pub fn version() -> u32 {
    ffi::version()
}

/// Walks the tables for one access and holds nothing.
///
/// On success with HA on, the leaf's Access flag is set; with HD on too, a
/// write or update of a writable-clean page (DBM and AP\[2\] both 1, and no
/// bit 62 above it) also clears AP\[2\]. A probe changes nothing, and so does
/// whatever stops the walk. The tables on the way take permissions away from
/// the leaf, unless [`Range::hpd`](Range::hpd()) is on. Descriptors are read
/// and marked in the byte order of [`Regime::ee`](Regime::ee()), and tables have
/// the shape of [`Regime::granule`](Regime::granule()). [`Refusal`] has the
/// order of the checks.
///
/// ```
/// use vmsa::{walk, Access, Refusal, Regime, Stop, VirtAddr};
///
/// let read = Access::read(VirtAddr(0x1000), 8);
/// assert_eq!(
///     walk(&mut [], &Regime::new(), &read),
///     Err(Stop::Refused(Refusal::MemoryPool)),
/// );
/// ```
pub fn walk(memory: &mut [u8], regime: &Regime, access: &Access) -> Answer {
    ffi::walk(memory, &regime.into(), &access.into()).into()
}

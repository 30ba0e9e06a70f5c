//! The session: a regime and 64 TLB entries.

use std::fmt;

use crate::answer::accepted;
use crate::{ffi, Access, Answer, Pages, PhysAddr, Refusal, Regime};

/// A session: the regime last accepted, and 64 TLB entries.
///
/// A page's entry is the one of its number mod 64, counted in pages of the
/// regime's [granule](Regime::granule()). It holds the page's leaf as the walk
/// left it, and what the tables on the way to it take away
/// ([`Range::hpd`](crate::Range::hpd())) as the walk met them. A page held
/// there is answered with 0 reads, unless the access would mark it dirty; that
/// walks again. Between a [`store`](Session::store) and the next access, call
/// [`invalidate_all`](Session::invalidate_all): each access is then answered as
/// by the plain [`walk`](crate::walk()) of that moment, its count of reads
/// apart. A [`harvest`](Session::harvest) is such a call itself.
///
/// ```
/// use vmsa::{Access, PhysAddr, Pool, Range, Regime, Session, Stop, VirtAddr};
///
/// let mut memory = vec![0; 0x1000];
/// let regime = Regime::new()
///     .pool(Pool::new(0, 0x1000, PhysAddr(0x4000_0000)))
///     .range0(Range::new(PhysAddr(0x4000_0000), 39))
///     .ha(true)
///     .hd(true)
///     .attributes([0xff; 8]);
///
/// let mut session = Session::new();
/// session.set_regime(&memory, &regime)?;
///
/// // A writable-clean block of 2 MiB for the first entry of the root.
/// let root = PhysAddr(0x4000_0000);
/// session.store(&mut memory, root, 0x0008_0000_8020_0781)?;
///
/// let write = Access::write(VirtAddr(0x1_2340), 8);
/// let first = session.access(&mut memory, &write)?;
/// assert_eq!(first.output, PhysAddr(0x8021_2340));
/// assert!(first.dirtied);
/// assert_eq!(first.reads, 1);
/// assert_eq!(session.access(&mut memory, &write)?.reads, 0);
///
/// // What a store changes is seen once the entries are emptied.
/// session.store(&mut memory, root, 0x0008_0000_8040_0781)?;
/// assert_eq!(session.access(&mut memory, &write)?.output, first.output);
/// session.invalidate_all();
/// assert_eq!(session.access(&mut memory, &write)?.output, PhysAddr(0x8041_2340));
/// # Ok::<(), Stop>(())
/// ```
#[derive(Clone, PartialEq, Eq)]
pub struct Session {
    pub(crate) words: ffi::Session,
}

impl Session {
    /// The fresh session: no regime, every entry empty.
    pub fn new() -> Self {
        Self {
            words: ffi::session_empty(),
        }
    }

    /// Sets the regime and empties every entry. Call it again when the guest
    /// changes a register that the regime stands for, SCTLR_EL1.EE
    /// ([`Regime::ee`](Regime::ee())) among them.
    ///
    /// # Errors
    ///
    /// A [`Refusal`], which has the order of the checks. [`Regime::check`]
    /// names the cause.
    pub fn set_regime(&mut self, memory: &[u8], regime: &Regime) -> Result<(), Refusal> {
        accepted(ffi::session_set_regime(
            &mut self.words,
            memory,
            &regime.into(),
        ))
    }

    /// Answers an access from its page's entry, or else by a walk.
    ///
    /// # Errors
    ///
    /// A fault, or a [`Refusal`], which has the order of the checks.
    pub fn access(&mut self, memory: &mut [u8], access: &Access) -> Answer {
        ffi::session_access(&mut self.words, memory, &access.into()).into()
    }

    /// Stores a descriptor at a physical address in the pool. No entry
    /// changes.
    ///
    /// The descriptor is a number, as a register of the guest holds it. Its 8
    /// bytes are written in the byte order of the session's regime:
    ///
    /// ```
    /// use vmsa::{PhysAddr, Pool, Refusal, Regime, Session};
    ///
    /// let root = PhysAddr(0x4000_0000);
    /// let regime = Regime::new().pool(Pool::new(0, 0x1000, root));
    /// let mut memory = vec![0; 0x1000];
    /// let mut session = Session::new();
    ///
    /// session.set_regime(&memory, &regime)?;
    /// session.store(&mut memory, root, 0x4000_1003)?;
    /// assert_eq!(memory[..8], 0x4000_1003_u64.to_le_bytes());
    ///
    /// session.set_regime(&memory, &regime.ee(true))?;
    /// session.store(&mut memory, root, 0x4000_1003)?;
    /// assert_eq!(memory[..8], 0x4000_1003_u64.to_be_bytes());
    /// # Ok::<(), Refusal>(())
    /// ```
    ///
    /// # Errors
    ///
    /// A [`Refusal`], which has the order of the checks.
    pub fn store(
        &mut self,
        memory: &mut [u8],
        address: PhysAddr,
        descriptor: u64,
    ) -> Result<(), Refusal> {
        accepted(ffi::session_store(
            &mut self.words,
            memory,
            address.0,
            descriptor,
        ))
    }

    /// Empties every entry, and changes nothing else.
    pub fn invalidate_all(&mut self) {
        ffi::session_invalidate_all(&mut self.words);
    }

    /// Harvests dirty pages as [`harvest`](crate::harvest()) does, under the
    /// session's regime, and empties every entry; nothing else of the session
    /// changes.
    ///
    /// So the next write of a page marks it again, and no
    /// [`invalidate_all`](Self::invalidate_all) is needed. [Dirty
    /// pages](crate#dirty-pages) has what else a monitor must do so that no
    /// written page is lost.
    ///
    /// ```
    /// use vmsa::{Access, Granule, Pages, PhysAddr, Pool, Range, Regime, Session, Stop, VirtAddr};
    ///
    /// // A table of level 3 whose pages 0 and 1 are writable-clean.
    /// let mut memory = vec![0; 0x1_0000];
    /// memory[..8].copy_from_slice(&0x0008_0000_8000_0783_u64.to_le_bytes());
    /// memory[8..16].copy_from_slice(&0x0008_0000_8001_0783_u64.to_le_bytes());
    ///
    /// let root = PhysAddr(0x4000_0000);
    /// let regime = Regime::new()
    ///     .pool(Pool::new(0, 0x1_0000, root))
    ///     .range0(Range::new(root, 39))
    ///     .granule(Granule::Kib64)
    ///     .ha(true)
    ///     .hd(true)
    ///     .attributes([0xff; 8]);
    /// let mut session = Session::new();
    /// session.set_regime(&memory, &regime)?;
    ///
    /// let address = VirtAddr(0x1_2340);
    /// let page = address.page(Granule::Kib64);
    /// let pages = Pages::new(VirtAddr(0).page(Granule::Kib64), 512);
    /// let mut map = vec![0; pages.map_length()];
    ///
    /// for _ in 0..2 {
    ///     assert!(session.access(&mut memory, &Access::write(address, 8))?.dirtied);
    ///     assert_eq!(session.access(&mut memory, &Access::write(address, 8))?.reads, 0);
    ///
    ///     // Each round reports the page; now it is time to copy it.
    ///     session.harvest(&mut memory, pages, &mut map)?;
    ///     assert!(pages.dirty(&map).eq([page]));
    /// }
    /// # Ok::<(), Stop>(())
    /// ```
    ///
    /// # Errors
    ///
    /// A [`Refusal`], which has the order of the checks. It changes neither
    /// memory nor map nor session. [`Pages::check`] names the cause.
    pub fn harvest(
        &mut self,
        memory: &mut [u8],
        pages: Pages,
        map: &mut [u8],
    ) -> Result<(), Refusal> {
        accepted(ffi::session_harvest(
            &mut self.words,
            memory,
            pages.first.0,
            pages.count,
            map,
        ))
    }
}

impl Default for Session {
    fn default() -> Self {
        Self::new()
    }
}

impl fmt::Debug for Session {
    fn fmt(&self, f: &mut fmt::Formatter<'_>) -> fmt::Result {
        let held = self.words.entries.iter().filter(|entry| entry.held != 0);
        f.debug_struct("Session")
            .field("set", &(self.words.set != 0))
            .field("held", &held.count())
            .finish_non_exhaustive()
    }
}

//! What a device asks for.

use crate::{check, ffi, Granule, Problem, VirtAddr};

/// The kind of an access.
#[derive(Clone, Copy, Debug, PartialEq, Eq, Hash)]
pub enum AccessKind {
    /// A read.
    Read,
    /// A write.
    Write,
    /// An atomic read and write.
    Update,
    /// An instruction fetch.
    Fetch,
    /// The question of an AT instruction whether a read would be let through.
    ProbeRead,
    /// The same of a write.
    ProbeWrite,
}

impl AccessKind {
    /// Every kind, in the order of the library's numbers.
    pub const ALL: [Self; 6] = [
        Self::Read,
        Self::Write,
        Self::Update,
        Self::Fetch,
        Self::ProbeRead,
        Self::ProbeWrite,
    ];
}

/// Whose permissions are asked for.
#[derive(Clone, Copy, Debug, Default, PartialEq, Eq, PartialOrd, Ord, Hash)]
pub enum ExceptionLevel {
    /// The guest's applications.
    El0,
    /// The guest's kernel.
    #[default]
    El1,
}

/// An access: from EL1 unless [`Access::el0`] is added.
///
/// ```
/// use vmsa::{Access, AccessKind, ExceptionLevel, VirtAddr};
///
/// let access = Access::write(VirtAddr(0x40_3abc), 4).el0();
/// assert_eq!(access.kind, AccessKind::Write);
/// assert_eq!(access.el, ExceptionLevel::El0);
/// ```
#[derive(Clone, Copy, Debug, PartialEq, Eq, Hash)]
#[must_use]
pub struct Access {
    /// The first byte.
    pub address: VirtAddr,
    /// The count of bytes: 1, 2, 4, 8 or 16, all in one page of the regime's
    /// granule. A fetch has 4, a probe 1.
    pub size: u64,
    /// The exception level.
    pub el: ExceptionLevel,
    /// The kind.
    pub kind: AccessKind,
}

impl Access {
    /// An access of any kind from EL1.
    pub const fn new(kind: AccessKind, address: VirtAddr, size: u64) -> Self {
        Self {
            address,
            size,
            el: ExceptionLevel::El1,
            kind,
        }
    }

    /// A read.
    pub const fn read(address: VirtAddr, size: u64) -> Self {
        Self::new(AccessKind::Read, address, size)
    }

    /// A write.
    pub const fn write(address: VirtAddr, size: u64) -> Self {
        Self::new(AccessKind::Write, address, size)
    }

    /// An atomic read and write.
    pub const fn update(address: VirtAddr, size: u64) -> Self {
        Self::new(AccessKind::Update, address, size)
    }

    /// A fetch of one instruction.
    pub const fn fetch(address: VirtAddr) -> Self {
        Self::new(AccessKind::Fetch, address, 4)
    }

    /// A probe for a read.
    pub const fn probe_read(address: VirtAddr) -> Self {
        Self::new(AccessKind::ProbeRead, address, 1)
    }

    /// A probe for a write.
    pub const fn probe_write(address: VirtAddr) -> Self {
        Self::new(AccessKind::ProbeWrite, address, 1)
    }

    /// The same access from EL0.
    pub const fn el0(mut self) -> Self {
        self.el = ExceptionLevel::El0;
        self
    }

    /// The same access from EL1.
    pub const fn el1(mut self) -> Self {
        self.el = ExceptionLevel::El1;
        self
    }

    /// Says in words why the access itself would be refused, whatever the
    /// memory and the regime, but for the granule. As with
    /// [`Regime::check`](crate::Regime::check), no call needs this, and the
    /// library decides.
    ///
    /// # Errors
    ///
    /// The first cause that applies; [`Problem`] has the order.
    ///
    /// ```
    /// use vmsa::{Access, Granule, VirtAddr};
    ///
    /// let across = Access::read(VirtAddr(0x40_2ffd), 4);
    /// assert_eq!(
    ///     across.check(Granule::Kib4).unwrap_err().to_string(),
    ///     "refused with 7: the first byte, 0x402ffd, and the last, 0x403000, \
    ///      lie in different pages of 4096 bytes",
    /// );
    /// assert_eq!(across.check(Granule::Kib16), Ok(()));
    /// ```
    pub fn check(&self, granule: Granule) -> Result<(), Problem> {
        check::of_access(granule, self)
    }
}

impl From<&Access> for ffi::Access {
    fn from(access: &Access) -> Self {
        Self {
            address: access.address.0,
            size: access.size,
            el0: (access.el == ExceptionLevel::El0).into(),
            kind: access.kind as u8,
            spare: [0; 6],
        }
    }
}

//! The two kinds of address, and the numbers of the guest's pages.

use std::fmt;

use crate::Granule;

/// A physical address: of the pool, a table, a descriptor or an output.
///
/// It is shown in hexadecimal, by itself and in what holds it:
///
/// ```
/// # use vmsa::{PhysAddr, Range};
/// let root = PhysAddr(0x4000_0000);
/// assert_eq!(format!("{root}"), "0x40000000");
/// assert_eq!(format!("{root:?}"), "PhysAddr(0x40000000)");
/// assert_eq!(
///     format!("{:?}", Range::new(root, 16)),
///     "Range { root: PhysAddr(0x40000000), tsz: 16, disabled: false, hpd: false }",
/// );
/// ```
#[derive(Clone, Copy, Default, PartialEq, Eq, PartialOrd, Ord, Hash)]
pub struct PhysAddr(pub u64);

/// An address of the guest.
///
/// It does not mix with [`PhysAddr`]:
///
/// ```compile_fail
/// # use vmsa::{Access, PhysAddr};
/// Access::read(PhysAddr(0x1000), 4);
/// ```
#[derive(Clone, Copy, Default, PartialEq, Eq, PartialOrd, Ord, Hash)]
pub struct VirtAddr(pub u64);

/// The number of a page of the guest: its address divided by the granule, which
/// is address bits 63 down to 12, 14 or 16.
///
/// It counts guest addresses, and is no frame number. The pages of range 1 have
/// large numbers.
///
/// ```
/// use vmsa::{Granule, VirtAddr, VirtPage};
///
/// let page = VirtAddr(0xffff_0000_0040_3abc).page(Granule::Kib4);
/// assert_eq!(page, VirtPage(0xf_fff0_0000_0403));
/// assert_eq!(page.address(Granule::Kib4), VirtAddr(0xffff_0000_0040_3000));
/// ```
#[derive(Clone, Copy, Default, PartialEq, Eq, PartialOrd, Ord, Hash)]
pub struct VirtPage(pub u64);

impl VirtAddr {
    /// The page that the address lies in.
    pub const fn page(self, granule: Granule) -> VirtPage {
        VirtPage(self.0 >> granule.page_bits())
    }
}

impl VirtPage {
    /// The first address of the page, modulo 2^64.
    pub const fn address(self, granule: Granule) -> VirtAddr {
        VirtAddr(self.0 << granule.page_bits())
    }
}

macro_rules! number {
    ($name:ident) => {
        impl From<u64> for $name {
            fn from(number: u64) -> Self {
                Self(number)
            }
        }

        impl From<$name> for u64 {
            fn from(number: $name) -> Self {
                number.0
            }
        }

        impl fmt::Debug for $name {
            fn fmt(&self, f: &mut fmt::Formatter<'_>) -> fmt::Result {
                write!(f, "{}({self})", stringify!($name))
            }
        }

        impl fmt::Display for $name {
            fn fmt(&self, f: &mut fmt::Formatter<'_>) -> fmt::Result {
                write!(f, "{:#x}", self.0)
            }
        }

        impl fmt::LowerHex for $name {
            fn fmt(&self, f: &mut fmt::Formatter<'_>) -> fmt::Result {
                fmt::LowerHex::fmt(&self.0, f)
            }
        }

        impl fmt::UpperHex for $name {
            fn fmt(&self, f: &mut fmt::Formatter<'_>) -> fmt::Result {
                fmt::UpperHex::fmt(&self.0, f)
            }
        }
    };
}

number!(PhysAddr);
number!(VirtAddr);
number!(VirtPage);

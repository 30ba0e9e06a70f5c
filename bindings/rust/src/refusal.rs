//! Why a call is refused.

use std::error::Error;
use std::fmt;

/// Makes an enum of refusals, and all that goes by their numbers, from one
/// table: each with its number and its words.
macro_rules! refusals {
    (
        $(#[$about:meta])*
        enum $refusal:ident;
        $($(#[$doc:meta])* $name:ident = $number:literal: $words:literal;)+
    ) => {
        $(#[$about])*
        pub enum $refusal {
            $($(#[$doc])* $name,)+
        }

        impl $refusal {
            /// Every refusal, in the order of the numbers.
            pub const ALL: &'static [Self] = &[$(Self::$name),+];

            /// The number.
            pub const fn number(self) -> u8 {
                match self {
                    $(Self::$name => $number,)+
                }
            }

            pub(crate) const fn from_number(number: u8) -> Option<Self> {
                match number {
                    $($number => Some(Self::$name),)+
                    _ => None,
                }
            }

            const fn words(self) -> &'static str {
                match self {
                    $(Self::$name => $words,)+
                }
            }
        }
    };
}

refusals! {
    /// Why a call is refused. It then changes neither memory nor session, nor
    /// the map of a harvest.
    ///
    /// A call is refused with the first that applies, in its own order:
    ///
    /// | Call | Checks, in this order |
    /// |---|---|
    /// | [`walk`](crate::walk()) | 1, 2, 3, 4, 5, 13, 6, 7 |
    /// | [`Session::set_regime`](crate::Session::set_regime) | 1, 2, 3, 4, 5, 13 |
    /// | [`Session::access`](crate::Session::access) | 9, 1, 6, 7 |
    /// | [`Session::store`](crate::Session::store) | 9, 1, 8 |
    /// | [`Session::invalidate_all`](crate::Session::invalidate_all) | none |
    /// | [`harvest`](crate::harvest()) | 1, 2, 3, 4, 5, 13, 10, 11 |
    /// | [`Session::harvest`](crate::Session::harvest) | 9, 1, 2, 3, 4, 5, 13, 10, 11 |
    /// | [`StepwiseWalk::start`](crate::StepwiseWalk::start) | 3, 4, 5, 13, 6, 7 |
    ///
    /// Most numbers stand for several causes: [`Regime::check`],
    /// [`Access::check`] and [`Pages::check`] tell them apart. `docs/RULES.md`,
    /// section 5, has all of this.
    ///
    /// Later versions add numbers, so a match needs a wildcard arm. A library
    /// of this crate's [`VERSION`](crate::VERSION) gives no number but these;
    /// where one of another version is linked and does, the call panics.
    ///
    /// [`Regime::check`]: crate::Regime::check
    /// [`Access::check`]: crate::Access::check
    /// [`Pages::check`]: crate::Pages::check
    ///
    /// ```
    /// use vmsa::Refusal;
    ///
    /// assert_eq!(Refusal::PageCrossing.number(), 7);
    /// assert_eq!(
    ///     Refusal::PageCrossing.to_string(),
    ///     "refused with 7: the access crosses a page boundary",
    /// );
    ///
    /// /// What of a monitor has to be mended.
    /// fn place(refusal: Refusal) -> &'static str {
    ///     match refusal {
    ///         Refusal::AccessSize | Refusal::PageCrossing => "access",
    ///         Refusal::StoreAddress => "store",
    ///         Refusal::PageRange | Refusal::MapLength => "harvest",
    ///         Refusal::NoRegime => "order of calls",
    ///         _ => "regime or memory",
    ///     }
    /// }
    /// assert_eq!(place(Refusal::DirtyState), "regime or memory");
    /// ```
    #[derive(Clone, Copy, Debug, PartialEq, Eq, Hash)]
    #[non_exhaustive]
    enum Refusal;

    /// 1: memory above its limit; pool start or length not a multiple of the
    /// granule; pool empty, above its limit, or past the end of the memory.
    MemoryPool = 1: "the memory or the pool's part of it is out of bounds";

    /// 2: pool address not a multiple of the granule, or the pool ends above
    /// 2^48.
    PoolAddress = 2: "the pool's physical address is out of bounds";

    /// 3: T of a range outside 16 to 39. (An output size code out of bounds
    /// too; no [`OutputSize`](crate::OutputSize) is one.)
    Sizes = 3: "a size field of the regime is out of bounds";

    /// 4: a root that is not a multiple of the granule, or not below 2^48.
    Root = 4: "a root is unaligned or not below 2^48";

    /// 5: an attribute byte is neither 0x00, 0x04, 0x08, 0x0C (Device) nor has
    /// both halves nonzero (Normal).
    Attributes = 5: "an attribute byte is neither Device nor Normal memory";

    /// 6: size not 1, 2, 4, 8, 16; a fetch whose size is not 4 or address not
    /// a multiple of 4; a probe whose size is not 1.
    AccessSize = 6: "the size or alignment does not fit the kind of access";

    /// 7: first and last byte lie in different pages of the granule.
    PageCrossing = 7: "the access crosses a page boundary";

    /// 8: a store's address is not a multiple of 8, or its bytes are not all
    /// in the pool.
    StoreAddress = 8: "the descriptor is unaligned or not in the pool";

    /// 9: the session has no regime yet.
    NoRegime = 9: "the session has no regime";

    /// 10: the first page of a harvest is in neither range; no pages, more than
    /// [`HARVEST_LIMIT`](crate::HARVEST_LIMIT), or past the end of the first
    /// page's range.
    PageRange = 10: "the pages are none, too many, or not all in one range";

    /// 11: the map of a harvest has fewer bits than there are pages.
    MapLength = 11: "the map has fewer bits than there are pages";

    /// 12: something is offered to a stepwise walk that has ended. No call of
    /// this crate gives it, for such an offer does not compile: see
    /// [`StepwiseWalk`](crate::StepwiseWalk).
    WalkEnded = 12: "the walk has ended";

    /// 13: HD is on and HA is off, so that no page would be marked dirty.
    DirtyState = 13: "HD is on and HA is off";
}

impl fmt::Display for Refusal {
    fn fmt(&self, f: &mut fmt::Formatter<'_>) -> fmt::Result {
        write!(f, "refused with {}: {}", self.number(), self.words())
    }
}

impl Error for Refusal {}

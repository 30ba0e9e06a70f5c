//! The walk a descriptor at a time.

use std::fmt;

use crate::answer::OUTSIDE;
use crate::{ffi, Access, Answer, PhysAddr, Regime};

/// A walk a descriptor at a time, which wants a descriptor.
///
/// It is for tables that cannot be lent: across a slow bus, or in memory that
/// vCPUs write meanwhile. It has no memory. It names the
/// [`address`](Self::address) of the descriptor that it wants, is offered the
/// [`value`](Self::value) that stands there, or told that it is
/// [`unreachable`](Self::unreachable), and goes on. It ends after at most four
/// offers, whatever is offered; fed with what a pool holds, it ends as
/// [`walk`](crate::walk()) does over that pool.
///
/// It writes nothing. Where the Access flag or the dirty state is to be updated
/// it hands out the [`LeafUpdate`], which the caller makes before it gets the
/// answer: see [`Ended::settle`].
///
/// Of the regime, the pool and EE have no say. So it needs no pool, and a value
/// is the descriptor as a number: where the guest's descriptors are big-endian,
/// the caller turns the bytes, of a value and of an update.
///
/// ```
/// use vmsa::{Access, PhysAddr, Range, Regime, Step, StepwiseWalk, VirtAddr};
///
/// let regime = Regime::new()
///     .range0(Range::new(PhysAddr(0x4000_0000), 25))
///     .ha(true)
///     .attributes([0xff; 8]);
/// let read = Access::read(VirtAddr(0x1_2340), 8);
///
/// let Step::Wants(walk) = StepwiseWalk::start(&regime, &read) else {
///     panic!("it wants the first descriptor of the root");
/// };
/// assert_eq!((walk.address(), walk.level()), (PhysAddr(0x4000_0000), 1));
///
/// // A table, which has the next one.
/// let Step::Wants(walk) = walk.value(0x4000_1003) else {
///     panic!("it wants the first descriptor of that table");
/// };
/// assert_eq!((walk.address(), walk.level()), (PhysAddr(0x4000_1000), 2));
///
/// // A block of 2 MiB, its Access flag clear.
/// let Step::Ended(ended) = walk.value(0x8020_0001) else {
///     panic!("it has ended");
/// };
/// let update = ended.update().unwrap();
/// assert_eq!(update.address, PhysAddr(0x4000_1000));
/// assert_eq!((update.expected, update.new), (0x8020_0001, 0x8020_0401));
/// ```
///
/// An offer takes the walk, so nothing can be offered to a walk that has ended:
///
/// ```compile_fail,E0382
/// # use vmsa::StepwiseWalk;
/// fn offer_twice(walk: StepwiseWalk) {
///     let _ = walk.value(0x4000_1003);
///     let _ = walk.value(0x4000_2003);
/// }
/// ```
#[derive(Clone, PartialEq, Eq)]
#[must_use = "a walk that wants a descriptor has no answer yet"]
pub struct StepwiseWalk {
    words: ffi::Stepwise,
}

impl StepwiseWalk {
    /// Starts a walk. It may end at once: refused, or with a fault before any
    /// descriptor is read. [`Refusal`](crate::Refusal) has the order of the
    /// checks.
    ///
    /// ```
    /// use vmsa::{Access, Refusal, Regime, Step, StepwiseWalk, Stop, VirtAddr};
    ///
    /// let read = Access::read(VirtAddr(0xfff), 2);
    /// let Step::Ended(ended) = StepwiseWalk::start(&Regime::new(), &read) else {
    ///     panic!("it is refused");
    /// };
    /// let answer = ended.settle(|_| unreachable!("no update is due"));
    /// assert_eq!(answer, Some(Err(Stop::Refused(Refusal::PageCrossing))));
    /// ```
    pub fn start(regime: &Regime, access: &Access) -> Step {
        ffi::stepwise_start(&regime.into(), &access.into()).into()
    }

    /// The physical address of the descriptor that is wanted, a multiple of 8.
    pub const fn address(&self) -> PhysAddr {
        PhysAddr(self.words.address)
    }

    /// The level of the table that the descriptor stands in, 0 to 3.
    pub const fn level(&self) -> u8 {
        3_u8.saturating_sub(self.words.left)
    }

    /// What the tables so far take away from all below them.
    pub const fn tables(&self) -> TablesSum {
        if self.hpd() {
            return TablesSum::from_bits(0);
        }
        TablesSum::from_bits(self.words.tables)
    }

    /// HPD of the address's range.
    const fn hpd(&self) -> bool {
        let regime = &self.words.regime;
        let upper = self.words.access.address >> 55 & 1 == 1;
        let hpd = if upper { regime.hpd1 } else { regime.hpd0 };
        hpd != 0
    }

    /// Offers the value of the descriptor that is wanted, as a number, and goes
    /// on.
    pub fn value(mut self, value: u64) -> Step {
        let reply = ffi::stepwise_value(&mut self.words, value);
        self.after(reply)
    }

    /// Says that the descriptor that is wanted cannot be read. This ends the
    /// walk with an External abort.
    pub fn unreachable(mut self) -> Step {
        let reply = ffi::stepwise_unreachable(&mut self.words);
        self.after(reply)
    }

    /// What an offer leaves. A walk that wants a descriptor takes it.
    fn after(self, reply: u8) -> Step {
        assert_eq!(reply, 0, "{OUTSIDE}");
        self.words.into()
    }
}

impl fmt::Debug for StepwiseWalk {
    fn fmt(&self, f: &mut fmt::Formatter<'_>) -> fmt::Result {
        f.debug_struct("StepwiseWalk")
            .field("address", &self.address())
            .field("level", &self.level())
            .field("tables", &self.tables())
            .finish_non_exhaustive()
    }
}

/// Where a stepwise walk stands.
#[derive(Clone, Debug, PartialEq, Eq)]
#[must_use = "a walk goes on until it has ended"]
pub enum Step {
    /// It wants a descriptor.
    Wants(StepwiseWalk),
    /// It has ended.
    Ended(Ended),
}

impl Step {
    /// Goes on to the end with a reader, which gives the descriptor at an
    /// address, or `None` where it cannot be read. The reader is asked at most
    /// four times.
    ///
    /// ```
    /// use std::collections::HashMap;
    /// use vmsa::{Access, PhysAddr, Range, Regime, StepwiseWalk, Stop, VirtAddr};
    ///
    /// let tables = HashMap::from([(0x4000_0000, 0x4000_1003), (0x4000_1000, 0x8020_0401)]);
    /// let regime = Regime::new()
    ///     .range0(Range::new(PhysAddr(0x4000_0000), 25))
    ///     .attributes([0xff; 8]);
    ///
    /// let read = Access::read(VirtAddr(0x1_2340), 8);
    /// let ended = StepwiseWalk::start(&regime, &read)
    ///     .run(|address| tables.get(&address.0).copied());
    /// let answer = ended.settle(|_| unreachable!("the Access flag is set already"));
    /// assert_eq!(answer.unwrap()?.output, PhysAddr(0x8021_2340));
    /// # Ok::<(), Stop>(())
    /// ```
    pub fn run(mut self, mut reader: impl FnMut(PhysAddr) -> Option<u64>) -> Ended {
        loop {
            self = match self {
                Self::Wants(walk) => match reader(walk.address()) {
                    Some(value) => walk.value(value),
                    None => walk.unreachable(),
                },
                Self::Ended(ended) => return ended,
            };
        }
    }
}

impl From<ffi::Stepwise> for Step {
    fn from(words: ffi::Stepwise) -> Self {
        if words.ended == 0 {
            return Self::Wants(StepwiseWalk { words });
        }
        Self::Ended(Ended {
            answer: words.answer.into(),
            update: (words.update != 0).then_some(LeafUpdate {
                address: PhysAddr(words.address),
                expected: words.expected,
                new: words.value,
            }),
        })
    }
}

/// The end of a stepwise walk: its answer, and the update that is due.
///
/// The answer is handed out by [`settle`](Self::settle) alone, which makes the
/// update first: a page that is written and not marked is one that a migration
/// does not copy.
#[derive(Clone, Debug, PartialEq, Eq)]
#[must_use = "an update may be due, and is the caller's to make"]
pub struct Ended {
    answer: Answer,
    update: Option<LeafUpdate>,
}

impl Ended {
    /// The update that is due, if any: where the answer is a success that says
    /// `accessed` or `dirtied`.
    pub const fn update(&self) -> Option<LeafUpdate> {
        self.update
    }

    /// Makes the update that is due, if any, and gives the answer.
    ///
    /// `exchange` makes it and says whether it did. Where others may write the
    /// tables, it is a compare-and-swap. Where that finds another value than
    /// the one expected, the answer is void: `None`, and the walk is to be
    /// made again.
    ///
    /// ```
    /// use std::sync::atomic::{AtomicU64, Ordering::SeqCst};
    /// use vmsa::{Access, Answer, LeafUpdate, PhysAddr, Regime, StepwiseWalk};
    ///
    /// /// Tables that vCPUs write meanwhile.
    /// struct Tables {
    ///     address: u64,
    ///     entries: Vec<AtomicU64>,
    /// }
    ///
    /// impl Tables {
    ///     fn entry(&self, address: PhysAddr) -> Option<&AtomicU64> {
    ///         let offset = address.0.checked_sub(self.address)?;
    ///         self.entries.get(usize::try_from(offset / 8).ok()?)
    ///     }
    ///
    ///     fn exchange(&self, update: LeafUpdate) -> bool {
    ///         let LeafUpdate { address, expected, new } = update;
    ///         let entry = self.entry(address).expect("the walk has read it");
    ///         entry.compare_exchange(expected, new, SeqCst, SeqCst).is_ok()
    ///     }
    ///
    ///     fn access(&self, regime: &Regime, access: &Access) -> Answer {
    ///         loop {
    ///             let ended = StepwiseWalk::start(regime, access)
    ///                 .run(|address| Some(self.entry(address)?.load(SeqCst)));
    ///             if let Some(answer) = ended.settle(|update| self.exchange(update)) {
    ///                 return answer;
    ///             }
    ///         }
    ///     }
    /// }
    ///
    /// # let entries = (0..512).map(|_| AtomicU64::new(0)).collect();
    /// # let tables = Tables { address: 0x4000_0000, entries };
    /// // A writable-clean block of 2 MiB.
    /// tables.entries[0].store(0x0008_0000_8020_0781, SeqCst);
    /// # let regime = Regime::new()
    /// #     .range0(vmsa::Range::new(PhysAddr(0x4000_0000), 39))
    /// #     .ha(true)
    /// #     .hd(true)
    /// #     .attributes([0xff; 8]);
    /// let write = Access::write(vmsa::VirtAddr(0x1_2340), 8);
    /// let found = tables.access(&regime, &write)?;
    /// assert_eq!(found.output, PhysAddr(0x8021_2340));
    /// assert!(found.dirtied);
    /// assert_eq!(tables.entries[0].load(SeqCst), 0x0008_0000_8020_0701);
    /// # let beyond = Access::write(vmsa::VirtAddr(0x20_0000), 8);
    /// # assert_eq!(tables.access(&regime, &beyond).unwrap_err().fault().unwrap().code, 6);
    /// # assert!(!tables.access(&regime, &write)?.dirtied);
    /// # Ok::<(), vmsa::Stop>(())
    /// ```
    ///
    /// Where nobody else writes them, `exchange` may store `update.new` and
    /// return `true`.
    pub fn settle(self, exchange: impl FnOnce(LeafUpdate) -> bool) -> Option<Answer> {
        match self.update {
            Some(update) if !exchange(update) => None,
            _ => Some(self.answer),
        }
    }
}

/// An update of the leaf's descriptor: the Access flag set, AP\[2\] cleared, or
/// both. It is meant as a compare-and-swap.
#[derive(Clone, Copy, PartialEq, Eq, Hash)]
pub struct LeafUpdate {
    /// The physical address of the descriptor.
    pub address: PhysAddr,
    /// The value that was offered, and is to stand there still.
    pub expected: u64,
    /// The value to put there.
    pub new: u64,
}

impl fmt::Debug for LeafUpdate {
    fn fmt(&self, f: &mut fmt::Formatter<'_>) -> fmt::Result {
        f.debug_struct("LeafUpdate")
            .field("address", &self.address)
            .field("expected", &format_args!("{:#x}", self.expected))
            .field("new", &format_args!("{:#x}", self.new))
            .finish()
    }
}

/// What tables on the way take away from all that lies below them: each of
/// these counts where at least one of the tables has its bit, and none where
/// [`Range::hpd`](crate::Range::hpd()) is on.
#[derive(Clone, Copy, Debug, Default, PartialEq, Eq, Hash)]
pub struct TablesSum {
    /// Bit 62, APTable\[1\]: nothing may be written.
    pub no_write: bool,
    /// Bit 61, APTable\[0\]: AP\[1\] counts as 0.
    pub no_el0: bool,
    /// Bit 60, UXNTable: UXN counts as 1.
    pub no_el0_fetch: bool,
    /// Bit 59, PXNTable: PXN counts as 1.
    pub no_el1_fetch: bool,
}

impl TablesSum {
    /// Bits 3 to 0 are bits 62 to 59 of the tables.
    const fn from_bits(bits: u8) -> Self {
        Self {
            no_write: bits & 8 != 0,
            no_el0: bits & 4 != 0,
            no_el0_fetch: bits & 2 != 0,
            no_el1_fetch: bits & 1 != 0,
        }
    }
}

#[cfg(test)]
mod tests {
    use super::*;
    use crate::{Range, VirtAddr};

    #[test]
    #[should_panic(expected = "does not have this crate's interface")]
    fn an_offer_that_is_refused() {
        let regime = Regime::new().range0(Range::new(PhysAddr(0), 16));
        let step = StepwiseWalk::start(&regime, &Access::read(VirtAddr(0), 1));
        if let Step::Wants(walk) = step {
            let _ = walk.after(12);
        }
    }
}

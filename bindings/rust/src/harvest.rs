//! The harvest of dirty pages.

use std::fmt;
use std::iter::FusedIterator;

use crate::answer::accepted;
use crate::{check, ffi, Problem, Refusal, Regime, VirtPage};

/// Harvests dirty pages: the map says which pages are marked dirty, and their
/// leaves are made writable-clean again.
///
/// **Over a pool that a session has translations of, this loses marks**: use
/// [`Session::harvest`](crate::Session::harvest). [Dirty
/// pages](crate#dirty-pages) has all that a monitor must do so that no written
/// page is lost.
///
/// Bit *n* of the map (byte *n* / 8, place *n* mod 8 from the lowest) becomes 1
/// exactly where steps 1 to 5 of the walk (`docs/RULES.md`, 6) lead from page
/// `pages.first` + *n*, over the pool as the call finds it, to a leaf with the
/// Access flag and DBM set and AP\[2\] clear. The bits past the last page in its
/// byte become 0, and later bytes of the map stay as they were.
/// [`Pages::dirty`] goes through it.
///
/// Then AP\[2\] is set in each such leaf whose whole span is among the pages, in
/// the byte order of [`Regime::ee`](Regime::ee()); nothing else in the memory
/// changes. A block that sticks out of the pages is reported and left, and so
/// reported again by each harvest of a part of it. None sticks out of
/// [`HARVEST_LIMIT`](crate::HARVEST_LIMIT) pages from a multiple of that number
/// on, but for a block of 1 GiB, of a granule of 4 KiB, which has more pages
/// than a harvest: [`store`](crate::Session::store) such a leaf with AP\[2\] set
/// yourself.
///
/// HA, HD and what tables take away have no say. (So with HD off, too, a page is
/// made clean, and its next write is a Permission fault.) No page of a disabled
/// range reaches a leaf; a harvest there is accepted, and finds nothing dirty.
///
/// # Errors
///
/// A [`Refusal`], which has the order of the checks. It changes neither memory
/// nor map. [`Regime::check`] and [`Pages::check`] name the cause.
///
/// ```
/// use vmsa::{harvest, Granule, Pages, PhysAddr, Pool, Range, Refusal, Regime, VirtPage};
///
/// // A table of level 3: page 0 is dirty, and page 2 is writable-clean.
/// let mut memory = vec![0; 0x1_0000];
/// memory[..8].copy_from_slice(&0x0008_0000_8000_0703_u64.to_le_bytes());
/// memory[16..24].copy_from_slice(&0x0008_0000_8001_0783_u64.to_le_bytes());
///
/// let root = PhysAddr(0x4000_0000);
/// let regime = Regime::new()
///     .pool(Pool::new(0, 0x1_0000, root))
///     .range0(Range::new(root, 39))
///     .granule(Granule::Kib64);
///
/// let pages = Pages::new(VirtPage(0), 3);
/// let mut map = vec![0xff; pages.map_length()];
/// harvest(&mut memory, &regime, pages, &mut map)?;
/// assert_eq!(map, [0b001]);
/// assert_eq!(memory[..8], 0x0008_0000_8000_0783_u64.to_le_bytes());
///
/// // It is clean now.
/// harvest(&mut memory, &regime, pages, &mut map)?;
/// assert_eq!(map, [0]);
/// # Ok::<(), Refusal>(())
/// ```
pub fn harvest(
    memory: &mut [u8],
    regime: &Regime,
    pages: Pages,
    map: &mut [u8],
) -> Result<(), Refusal> {
    accepted(ffi::harvest(
        memory,
        &regime.into(),
        pages.first.0,
        pages.count,
        map,
    ))
}

/// The pages of a harvest: so many, from one on.
#[derive(Clone, Copy, Debug, PartialEq, Eq, Hash)]
pub struct Pages {
    /// The first page.
    pub first: VirtPage,
    /// How many there are: 1 to [`HARVEST_LIMIT`](crate::HARVEST_LIMIT), all in
    /// the range of the first.
    pub count: u64,
}

impl Pages {
    /// So many pages, from one on.
    pub const fn new(first: VirtPage, count: u64) -> Self {
        Self { first, count }
    }

    /// The bytes of a map that has a bit for each page.
    ///
    /// ```
    /// use vmsa::{Pages, VirtPage, HARVEST_LIMIT};
    ///
    /// let bytes = |count| Pages::new(VirtPage(0), count).map_length();
    /// assert_eq!([1, 8, 9, HARVEST_LIMIT].map(bytes), [1, 1, 2, 8192]);
    /// ```
    pub const fn map_length(&self) -> usize {
        self.count.div_ceil(8) as usize
    }

    /// The dirty pages, in their order, by the map that a harvest of these pages
    /// has filled. Its bits past the last page have no say.
    ///
    /// ```
    /// use vmsa::{Pages, VirtPage};
    ///
    /// let pages = Pages::new(VirtPage(0x400), 12);
    /// let dirty = pages.dirty(&[0b0000_1001, 0b0001_0001, 0xff]);
    /// assert_eq!(dirty.len(), 3);
    /// assert!(dirty.eq([0x400, 0x403, 0x408].map(VirtPage)));
    /// ```
    ///
    /// # Panics
    ///
    /// Where the map has fewer bits than there are pages.
    pub fn dirty<'a>(&self, map: &'a [u8]) -> DirtyPages<'a> {
        let map = map.get(..self.map_length());
        DirtyPages::new(*self, map.expect("the map has a bit for each page"))
    }

    /// Says in words why a harvest of these pages would be refused under a
    /// regime, with a map of so many bytes. The regime itself is checked before,
    /// as [`Regime::check`] does it. No call needs this, and the library
    /// decides.
    ///
    /// # Errors
    ///
    /// The first cause that applies; [`Problem`] has the order.
    ///
    /// ```
    /// use vmsa::{Pages, PhysAddr, Range, Regime, VirtPage};
    ///
    /// let regime = Regime::new().range0(Range::new(PhysAddr(0x4000_0000), 39));
    /// let pages = Pages::new(VirtPage(0x1fff), 2);
    /// assert_eq!(
    ///     pages.check(&regime, 1).unwrap_err().to_string(),
    ///     "refused with 10: the last page, 0x2000, is past that of range 0, 0x1fff",
    /// );
    /// assert_eq!(Pages::new(VirtPage(0x1ffe), 2).check(&regime, 1), Ok(()));
    /// ```
    pub fn check(&self, regime: &Regime, map_length: usize) -> Result<(), Problem> {
        check::of_harvest(regime, *self, map_length)
    }
}

/// The dirty pages of a harvest's map: see [`Pages::dirty`].
///
/// It looks at 64 pages at a time, so that a map with few of them takes little
/// longer than one with none.
#[derive(Clone)]
#[must_use = "an iterator does nothing until it is gone through"]
pub struct DirtyPages<'a> {
    pages: Pages,
    map: &'a [u8],
    /// The place of the word in hand, and what is left of it.
    place: u64,
    word: u64,
    /// How many dirty pages are still to come.
    left: usize,
}

/// Pages of a word, and its bytes.
const PAGES: u64 = 64;
const BYTES: usize = 8;

impl<'a> DirtyPages<'a> {
    /// The map has a byte for each eight of the pages, and no more.
    fn new(pages: Pages, map: &'a [u8]) -> Self {
        let words = (0..pages.count.div_ceil(PAGES)).map(|place| word_at(map, pages.count, place));
        Self {
            pages,
            map,
            place: 0,
            word: word_at(map, pages.count, 0),
            left: words.map(|word| word.count_ones() as usize).sum(),
        }
    }
}

/// A word of the map, without the bits past the last page.
fn word_at(map: &[u8], count: u64, place: u64) -> u64 {
    let bytes = map.chunks(BYTES).nth(place as usize).unwrap_or_default();
    let mut word = [0; BYTES];
    word[..bytes.len()].copy_from_slice(bytes);
    let unused = PAGES.saturating_sub(count.saturating_sub(place * PAGES));
    let used = u64::MAX.checked_shr(unused as u32).unwrap_or(0);
    u64::from_le_bytes(word) & used
}

impl Iterator for DirtyPages<'_> {
    type Item = VirtPage;

    fn next(&mut self) -> Option<VirtPage> {
        self.left = self.left.checked_sub(1)?;
        while self.word == 0 {
            self.place += 1;
            self.word = word_at(self.map, self.pages.count, self.place);
        }
        let n = self.place * PAGES + u64::from(self.word.trailing_zeros());
        self.word &= self.word - 1;
        Some(VirtPage(self.pages.first.0.wrapping_add(n)))
    }

    fn size_hint(&self) -> (usize, Option<usize>) {
        (self.left, Some(self.left))
    }
}

impl ExactSizeIterator for DirtyPages<'_> {}

impl FusedIterator for DirtyPages<'_> {}

impl fmt::Debug for DirtyPages<'_> {
    fn fmt(&self, f: &mut fmt::Formatter<'_>) -> fmt::Result {
        f.debug_struct("DirtyPages")
            .field("pages", &self.pages)
            .field("left", &self.left)
            .finish_non_exhaustive()
    }
}

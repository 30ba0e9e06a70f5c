//! Calls of scripts under each granule (RULES 3.1 and 10), and under one after
//! the other: what their tally counts by.

use crate::boundary::Reply;
use crate::geometry::Granule;
use crate::granules::{across, apart, with_granule, Field};
use crate::reference::{Access, Answer, FaultKind, Regime, Walk};
use crate::refusals::{all_of_set_regime, SET_REGIME};
use crate::rule3::{Event, History, Past};
use crate::session::{first_of, page_of, place_of, Call, Way, PLACES};
use crate::tally::{marks_name, End};
use std::fmt;

/// How often each thing must be met under each granule.
pub const LEAST: u64 = 8;

/// What is to be met under each granule.
#[derive(Clone, Copy, Debug, PartialEq, Eq, PartialOrd, Ord)]
pub enum Granular {
    /// The reply to a set regime.
    Set(u8),
    /// It is refused for a number that is a multiple of a smaller granule
    /// alone.
    Off(Field, Granule),
    /// The reply to a store.
    Store(u8),
    /// An access that is refused.
    Refused(u8),
    /// One that is not, though its bytes lie in two pages of a smaller granule.
    Across(Granule),
    /// Refused with 7, though the bytes lie in one page of a larger granule.
    Apart(Granule),
    Hit(End),
    HitLevel(u8),
    HitPlace(u8),
    /// A hit by an address in another page of a smaller granule than that of
    /// the walk.
    OnePage(Granule),
    /// A hit, though since the walk another page was remembered that would
    /// share the place under another granule.
    Keeps(Granule),
    Walked(End),
    /// A walk that makes marks: Access flag, dirty.
    Marks(bool, bool),
    Rewalk,
    /// A walk, though what is held would be the same page under a larger
    /// granule.
    TwoPages(Granule),
    /// A page takes the place of one that would have another place under
    /// another granule.
    Evicts(Granule),
    /// A regime that differs from the one before in its granule alone, by that
    /// of before.
    Turned(Granule),
    /// A walk to a leaf, of an address that was held until the granule was
    /// another.
    HeldBefore(Granule),
    /// A walk of a page with the number of one that was.
    SameNumber(Granule),
    /// The reply to a harvest.
    Harvest(u8),
    /// A harvest that cleans a leaf of a level.
    Cleaned(u8),
}

impl Granular {
    /// All that can occur.
    pub fn all(granule: Granule) -> Vec<Granular> {
        let mut all = vec![Granular::Set(0), Granular::Rewalk];
        all.extend(SET_REGIME.iter().copied().map(Granular::Set));
        all.extend([0, 1, 8].map(Granular::Store));
        all.extend([1, 6, 7].map(Granular::Refused));
        all.extend([0, 1, 10, 11].map(Granular::Harvest));
        // No harvest has all of what a leaf of level 1 maps.
        let cleaned = granule.leaf_levels().filter(|level| *level > 1);
        all.extend(cleaned.map(Granular::Cleaned));
        for smaller in granule.smaller() {
            all.extend(Field::ALL.map(|field| Granular::Off(field, smaller)));
            all.extend([Granular::Across(smaller), Granular::OnePage(smaller)]);
        }
        for larger in granule.larger() {
            all.extend([Granular::Apart(larger), Granular::TwoPages(larger)]);
        }
        let of_two = [
            Granular::Keeps,
            Granular::Evicts,
            Granular::Turned,
            Granular::HeldBefore,
            Granular::SameNumber,
        ];
        all.extend(
            granule
                .others()
                .flat_map(|other| of_two.map(|of| of(other))),
        );
        let held = [FaultKind::Permission, FaultKind::Alignment];
        all.extend(held.map(|kind| Granular::Hit(End::Fault(kind))));
        all.extend([Granular::Hit, Granular::Walked].map(|how| how(End::Success)));
        all.extend(FaultKind::ALL.map(|kind| Granular::Walked(End::Fault(kind))));
        all.extend(granule.leaf_levels().map(Granular::HitLevel));
        all.extend((0..PLACES as u8).map(Granular::HitPlace));
        all.extend(
            [(true, false), (false, true), (true, true)].map(|(a, d)| Granular::Marks(a, d)),
        );
        all
    }
}

impl fmt::Display for Granular {
    fn fmt(&self, out: &mut fmt::Formatter) -> fmt::Result {
        match *self {
            Granular::Set(0) => write!(out, "Set accepted"),
            Granular::Set(number) => write!(out, "Set no. {number}"),
            Granular::Off(field, unit) => write!(out, "{field:?} of {unit}"),
            Granular::Store(0) => write!(out, "Store accepted"),
            Granular::Store(number) => write!(out, "Store no. {number}"),
            Granular::Refused(number) => write!(out, "no. {number}"),
            Granular::Across(smaller) => write!(out, "Across {smaller}"),
            Granular::Apart(larger) => write!(out, "no. 7, not with {larger}"),
            Granular::Hit(end) => write!(out, "Hit {end}"),
            Granular::HitLevel(level) => write!(out, "Hit at level {level}"),
            Granular::HitPlace(place) => write!(out, "Hit in {place}"),
            Granular::OnePage(smaller) => write!(out, "OnePage, two with {smaller}"),
            Granular::TwoPages(larger) => write!(out, "TwoPages, one with {larger}"),
            Granular::Keeps(other) => write!(out, "Keeps, not with {other}"),
            Granular::Evicts(other) => write!(out, "Evicts, not with {other}"),
            Granular::Walked(end) => write!(out, "Walked {end}"),
            Granular::Marks(accessed, dirtied) => {
                write!(out, "Marks {}", marks_name(accessed, dirtied))
            }
            Granular::Rewalk => write!(out, "Rewalk"),
            Granular::Turned(from) => write!(out, "Turned from {from}"),
            Granular::HeldBefore(from) => write!(out, "Held with {from}"),
            Granular::Harvest(0) => write!(out, "Harvest accepted"),
            Granular::Harvest(number) => write!(out, "Harvest no. {number}"),
            Granular::Cleaned(level) => write!(out, "Cleaned at level {level}"),
            Granular::SameNumber(from) => write!(out, "Number held with {from}"),
        }
    }
}

/// What the last call of a list meets, and under which granule.
pub fn of(history: &History, seen: Option<&(Answer, Way)>) -> Option<(Granule, Vec<Granular>)> {
    let (event, earlier) = history.events().split_last()?;
    let past = history.before(earlier.len());
    let last = past.regime();
    match (event.call, event.reply) {
        (Call::SetRegime(regime), Reply::Changed(number)) => {
            let met = of_set(event.lent, last, &regime, number);
            Some((regime.granule, met))
        }
        (Call::Store { .. }, Reply::Changed(number)) => {
            Some((last?.granule, vec![Granular::Store(number)]))
        }
        (Call::Access(access), _) => {
            let (answer, way) = seen?;
            let call = Accessed {
                history,
                past,
                granule: last?.granule,
                access: &access,
            };
            Some((call.granule, call.met(answer, way)))
        }
        _ => None,
    }
}

fn of_set(lent: usize, last: Option<Regime>, regime: &Regime, number: u8) -> Vec<Granular> {
    let mut met = vec![Granular::Set(number)];
    if number == 0 {
        let turned = |from: &Granule| last == Some(with_granule(regime, *from));
        let from = regime.granule.others().find(turned);
        met.extend(from.map(Granular::Turned));
    } else {
        let applies = |other: &Regime| all_of_set_regime(lent, other).any(|row| row == number);
        let off = Field::off(regime, number, applies);
        met.extend(off.map(|(field, unit)| Granular::Off(field, unit)));
    }
    met
}

/// An access under a regime, and what came before it.
struct Accessed<'a> {
    history: &'a History,
    past: Past<'a>,
    granule: Granule,
    access: &'a Access,
}

impl Accessed<'_> {
    fn met(&self, answer: &Answer, way: &Way) -> Vec<Granular> {
        let end = match answer {
            Answer::Success(_) => End::Success,
            Answer::Fault(fault) => End::Fault(fault.stop.kind),
            Answer::Refused(number) => return self.refused(*number),
        };
        let across = across(self.granule, self.access).map(Granular::Across);
        let mut met: Vec<Granular> = across.collect();
        match way {
            Way::Refused => {}
            Way::Held => met.extend(self.hit(end, answer)),
            Way::Walked(walk) => met.extend(self.walked(end, walk)),
            Way::WalkedAgain(_) => met.extend([Granular::Rewalk, Granular::Walked(end)]),
        }
        if let Answer::Success(success) = answer {
            let (accessed, dirtied) = (success.accessed, success.dirtied);
            let marks = accessed || dirtied;
            met.extend(marks.then_some(Granular::Marks(accessed, dirtied)));
        }
        met
    }

    fn refused(&self, number: u8) -> Vec<Granular> {
        let mut met = vec![Granular::Refused(number)];
        if number == 7 {
            met.extend(apart(self.granule, self.access).map(Granular::Apart));
        }
        met
    }

    /// The page of an address.
    fn page(&self, granule: Granule) -> u64 {
        page_of(granule, self.access.address)
    }

    /// Whether another address has another page, and the same place.
    fn shares_place(&self, granule: Granule, other: u64) -> bool {
        let (page, other) = (self.page(granule), page_of(granule, other));
        page != other && place_of(page) == place_of(other)
    }

    fn hit(&self, end: End, answer: &Answer) -> Vec<Granular> {
        let place = place_of(self.page(self.granule)) as u8;
        let level = match answer {
            Answer::Success(success) => success.level,
            Answer::Fault(fault) => fault.stop.level,
            Answer::Refused(_) => return Vec::new(),
        };
        let mut met = vec![
            Granular::Hit(end),
            Granular::HitLevel(level),
            Granular::HitPlace(place),
        ];
        let Some(walked) = self.past.last_walk_at(self.access.address) else {
            return met;
        };
        let events = self.history.events();
        if let Call::Access(first) = events[walked].call {
            let two = |smaller: &Granule| page_of(*smaller, first.address) != self.page(*smaller);
            met.extend(self.granule.smaller().filter(two).map(Granular::OnePage));
        }
        let since: Vec<u64> = events[walked..].iter().filter_map(remembered).collect();
        let taken = |other: &Granule| since.iter().any(|&next| self.shares_place(*other, next));
        met.extend(self.granule.others().filter(taken).map(Granular::Keeps));
        met
    }

    fn walked(&self, end: End, walk: &Walk) -> Vec<Granular> {
        let mut met = vec![Granular::Walked(end)];
        met.extend(self.after_a_turn(walk));
        let start = self.past.last_emptying().unwrap_or(0);
        let events = &self.history.events()[start..];
        let since: Vec<u64> = events[..events.len() - 1]
            .iter()
            .filter_map(remembered)
            .collect();
        let one = |larger: &Granule| {
            let same = |&other: &u64| page_of(*larger, other) == self.page(*larger);
            since.iter().any(same)
        };
        met.extend(self.granule.larger().filter(one).map(Granular::TwoPages));
        // Of those at the place the last one is held.
        let shares = |&&other: &&u64| self.shares_place(self.granule, other);
        let held = since.iter().rev().find(shares).copied();
        if let (Some(held), Answer::Success(_)) = (held, walk.answer) {
            let apart =
                |other: &Granule| place_of(page_of(*other, held)) != place_of(self.page(*other));
            met.extend(self.granule.others().filter(apart).map(Granular::Evicts));
        }
        met
    }

    /// What was held until a regime with another granule was set.
    fn after_a_turn(&self, walk: &Walk) -> Vec<Granular> {
        let Some(emptying) = self.past.last_emptying() else {
            return Vec::new();
        };
        let before = self.history.before(emptying);
        let from = before.granule();
        if from == self.granule {
            return Vec::new();
        }
        let mut met = Vec::new();
        if before.remembers(self.access.address) && walk.leaf.is_some() {
            met.push(Granular::HeldBefore(from));
        }
        let same = first_of(from, self.page(self.granule));
        let is_page = page_of(from, same) == self.page(self.granule);
        if is_page && before.remembers(same) {
            met.push(Granular::SameNumber(from));
        }
        met
    }
}

/// The address of an access that filled a place.
fn remembered(event: &Event) -> Option<u64> {
    let (address, reads) = event.rememberable()?;
    (reads > 0).then_some(address)
}

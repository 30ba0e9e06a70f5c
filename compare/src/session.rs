//! The session (RULES 10): a regime and 64 places that remember leaves, on top
//! of the second walker. A place is what RULES calls an entry.

use crate::geometry::Granule;
use crate::harvest::{harvest_on, Harvest};
use crate::reference::{
    offset_in_memory, read_descriptor, settle, walk_on, write_descriptor, Access, Answer, Leaf,
    Regime, Walk,
};
use crate::refusals;

pub const PLACES: usize = 64;

/// Bits 63 of an address down to the granule.
pub fn page_of(granule: Granule, address: u64) -> u64 {
    address / granule.bytes()
}

/// The first address of a page; of a number that no page has, its lower bits.
pub fn first_of(granule: Granule, page: u64) -> u64 {
    page.wrapping_mul(granule.bytes())
}

/// The place of a page: its number mod 64.
pub fn place_of(page: u64) -> usize {
    (page % PLACES as u64) as usize
}

/// One call of a session.
#[derive(Clone, Copy, Debug, PartialEq, Eq)]
pub enum Call {
    SetRegime(Regime),
    Access(Access),
    Store { address: u64, value: u64 },
    DropAll,
    Harvest(Harvest),
}

impl Call {
    /// The map as it is lent; none, where the call has none.
    pub fn map(&self) -> Vec<u8> {
        match self {
            Call::Harvest(asked) => asked.map(),
            _ => Vec::new(),
        }
    }
}

/// What a place holds: a page, and its leaf as the walk left it, with what the
/// tables took away as the walk met them.
#[derive(Clone, Copy, Debug, PartialEq, Eq)]
pub struct Held {
    pub page: u64,
    pub leaf: Leaf,
}

#[derive(Clone, Debug, PartialEq, Eq)]
pub struct Session {
    pub regime: Option<Regime>,
    pub places: [Option<Held>; PLACES],
}

/// How an access got its answer.
#[derive(Clone, Debug)]
pub enum Way {
    Refused,
    /// From the held leaf.
    Held,
    /// By a walk: the place was empty or held another page.
    Walked(Walk),
    /// By a walk, as the held leaf had a dirty mark to come.
    WalkedAgain(Walk),
}

impl Session {
    /// No regime, every place empty.
    pub const FRESH: Session = Session {
        regime: None,
        places: [None; PLACES],
    };

    /// The refusal, if there is one.
    pub fn set_regime(&mut self, memory_length: usize, regime: &Regime) -> Option<u8> {
        let refusal = refusals::of_set_regime(memory_length, regime);
        if refusal.is_none() {
            self.regime = Some(*regime);
            self.drop_all();
        }
        refusal
    }

    /// Refused; or else answered from the place or by a walk.
    pub fn access(&mut self, memory: &mut [u8], access: &Access) -> (Answer, Way) {
        let refusal = refusals::of_access(memory.len(), self.regime.as_ref(), access);
        let regime = match self.go_on(refusal) {
            Ok(regime) => regime,
            Err(number) => return (Answer::Refused(number), Way::Refused),
        };

        let page = page_of(regime.granule, access.address);
        let place = &mut self.places[place_of(page)];
        let held = place.filter(|held| held.page == page);
        if let Some(held) = held {
            let (answer, _) = settle(&regime, access, &held.leaf, 0);
            let dirties = matches!(answer, Answer::Success(success) if success.dirtied);
            if !dirties {
                return (answer, Way::Held);
            }
        }

        let walk = walk_on(memory, &regime, access);
        let rememberable = match walk.answer {
            Answer::Success(success) => success.rememberable,
            Answer::Fault(fault) => fault.rememberable,
            Answer::Refused(_) => false,
        };
        if let (true, Some((found, offset))) = (rememberable, walk.leaf) {
            let leaf = Leaf {
                descriptor: read_descriptor(memory, offset, regime.ee),
                ..found
            };
            *place = Some(Held { page, leaf });
        }
        let answer = walk.answer;
        match held {
            Some(_) => (answer, Way::WalkedAgain(walk)),
            None => (answer, Way::Walked(walk)),
        }
    }

    /// The refusal, if there is one. The bytes go in the order of the regime
    /// that the session has. No place changes.
    pub fn store(&mut self, memory: &mut [u8], address: u64, value: u64) -> Option<u8> {
        let refusal = refusals::of_store(memory.len(), self.regime.as_ref(), address);
        let regime = match self.go_on(refusal) {
            Ok(regime) => regime,
            Err(number) => return Some(number),
        };
        let offset = offset_in_memory(&regime.pool, address).expect("row 8 does not apply");
        write_descriptor(memory, offset, value, regime.ee);
        None
    }

    /// The refusal, if there is one. Where there is none, every place is empty
    /// afterwards.
    pub fn harvest(&mut self, memory: &mut [u8], asked: &Harvest, map: &mut [u8]) -> Option<u8> {
        let refusal = refusals::of_session_harvest(memory.len(), self.regime.as_ref(), asked);
        let regime = match self.go_on(refusal) {
            Ok(regime) => regime,
            Err(number) => return Some(number),
        };
        harvest_on(memory, &regime, asked, map);
        self.drop_all();
        None
    }

    pub fn drop_all(&mut self) {
        self.places = [None; PLACES];
    }

    /// The regime to go on with, where there is no refusal.
    fn go_on(&self, refusal: Option<u8>) -> Result<Regime, u8> {
        match refusal {
            Some(number) => Err(number),
            None => Ok(self.regime.expect("row 9 does not apply")),
        }
    }
}

//! The session: its struct, its functions, and what they must leave of it.

use super::{
    bytes_mut, difference, granule_of, scribbled, CAccess, CAnswer, CRegime, Plain, Spelling,
};
use crate::harvest::Harvest;
use crate::random::Random;
use crate::reference::{Access, Leaf, Regime, PXN_TABLE, TAKING_FIELD};
use crate::session::{page_of, place_of, Call, Held, Session, PLACES};
use std::array;
use std::mem::{offset_of, size_of};

/// What the struct is called where a byte of it is wrong.
const NAME: &str = "session";

/// What a session replies to a call, in the library's form.
#[derive(Clone, Copy, Debug, PartialEq, Eq)]
pub enum Reply {
    /// To set regime, store and harvest: 0 accepted, else the refusal.
    Changed(u8),
    /// To an access.
    Answered(CAnswer),
    /// To drop all.
    Dropped,
}

/// A session that can be tried: the library's, or in the tests another one.
pub trait Subject: Clone {
    fn set_regime(&mut self, memory: &mut [u8], regime: &Regime, spelling: Spelling) -> u8;
    fn access(&mut self, memory: &mut [u8], access: &Access, spelling: Spelling) -> CAnswer;
    fn store(&mut self, memory: &mut [u8], address: u64, value: u64) -> u8;
    fn invalidate_all(&mut self);
    /// The map is as long as the call says.
    fn harvest(&mut self, memory: &mut [u8], asked: &Harvest, map: &mut [u8]) -> u8;

    /// Takes other bytes for its own.
    fn put(&mut self, bytes: &CSession);

    /// Before a call: noise for what of the session's bytes has no say.
    fn scribble(&mut self, _noise: u64) {}

    /// After a call: what is wrong with the session's bytes.
    fn wrong_bytes(&self, _call: &Call, _reply: &Reply) -> Option<String> {
        None
    }

    /// After a call: in what its bytes say another session than this one.
    fn wrong_session(&self, _wanted: &Session) -> Option<String> {
        None
    }

    /// A call over a memory, and over a map where it has one.
    fn call(
        &mut self,
        memory: &mut [u8],
        map: &mut [u8],
        call: &Call,
        spelling: Spelling,
    ) -> Reply {
        self.scribble(spelling.noise);
        match call {
            Call::SetRegime(regime) => Reply::Changed(self.set_regime(memory, regime, spelling)),
            Call::Access(access) => Reply::Answered(self.access(memory, access, spelling)),
            Call::Store { address, value } => Reply::Changed(self.store(memory, *address, *value)),
            Call::DropAll => {
                self.invalidate_all();
                Reply::Dropped
            }
            Call::Harvest(asked) => Reply::Changed(self.harvest(memory, asked, map)),
        }
    }
}

/// A place of the library's session.
#[repr(C)]
#[derive(Clone, Copy)]
pub struct CEntry {
    pub page: u64,
    pub value: u64,
    /// Levels below the leaf.
    pub left: u8,
    pub held: u8,
    /// The tables' sum in bits 3..0 (RULES 15.8).
    pub tables: u8,
    pub spare: [u8; 5],
}

/// The bits of `tables` that have a say: the tables' sum.
pub const SUM_BITS: u8 = 0x0F;

#[repr(C)]
#[derive(Clone, Copy)]
pub struct CSession {
    pub regime: CRegime,
    pub entries: [CEntry; PLACES],
    pub set: u8,
    pub spare: [u8; 7],
}

const _: () = {
    assert!(size_of::<CEntry>() == 24);
    assert!(offset_of!(CEntry, tables) == 18);
    assert!(size_of::<CSession>() == 1608);
};

// SAFETY: the sizes of its fields add up to 1608, and those of a regime and
// an entry to theirs.
unsafe impl Plain for CSession {}

impl CEntry {
    /// What it holds; whatever its numbers are (RULES 10.5 and 15.8).
    pub fn read(&self) -> Option<Held> {
        let level = 3u8.checked_sub(self.left)?;
        let leaf = Leaf {
            descriptor: self.value,
            level,
            taken: u64::from(self.tables) << PXN_TABLE & TAKING_FIELD,
        };
        (self.held != 0).then_some(Held {
            page: self.page,
            leaf,
        })
    }

    /// Fills what has no say: its spare bytes, and bits of `tables`.
    fn fill_idle(&mut self, bits: u64) {
        let [tables, spare @ ..] = bits.to_le_bytes();
        self.tables = self.tables & SUM_BITS | tables & !SUM_BITS;
        fill(&mut self.spare, &spare);
    }
}

/// Fills spare bytes with the first of some.
fn fill(spare: &mut [u8], with: &[u8]) {
    spare.copy_from_slice(&with[..spare.len()]);
}

impl CSession {
    /// The session that these numbers say.
    pub fn read(&self) -> Session {
        Session {
            regime: (self.set != 0).then(|| self.regime.read()),
            places: array::from_fn(|place| self.entries[place].read()),
        }
    }

    /// Fills all that has no say.
    fn fill_idle(&mut self, mut bits: impl FnMut() -> u64) {
        fill(&mut self.regime.spare, &bits().to_le_bytes());
        for entry in &mut self.entries {
            entry.fill_idle(bits());
        }
        fill(&mut self.spare, &bits().to_le_bytes());
    }
}

/// In what a session, as its bytes say it, is not as it should be.
fn difference_in_meaning(session: &Session, wanted: &Session) -> Option<String> {
    if session.regime != wanted.regime {
        let (is, should) = (session.regime, wanted.regime);
        return Some(format!("its regime is {is:x?}, and should be {should:x?}"));
    }
    let at = (0..PLACES).find(|&at| session.places[at] != wanted.places[at])?;
    let (is, should) = (session.places[at], wanted.places[at]);
    Some(format!(
        "place {at} holds {is:x?}, and should hold {should:x?}"
    ))
}

/// The library's functions on a session.
#[derive(Clone, Copy)]
pub struct SessionFunctions {
    pub empty: unsafe extern "C" fn(*mut CSession),
    pub set_regime: unsafe extern "C" fn(*mut CSession, *const u8, usize, *const CRegime) -> u8,
    pub access: unsafe extern "C" fn(*mut CSession, *mut u8, usize, *const CAccess, *mut CAnswer),
    pub store: unsafe extern "C" fn(*mut CSession, *mut u8, usize, u64, u64) -> u8,
    pub invalidate_all: unsafe extern "C" fn(*mut CSession),
    pub harvest:
        unsafe extern "C" fn(*mut CSession, *mut u8, usize, u64, u64, *mut u8, usize) -> u8,
}

/// A session of the library under test.
#[derive(Clone, Copy)]
pub struct LibrarySession {
    functions: SessionFunctions,
    /// An entry of the fresh session.
    empty: CEntry,
    session: CSession,
    /// The session as the last call found it.
    found: CSession,
}

impl LibrarySession {
    /// A fresh session, made twice: over noise, and over that noise with
    /// every bit turned over, so that a byte left unwritten shows.
    ///
    /// # Errors
    ///
    /// What is wrong with its bytes.
    ///
    /// # Safety
    ///
    /// The functions must touch no byte but the session, the `length` bytes
    /// and the structs they are lent, must write none lent as `*const`, and
    /// must be fit to be called with any numbers and any session.
    pub unsafe fn fresh(functions: SessionFunctions, noise: u64) -> Result<Self, String> {
        let mut session: CSession = scribbled(noise);
        let mut wanted = session;
        bytes_mut(&mut wanted).iter_mut().for_each(|b| *b = !*b);
        (functions.empty)(&mut session);
        (functions.empty)(&mut wanted);
        wanted.fill_idle(|| 0);
        match difference(NAME, &session, &wanted) {
            Some(words) => Err(words),
            None => Ok(LibrarySession {
                functions,
                empty: session.entries[0],
                session,
                found: session,
            }),
        }
    }

    /// The session as a call must leave it: written bytes as they are, but 0
    /// where they have no say, and all others as they were.
    fn wanted(&self, call: &Call, reply: &Reply) -> CSession {
        let mut wanted = self.found;
        match (call, reply) {
            // A flag is 0 or 1, and the granule one of its three numbers
            // (RULES 15.1 and 15.9), however they were spelled.
            (Call::SetRegime(regime), Reply::Changed(0)) => {
                wanted = self.session;
                wanted.regime = Spelling::PLAIN.regime(regime);
                wanted.fill_idle(|| 0);
            }
            // The place is filled by a walk that may be remembered.
            (Call::Access(access), Reply::Answered(answer))
                if answer.cacheable != 0 && answer.reads > 0 =>
            {
                let granule = granule_of(self.found.regime.granule);
                let place = place_of(page_of(granule, access.address));
                wanted.entries[place] = self.session.entries[place];
                wanted.entries[place].fill_idle(0);
            }
            (Call::DropAll, _) | (Call::Harvest(_), Reply::Changed(0)) => {
                wanted.entries = [self.empty; PLACES];
            }
            _ => {}
        }
        wanted
    }
}

impl Subject for LibrarySession {
    fn set_regime(&mut self, memory: &mut [u8], regime: &Regime, spelling: Spelling) -> u8 {
        let (start, length) = (memory.as_mut_ptr().cast_const(), memory.len());
        let regime = spelling.regime(regime);
        // SAFETY: pointer and length are those of one slice that, like the
        // structs, is ours alone for the time of the call; the rest is
        // promised to `fresh`.
        unsafe { (self.functions.set_regime)(&mut self.session, start, length, &regime) }
    }

    fn access(&mut self, memory: &mut [u8], access: &Access, spelling: Spelling) -> CAnswer {
        let (start, length) = (memory.as_mut_ptr(), memory.len());
        let access = spelling.access(access);
        let mut answer = scribbled(spelling.noise);
        // SAFETY: as for `set_regime`.
        unsafe {
            (self.functions.access)(&mut self.session, start, length, &access, &mut answer);
        }
        answer
    }

    fn store(&mut self, memory: &mut [u8], address: u64, value: u64) -> u8 {
        let (start, length) = (memory.as_mut_ptr(), memory.len());
        // SAFETY: as for `set_regime`.
        unsafe { (self.functions.store)(&mut self.session, start, length, address, value) }
    }

    fn invalidate_all(&mut self) {
        // SAFETY: as for `set_regime`.
        unsafe { (self.functions.invalidate_all)(&mut self.session) }
    }

    fn harvest(&mut self, memory: &mut [u8], asked: &Harvest, map: &mut [u8]) -> u8 {
        let (start, length) = (memory.as_mut_ptr(), memory.len());
        let (bits, room) = (map.as_mut_ptr(), map.len());
        let (first, count) = (asked.first, asked.count);
        let session = &mut self.session;
        // SAFETY: as for `set_regime`, and so are pointer and length of the map.
        unsafe { (self.functions.harvest)(session, start, length, first, count, bits, room) }
    }

    fn put(&mut self, bytes: &CSession) {
        self.session = *bytes;
        self.found = *bytes;
    }

    fn scribble(&mut self, noise: u64) {
        let mut random = Random::new(noise);
        self.session.fill_idle(|| random.bits());
        self.found = self.session;
    }

    fn wrong_bytes(&self, call: &Call, reply: &Reply) -> Option<String> {
        difference(NAME, &self.session, &self.wanted(call, reply))
    }

    fn wrong_session(&self, wanted: &Session) -> Option<String> {
        difference_in_meaning(&self.session.read(), wanted)
    }
}

//! Those that are held against the vectors: the library, which `main.rs`
//! links, and the second program.

use crate::boundary::{plain_answer, CAnswer, CSession, Harvester, Spelling, Stepper, Subject};
use crate::harvest::{self, Harvest};
use crate::reference::{self, Access, Regime};
use crate::session::Session;
use crate::stepwise;

pub trait Party {
    const NAME: &'static str;
    type Session: Subject;

    /// The plain walk, and its list of descriptor addresses where the party
    /// keeps one.
    fn walk(
        &self,
        memory: &mut [u8],
        regime: &Regime,
        access: &Access,
        spelling: Spelling,
    ) -> (CAnswer, Option<Vec<u64>>);

    /// The fresh session, made over noise.
    ///
    /// # Errors
    ///
    /// What is wrong with its bytes.
    fn fresh(&self, noise: u64) -> Result<Self::Session, String>;

    /// The walk a descriptor at a time.
    fn stepper(&self) -> impl Stepper;

    /// The plain harvest.
    fn harvester(&self) -> impl Harvester;
}

/// The second program.
pub struct Second;

impl Party for Second {
    const NAME: &'static str = "second program";
    type Session = Session;

    fn walk(
        &self,
        memory: &mut [u8],
        regime: &Regime,
        access: &Access,
        _: Spelling,
    ) -> (CAnswer, Option<Vec<u64>>) {
        let walk = reference::walk(memory, regime, access);
        (plain_answer(&walk.answer), Some(walk.visited))
    }

    fn fresh(&self, _: u64) -> Result<Session, String> {
        Ok(Session::FRESH)
    }

    fn stepper(&self) -> impl Stepper {
        stepwise::Second
    }

    fn harvester(&self) -> impl Harvester {
        harvest::Second
    }
}

impl Subject for Session {
    fn set_regime(&mut self, memory: &mut [u8], regime: &Regime, _: Spelling) -> u8 {
        Session::set_regime(self, memory.len(), regime).unwrap_or(0)
    }

    fn access(&mut self, memory: &mut [u8], access: &Access, _: Spelling) -> CAnswer {
        plain_answer(&Session::access(self, memory, access).0)
    }

    fn store(&mut self, memory: &mut [u8], address: u64, value: u64) -> u8 {
        Session::store(self, memory, address, value).unwrap_or(0)
    }

    fn invalidate_all(&mut self) {
        self.drop_all();
    }

    fn harvest(&mut self, memory: &mut [u8], asked: &Harvest, map: &mut [u8]) -> u8 {
        Session::harvest(self, memory, asked, map).unwrap_or(0)
    }

    fn put(&mut self, bytes: &CSession) {
        *self = bytes.read();
    }
}

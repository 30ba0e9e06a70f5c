//! Puts each harvest to the second program and to the one under test, and holds
//! number, memory and map of the one against the other's.

use super::tally::Round;
use super::{harvest, survey, Harvest, Page, Tally};
use crate::arena::{unlike, Arena};
use crate::boundary::{Harvester, Spelling};
use crate::cases::scene::Scene;
use crate::random::Random;
use crate::reference::{Regime, MEMORY_LIMIT};
use crate::reversed::{self, other_order};

/// The comparisons.
pub struct Trial<H> {
    harvester: H,
    pub(super) random: Random,
    trace: bool,
    pub tally: Tally,
}

/// What came of a harvest.
struct Came {
    number: u8,
    memory: Arena,
    map: Arena,
}

/// What should come of it.
struct Wanted {
    number: u8,
    memory: Vec<u8>,
    map: Vec<u8>,
}

impl<H: Harvester> Trial<H> {
    pub fn new(harvester: H, seed: u64, trace: bool) -> Self {
        Trial {
            harvester,
            random: Random::new(seed),
            trace,
            tally: Tally::default(),
        }
    }

    /// A harvest of a scene, and the same once more over what it leaves. The
    /// scene's memory stays as it is.
    pub(super) fn case(
        &mut self,
        family: &'static str,
        scene: &Scene,
        asked: &Harvest,
    ) -> Result<(), String> {
        let left = self.once(family, Round::First, &scene.memory, &scene.regime, asked)?;
        match left {
            Some(memory) => {
                let again = Round::Second;
                self.once(family, again, &memory, &scene.regime, asked)?;
                Ok(())
            }
            None => Ok(()),
        }
    }

    /// The memory that is left, where the harvest is accepted.
    fn once(
        &mut self,
        family: &'static str,
        round: Round,
        memory: &[u8],
        regime: &Regime,
        asked: &Harvest,
    ) -> Result<Option<Vec<u8>>, String> {
        let spelling = Spelling::draw(&mut self.random);
        let (number, length) = (self.tally.harvests() + 1, memory.len());
        let put = || {
            let what = format!("harvest {number} ({family}, {round:?})");
            format!("{what}: {length} bytes, {regime:x?}, {spelling:x?}, {asked:x?}")
        };
        if self.trace {
            eprintln!("{}", put());
        }
        let wanted = expected(memory, regime, asked);
        let came = self.ask(memory, regime, asked, spelling);
        let told = |why: Vec<String>| format!("DIFFERENCE in {}\n  {}", put(), why.join("\n  "));
        let why = differences(&wanted, &came);
        if !why.is_empty() {
            return Err(told(why));
        }
        let turned = self.turned(memory, regime, asked, spelling, &wanted);
        let turned = turned.map_err(|words| told(vec![words]))?;
        let pages: Vec<Page> = match wanted.number {
            0 => survey(memory, regime, asked).collect(),
            _ => Vec::new(),
        };
        self.tally.begin(family);
        self.tally
            .note(round, length, regime, asked, wanted.number, &pages);
        self.tally.note_turned(turned, regime, &pages);
        Ok((wanted.number == 0).then_some(wanted.memory))
    }

    fn ask(&self, memory: &[u8], regime: &Regime, asked: &Harvest, spelling: Spelling) -> Came {
        let shift = (self.tally.harvests() % 16) as usize;
        let mut came = Came {
            number: 0,
            memory: Arena::new(memory, shift),
            map: Arena::new(&asked.map(), 15 - shift),
        };
        let lent = came.memory.lend(memory.len());
        let map = came.map.lend(asked.room);
        came.number = self.harvester.harvest(lent, regime, asked, map, spelling);
        came
    }

    /// Harvests once more the other way round, where that is due: EE turned
    /// over and each 8 bytes of the pool reversed must give the same map, and
    /// the same memory in the other order. Gives whether there was one.
    fn turned(
        &self,
        memory: &[u8],
        regime: &Regime,
        asked: &Harvest,
        spelling: Spelling,
        wanted: &Wanted,
    ) -> Result<bool, String> {
        let mut turned = memory.to_vec();
        let due = reversed::is_due(self.tally.harvests()) && memory.len() < MEMORY_LIMIT / 8;
        if !due || !reversed::reverse(&mut turned, &regime.pool) {
            return Ok(false);
        }
        let came = self.ask(&turned, &other_order(regime), asked, spelling);
        let mut left = came.memory.memory().to_vec();
        reversed::reverse(&mut left, &regime.pool);
        let unlike = unlike("memory", &wanted.memory, &left)
            .or_else(|| came.map.differences("map", &wanted.map).pop());
        match unlike {
            None if came.number == wanted.number => Ok(true),
            words => Err(format!(
                "in the other byte order: {} {words:?}",
                came.number
            )),
        }
    }
}

fn expected(memory: &[u8], regime: &Regime, asked: &Harvest) -> Wanted {
    let mut wanted = Wanted {
        number: 0,
        memory: memory.to_vec(),
        map: asked.map(),
    };
    let refusal = harvest(&mut wanted.memory, regime, asked, &mut wanted.map);
    wanted.number = refusal.unwrap_or(0);
    wanted
}

fn differences(wanted: &Wanted, came: &Came) -> Vec<String> {
    let mut why = Vec::new();
    if came.number != wanted.number {
        let (came, wanted) = (came.number, wanted.number);
        why.push(format!("it returns {came}, and should return {wanted}"));
    }
    why.extend(came.memory.differences("memory", &wanted.memory));
    why.extend(came.map.differences("map", &wanted.map));
    why
}

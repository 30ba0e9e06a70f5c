//! The cases, each family in a file of its own.

mod edges;
mod granules;
mod large;
mod noise;
mod pools;
mod refusals;
mod rights;
pub mod scene;
mod shapes;
mod tables;

use crate::boundary::Spelling;
use crate::promises::Expect;
use crate::random::Random;
use crate::reference::{Access, Regime};
use scene::Scene;

/// One question, put to both walkers over one memory.
pub struct Case<'a> {
    pub family: &'static str,
    pub regime: &'a Regime,
    pub access: &'a Access,
    pub spelling: Spelling,
    pub expect: Expect,
}

/// Whoever takes the cases. The memory is left as the walk left it, so that
/// the next case can go on from there.
pub trait Runner {
    fn run(&mut self, memory: &mut Vec<u8>, case: &Case);
}

/// What all families share while they make cases.
pub struct Maker<'a> {
    pub random: Random,
    pub runner: &'a mut dyn Runner,
    pub scene: Scene,
}

impl Maker<'_> {
    fn ask(&mut self, family: &'static str, access: &Access, expect: Expect) {
        let case = Case {
            family,
            regime: &self.scene.regime,
            access,
            spelling: Spelling::draw(&mut self.random),
            expect,
        };
        self.runner.run(&mut self.scene.memory, &case);
    }
}

/// All families in turn.
pub fn run_all(seed: u64, runner: &mut dyn Runner) {
    let mut maker = Maker {
        random: Random::new(seed),
        runner,
        scene: Scene::new(),
    };
    rights::run(&mut maker);
    tables::run(&mut maker);
    shapes::run(&mut maker);
    edges::run(&mut maker);
    granules::run(&mut maker);
    noise::run(&mut maker);
    refusals::run(&mut maker);
    pools::run(&mut maker);
    large::run(&mut maker);
}

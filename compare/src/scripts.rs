//! Scripts of calls, each from a fresh session over one memory.

mod calls;
mod features;
mod foreign;
mod granules;
mod harvests;
mod opening;
mod orders;
mod play;
mod tally;
mod world;

use crate::boundary::{Spelling, Subject};
use crate::random::Random;
use crate::session::Call;
use calls::Script;
use play::Play;
pub use tally::Tally;

const SCRIPTS: u64 = 8_100;
/// Calls of a script; over the longest memories there are fewer.
const CALLS: usize = 40;

/// A call and how it is made.
#[derive(Clone, Copy, Debug)]
pub struct Step {
    pub call: Call,
    /// How many bytes of the memory are lent.
    pub lent: usize,
    pub spelling: Spelling,
}

/// Plays all scripts to a session and to the reference; each fresh session is
/// made over noise. Then come sessions of any bytes. Ends at the first
/// difference, which it tells.
pub fn run_all<S: Subject>(
    seed: u64,
    trace: bool,
    fresh: impl Fn(u64) -> Result<S, String>,
    tally: &mut Tally,
) -> Result<(), String> {
    let mut random = Random::new(seed);
    for number in 1..=SCRIPTS {
        let mut script = Script::draw(number, Random::new(random.bits()));
        tally.begin(script.family);
        let subject = fresh(random.bits())
            .map_err(|why| format!("DIFFERENCE in a fresh session of seed {seed}\n  {why}"))?;
        let mut play = Play::new(number, trace, subject, &script.world.memory, tally);
        let played = play.run(&mut script);
        played.map_err(|why| play.tell(seed, script.family, &why))?;
    }
    foreign::run_all(&mut random, trace, fresh, tally)
        .map_err(|why| format!("with seed {seed}: {why}"))
}

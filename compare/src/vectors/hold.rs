//! Holds a party against a case: each field of each answer, the visited list,
//! each byte of memory and map after each call, and the bytes around them.

use super::party::Party;
use super::reader::{Calls, Case, Offers, Run, Step};
use crate::arena::{unlike, Arena};
use crate::boundary::{
    plain_answer, CAnswer, CStepwise, Harvester, Reply, Spelling, Stepper, Subject,
};
use crate::harvest::Harvest;
use crate::random::Random;
use crate::reference::{offset_in_memory, pool_reader, write_descriptor, Access, Answer, Regime};
use crate::session::Call;
use crate::stepwise::{Update, WALK_ENDED};
use std::fmt::Debug;

/// A call that came to something else than the case says.
#[derive(Clone, Debug, PartialEq, Eq)]
pub struct Difference {
    pub line: usize,
    pub call: String,
    pub why: Vec<String>,
}

impl Difference {
    /// None, where there is nothing to tell.
    fn of(line: usize, call: &impl Debug, why: Vec<String>) -> Option<Self> {
        (!why.is_empty()).then(|| Difference {
            line,
            call: in_hexadecimal(call),
            why,
        })
    }
}

/// Every difference of a case.
pub fn hold<P: Party>(party: &P, case: &Case) -> Vec<Difference> {
    match &case.calls {
        Calls::Walk(regime, steps) => {
            let held = |step| hold_walk(party, case.lent(), regime, step);
            steps.iter().filter_map(held).collect()
        }
        Calls::Session(steps) => hold_session(party, case, steps).into_iter().collect(),
        Calls::Stepwise(offers) => hold_stepwise(party, case, offers).into_iter().collect(),
        Calls::Harvest(regime, step) => {
            let held = hold_harvest(party, case.lent(), regime, step);
            held.into_iter().collect()
        }
    }
}

fn hold_walk<P: Party>(
    party: &P,
    memory: &[u8],
    regime: &Regime,
    step: &Step<Access>,
) -> Option<Difference> {
    let mut arena = Arena::new(memory, shift(step.line));
    let lent = arena.lend(memory.len());
    let (answer, visited) = party.walk(lent, regime, &step.call, spelling(step.line));
    let wanted = changed(memory.to_vec(), &step.changes);
    let mut why = differences(step, &Reply::Answered(answer), &wanted, &arena);
    if let Some(wanted) = &step.visited {
        why.extend(of_visited(wanted, &answer, visited.as_deref()));
    }
    Difference::of(step.line, &step.call, why)
}

fn hold_harvest<P: Party>(
    party: &P,
    memory: &[u8],
    regime: &Regime,
    step: &Step<Harvest>,
) -> Option<Difference> {
    let mut arena = Arena::new(memory, shift(step.line));
    let mut map = MapHeld::new(step.call.map(), step.line);
    let lent = arena.lend(memory.len());
    let spelling = spelling(step.line);
    let harvester = party.harvester();
    let number = harvester.harvest(lent, regime, &step.call, map.lend(), spelling);
    let wanted = changed(memory.to_vec(), &step.changes);
    let mut why = differences(step, &Reply::Changed(number), &wanted, &arena);
    why.extend(map.differences(&step.map));
    Difference::of(step.line, &step.call, why)
}

/// A map that is lent, and what it should become.
struct MapHeld {
    found: Vec<u8>,
    arena: Arena,
}

impl MapHeld {
    fn new(found: Vec<u8>, line: usize) -> Self {
        let arena = Arena::new(&found, shift(line));
        MapHeld { found, arena }
    }

    fn lend(&mut self) -> &mut [u8] {
        self.arena.lend(self.found.len())
    }

    /// What is wrong with it, where these runs should be new in it.
    fn differences(self, runs: &[Run]) -> Vec<String> {
        let wanted = changed(self.found, runs);
        self.arena.differences("map", &wanted)
    }
}

/// The first difference; the calls behind it would stand on it.
fn hold_session<P: Party>(party: &P, case: &Case, steps: &[Step<Call>]) -> Option<Difference> {
    let mut session = match party.fresh(noise(case.line)) {
        Ok(session) => session,
        Err(words) => {
            let first = steps.first()?;
            return Difference::of(first.line, &first.call, vec![words]);
        }
    };
    let mut wanted = case.lent().to_vec();
    let mut arena = Arena::new(&wanted, shift(case.line));
    steps.iter().find_map(|step| {
        let lent = arena.lend(wanted.len());
        let mut map = MapHeld::new(step.call.map(), step.line);
        let reply = session.call(lent, map.lend(), &step.call, spelling(step.line));
        wanted = changed(std::mem::take(&mut wanted), &step.changes);
        let mut why = differences(step, &reply, &wanted, &arena);
        why.extend(map.differences(&step.map));
        why.extend(session.wrong_bytes(&step.call, &reply));
        Difference::of(step.line, &step.call, why)
    })
}

/// A walk a descriptor at a time; and, where the case has a memory, the plain
/// walk over it.
fn hold_stepwise<P: Party>(party: &P, case: &Case, offers: &Offers) -> Option<Difference> {
    let stepper = party.stepper();
    let spelling = spelling(offers.line);
    let mut walk = stepper.begin(&offers.regime, &offers.access, spelling);
    let mut why = Vec::new();
    for &(address, offered) in &offers.asked {
        let came = (walk.ended == 0).then_some(walk.address);
        if came != Some(address) {
            why.push(format!("expected: ask {address:#x}"));
            why.push(format!("came: {came:x?}"));
            return Difference::of(offers.line, &offers.access, why);
        }
        let returned = stepper.offer(&mut walk, offered);
        if returned != 0 {
            why.push(format!("{offered:x?} is refused with {returned}"));
        }
    }
    why.extend(of_end(offers, &walk));
    why.extend(of_late(&stepper, &walk, &offers.late));
    if let Some(memory) = &case.memory {
        why.extend(of_plain_walk(party, memory, offers));
    }
    Difference::of(offers.line, &offers.access, why)
}

/// The end of a walk a descriptor at a time.
fn of_end(offers: &Offers, walk: &CStepwise) -> Vec<String> {
    let mut why = Vec::new();
    if walk.ended != 1 {
        why.push(format!("it has not ended: {}", in_hexadecimal(walk)));
    }
    if walk.answer != offers.answer {
        why.push(format!("expected: {}", answer_words(&offers.answer)));
        why.push(format!("came: {}", answer_words(&walk.answer)));
    }
    let update = (walk.update != 0).then_some(Update {
        address: walk.address,
        expected: walk.expected,
        value: walk.value,
    });
    if update != offers.update {
        why.push(format!("expected: {}", in_hexadecimal(&offers.update)));
        why.push(format!("came: {}", in_hexadecimal(&update)));
    }
    why
}

/// Offers after the end.
fn of_late(stepper: &impl Stepper, walk: &CStepwise, late: &[Option<u64>]) -> Vec<String> {
    let mut why = Vec::new();
    for &offered in late {
        let mut left = *walk;
        let returned = stepper.offer(&mut left, offered);
        if returned != WALK_ENDED {
            why.push(format!("after the end {offered:x?} returns {returned}"));
        }
        why.extend(left.difference(walk));
    }
    why
}

/// What is fed is what the pool holds, and the plain walk over the memory has
/// the same answer and, once the update is written, leaves the same bytes.
fn of_plain_walk<P: Party>(party: &P, memory: &[u8], offers: &Offers) -> Vec<String> {
    let (regime, access) = (&offers.regime, &offers.access);
    let holds = pool_reader(memory, regime);
    let mut asked = offers.asked.iter();
    let mut why = Vec::new();
    if let Some((address, _)) = asked.find(|(address, offered)| holds(*address) != *offered) {
        why.push(format!("{address:#x} is not fed with what the pool holds"));
    }
    let mut wanted = memory.to_vec();
    if let Some(update) = offers.update {
        match offset_in_memory(&regime.pool, update.address) {
            Some(offset) => write_descriptor(&mut wanted, offset, update.value, regime.ee),
            None => why.push("an update outside the pool".to_string()),
        }
    }
    let mut came = memory.to_vec();
    let (answer, visited) = party.walk(&mut came, regime, access, spelling(offers.line));
    if answer != offers.answer {
        why.push(format!("the plain walk: {}", answer_words(&answer)));
    }
    let named: Vec<u64> = offers.asked.iter().map(|asked| asked.0).collect();
    why.extend(of_visited(&named, &answer, visited.as_deref()));
    why.extend(unlike("memory", &wanted, &came));
    why
}

fn changed(mut bytes: Vec<u8>, changes: &[Run]) -> Vec<u8> {
    changes.iter().for_each(|run| run.write(&mut bytes));
    bytes
}

// How a call is made follows from its line, so that every run is the same.

fn noise(line: usize) -> u64 {
    Random::new(line as u64).bits()
}

fn spelling(line: usize) -> Spelling {
    Spelling::draw(&mut Random::new(noise(line)))
}

/// The lent memory starts at any byte, aligned or not.
fn shift(line: usize) -> usize {
    line % 16
}

fn differences<C>(step: &Step<C>, reply: &Reply, wanted: &[u8], arena: &Arena) -> Vec<String> {
    let mut why = Vec::new();
    if *reply != step.reply {
        why.push(format!("expected: {}", words(&step.reply)));
        why.push(format!("came: {}", words(reply)));
    }
    why.extend(arena.differences("memory", wanted));
    why
}

/// A reply in the words of the vectors, or else by its fields.
fn words(reply: &Reply) -> String {
    match reply {
        Reply::Changed(0) | Reply::Dropped => "accepted".to_string(),
        Reply::Changed(number) => format!("refused {number}"),
        Reply::Answered(answer) => answer_words(answer),
    }
}

/// The same for an answer.
fn answer_words(answer: &CAnswer) -> String {
    if *answer == plain_answer(&Answer::Refused(answer.refusal)) {
        format!("refused {}", answer.refusal)
    } else {
        in_hexadecimal(answer)
    }
}

/// All fields, each number in hexadecimal.
fn in_hexadecimal(fields: &impl Debug) -> String {
    format!("{fields:x?} (in hexadecimal)")
}

/// The list itself, and its length against the count of reads.
fn of_visited(wanted: &[u64], answer: &CAnswer, came: Option<&[u64]>) -> Vec<String> {
    let mut why = Vec::new();
    if let Some(came) = came.filter(|came| *came != wanted) {
        why.push(format!("expected: visited {}", list(wanted)));
        why.push(format!("came: visited {}", list(came)));
    }
    let (count, reads) = (wanted.len(), answer.reads);
    if usize::from(reads) != count {
        why.push(format!("expected: {count} visited; came: {reads} reads"));
    }
    why
}

/// The count and the addresses, as in a line of the vectors.
fn list(addresses: &[u64]) -> String {
    let words = addresses.iter().map(|address| format!(" {address:#x}"));
    addresses.len().to_string() + &words.collect::<String>()
}

//! The walk a descriptor at a time (RULES 16), from Q-4 of the customer's
//! requests and from RULES; and the comparisons that are made with it.

mod features;
mod feeds;
mod foreign;
mod hold;
mod tally;

use crate::boundary::{CAccess, CRegime, CStepwise, Stepper};
use crate::cases::Case;
use crate::geometry::LAST_LEVEL;
use crate::random::Random;
use crate::reference::{
    conclude, first_wanted, go_on, is_multiple, pool_reader, range_at, steps, Access, Answer,
    Course, Leaf, Next, Regime, Stop, Walk, Wanted, TAKING_FIELD,
};
use crate::refusals::all_of_stepwise;
use hold::{hold, hold_update, with_other_pool, Asked};
use tally::Source;
pub use tally::Tally;

/// The refusal of an offer after the end (RULES 16.3).
pub const WALK_ENDED: u8 = 12;

/// A walk ends after so many offers at most (RULES 16.5).
const MOST_OFFERS: usize = 4;

/// Of the cases made for the plain walk, one in so many is walked a descriptor
/// at a time too. No loop over kinds and flags goes round in step with it.
const SHARE: u64 = 11;

pub fn is_due(number: u64) -> bool {
    is_multiple(number, SHARE)
}

/// What is to be written, and where.
#[derive(Clone, Copy, Debug, PartialEq, Eq)]
pub struct Update {
    pub address: u64,
    pub expected: u64,
    pub value: u64,
}

#[derive(Clone, Copy, Debug, PartialEq, Eq)]
pub struct End {
    pub answer: Answer,
    pub update: Option<Update>,
}

impl End {
    /// RULES 16.4: an update is due where the marks change the leaf, which is
    /// the last descriptor that was asked for.
    fn new(answer: Answer, last: u64, leaf: Option<Leaf>, after: Option<u64>) -> Self {
        let marked = leaf.zip(after);
        let update = marked.map(|(leaf, value)| Update {
            address: last,
            expected: leaf.descriptor,
            value,
        });
        End {
            answer,
            update: update.filter(|update| update.value != update.expected),
        }
    }
}

#[derive(Clone, Copy, Debug, PartialEq, Eq)]
pub enum State {
    /// Wants the descriptor at an address, with so many levels left below it;
    /// and bits 62..59 of the tables so far, as in `Wanted`.
    Wants {
        entry: u64,
        left: u8,
        bits: u64,
    },
    Ended(End),
}

impl State {
    fn wants(wanted: &Wanted) -> Self {
        State::Wants {
            entry: wanted.entry,
            left: LAST_LEVEL - wanted.level,
            bits: wanted.bits,
        }
    }

    fn refused(number: u8) -> Self {
        State::Ended(End {
            answer: Answer::Refused(number),
            update: None,
        })
    }
}

/// A walk in progress. Its numbers may be such as no call leaves.
#[derive(Clone, Copy, Debug, PartialEq, Eq)]
pub struct Stepwise {
    pub regime: Regime,
    pub access: Access,
    pub state: State,
}

impl Stepwise {
    /// RULES 16.1.
    pub fn start(regime: &Regime, access: &Access) -> Self {
        let refusal = all_of_stepwise(regime, access).next();
        let state = refusal.map_or_else(
            || match first_wanted(regime, access.address) {
                Ok(wanted) => State::wants(&wanted),
                Err(stop) => ended(regime, access, Err(stop), 0, 0),
            },
            State::refused,
        );
        Stepwise {
            regime: *regime,
            access: *access,
            state,
        }
    }

    /// Offers a value, or that there is none to be had. Gives 0, or the
    /// refusal (RULES 16.2 and 16.3).
    pub fn offer(&mut self, offered: Option<u64>) -> u8 {
        let State::Wants { entry, left, bits } = self.state else {
            return WALK_ENDED;
        };
        let refusal = all_of_stepwise(&self.regime, &self.access).next();
        self.state = match refusal {
            Some(number) => State::refused(number),
            None => {
                let (level, first) = self.level(left);
                let wanted = Wanted { entry, level, bits };
                self.follow(&wanted, first, offered)
            }
        };
        0
    }

    /// The level with so many left below it, and the first level. With more
    /// left than the first level has, it is the first level (RULES 16.6). Row 3
    /// must not apply.
    fn level(&self, left: u8) -> (u8, u8) {
        let range = range_at(&self.regime, self.access.address);
        let first = self.regime.granule.first_level(range.t);
        (LAST_LEVEL.saturating_sub(left).max(first), first)
    }

    /// What an offer leads to where no row refuses. A read is counted for each
    /// level from the first one on.
    fn follow(&self, wanted: &Wanted, first: u8, offered: Option<u64>) -> State {
        let (regime, access) = (&self.regime, &self.access);
        let found = match go_on(regime, access.address, wanted, offered) {
            Ok(Next::Descriptor(next)) => return State::wants(&next),
            Ok(Next::Leaf(leaf)) => Ok(leaf),
            Err(stop) => Err(stop),
        };
        let reads = wanted.level - first + 1;
        ended(regime, access, found, wanted.entry, reads)
    }
}

/// The end of a walk that came to a leaf or a fault.
fn ended(
    regime: &Regime,
    access: &Access,
    found: Result<Leaf, Stop>,
    last: u64,
    reads: u8,
) -> State {
    let (answer, after) = conclude(regime, access, &found, reads);
    State::Ended(End::new(answer, last, found.ok(), after))
}

/// The plain walk over a reader, with the rows that this walk has; and what
/// was read, in order.
fn recorded(
    mut reader: impl FnMut(u64) -> Option<u64>,
    regime: &Regime,
    access: &Access,
) -> (Course, Vec<Option<u64>>) {
    let mut fed = Vec::with_capacity(4);
    let refusal = all_of_stepwise(regime, access).next();
    let recording = |address| {
        let read = reader(address);
        fed.push(read);
        read
    };
    let course = match refusal {
        Some(number) => Course::refused(number),
        None => steps(recording, regime, access),
    };
    (course, fed)
}

/// The states from the start to the end, by a plain walk over the same values:
/// what it visits, a level lower each time, and the tables that it read.
fn states(regime: &Regime, access: &Access, course: &Course, fed: &[Option<u64>]) -> Vec<State> {
    let last = course.visited.last().copied().unwrap_or(0);
    let end = End::new(course.answer, last, course.leaf, course.after);
    let range = range_at(regime, access.address);
    let mut states = Vec::with_capacity(5);
    let mut bits = 0;
    for (below, (&entry, read)) in course.visited.iter().zip(fed).enumerate() {
        let left = LAST_LEVEL - regime.granule.first_level(range.t) - below as u8;
        states.push(State::Wants { entry, left, bits });
        if let Some(table) = read {
            bits |= table & TAKING_FIELD;
        }
    }
    states.push(State::Ended(end));
    states
}

/// The second program as a walk that can be tried.
pub struct Second;

impl Stepper for Second {
    fn start(&self, regime: &CRegime, access: &CAccess, walk: &mut CStepwise) {
        let started = Stepwise::start(&regime.read(), &access.read());
        *walk = CStepwise::of(regime, access, &started.state);
    }

    fn value(&self, walk: &mut CStepwise, value: u64) -> u8 {
        second_offer(walk, Some(value))
    }

    fn unreachable(&self, walk: &mut CStepwise) -> u8 {
        second_offer(walk, None)
    }
}

fn second_offer(walk: &mut CStepwise, offered: Option<u64>) -> u8 {
    let Some(mut stepwise) = walk.read() else {
        return WALK_ENDED;
    };
    let number = stepwise.offer(offered);
    // The regime and the access are left alone, spare bytes too (RULES 15.5).
    // By 15.10 these could be put to 0; this reading was chosen after the
    // library was seen to differ from that one.
    *walk = CStepwise {
        regime: walk.regime,
        access: walk.access,
        ..CStepwise::of(&walk.regime, &walk.access, &stepwise.state)
    };
    number
}

/// The comparisons.
pub struct Trial<S> {
    stepper: S,
    random: Random,
    pub tally: Tally,
}

impl<S: Stepper> Trial<S> {
    pub fn new(stepper: S, seed: u64) -> Self {
        Trial {
            stepper,
            random: Random::new(seed),
            tally: Tally::default(),
        }
    }

    /// A case that was made for the plain walk: fed with what its pool holds.
    /// The memory is as it was before that walk, and is left so; the other is
    /// as the walk left it.
    ///
    /// # Errors
    ///
    /// What is wrong, in words.
    pub fn case(
        &mut self,
        case: &Case,
        memory: &mut [u8],
        left: &[u8],
        walk: &Walk,
    ) -> Result<(), String> {
        let (regime, access) = (case.regime, case.access);
        let (course, fed) = recorded(pool_reader(memory, regime), regime, access);
        let pool_row = match walk.answer {
            Answer::Refused(number @ (1 | 2)) => Some(number),
            _ => None,
        };
        let plain = course.answer == walk.answer && course.visited == walk.visited;
        if pool_row.is_none() && !plain {
            return Err("the second program differs from itself".to_string());
        }
        let asked = Asked {
            regime,
            access,
            spelling: case.spelling,
            course: &course,
            fed: &fed,
        };
        let end = hold(&self.stepper, &asked)?;
        if pool_row.is_none() {
            hold_update(regime, &end, memory, left)?;
        }
        self.tally.note(Source::Pool, &asked, &end);
        self.tally.note_pool_row(pool_row, &end);
        self.again(&asked)
    }

    /// The same offers under a regime with another pool and the other order.
    fn again(&mut self, asked: &Asked) -> Result<(), String> {
        let other = with_other_pool(&mut self.random, asked.regime);
        let asked = Asked {
            regime: &other,
            ..*asked
        };
        let told = |why| format!("with another pool and the other EE: {why}");
        let end = hold(&self.stepper, &asked).map_err(told)?;
        self.tally.note_other_pool(&other, &end);
        Ok(())
    }

    /// The walks over readers that are no pools, and walks of any bytes.
    ///
    /// # Errors
    ///
    /// The first difference, in words.
    pub fn run_all(&mut self, trace: bool) -> Result<(), String> {
        self.run_feeds(trace)?;
        self.run_foreign(trace)
    }
}

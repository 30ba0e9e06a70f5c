//! Sessions of any bytes, as no call leaves them (RULES 10.5), and a few calls
//! on each. Rule 3 does not speak of them.

use super::play::{ask, differences, Maps};
use super::tally::Tally;
use super::world::{draw_usable_leaf, vary, Leaves, World};
use crate::arena::Arena;
use crate::boundary::{CEntry, CSession, Spelling, Subject, SUM_BITS};
use crate::cases::scene::{draw_access, draw_table, HD_ALONE};
use crate::geometry::{Granule, PHYSICAL_LIMIT};
use crate::harvest::{draw_near, spoil_map, spoil_pages};
use crate::random::Random;
use crate::reference::Regime;
use crate::refusals::{pairs, HARVEST, SET_REGIME};
use crate::session::{first_of, page_of, Call, Session, PLACES};
use crate::spoil::spoil;
use std::array;

const FAMILY: &str = "foreign";
const SESSIONS: u64 = 1_400;
const CALLS: u32 = 24;
/// So often any two rows apply to the harvests of a session.
const ROWS: u64 = 8;
const ROWS_CALLS: u32 = 2;

/// What a session is made for.
#[derive(Clone, Copy)]
enum Sort {
    Any,
    /// A byte above 2 says the granule; the session is to be kept.
    Byte(u8),
    /// Harvests to which two rows apply.
    Rows(u8, u8),
}

impl Sort {
    /// In the first sessions each byte above 2 says 4 KiB in turn; behind the
    /// last of any sort there are any two rows in turn.
    fn of(number: u64) -> Sort {
        let rows: Vec<(u8, u8)> = pairs(HARVEST).collect();
        match u8::try_from(number + 2) {
            Ok(byte) => Sort::Byte(byte),
            Err(_) if number <= SESSIONS => Sort::Any,
            Err(_) => {
                let (row, other) = rows[number as usize % rows.len()];
                Sort::Rows(row, other)
            }
        }
    }

    fn calls(self) -> u32 {
        match self {
            Sort::Rows(..) => ROWS_CALLS,
            _ => CALLS,
        }
    }
}

/// A session of any bytes, held against what the reference reads in them.
struct Guest<S> {
    bytes: CSession,
    subject: S,
    session: Session,
    arena: Arena,
    memory: Vec<u8>,
    calls: Vec<Call>,
}

/// Plays calls to all sessions. Ends at the first difference, which it tells.
pub fn run_all<S: Subject>(
    random: &mut Random,
    trace: bool,
    fresh: impl Fn(u64) -> Result<S, String>,
    tally: &mut Tally,
) -> Result<(), String> {
    let rows = pairs(HARVEST).count() as u64 * ROWS;
    for number in 1..=SESSIONS + rows {
        tally.begin(FAMILY);
        let mut random = Random::new(random.bits());
        let sort = Sort::of(number);
        let (world, bytes) = draw(&mut random, sort);
        let mut subject = fresh(random.bits())?;
        subject.put(&bytes);
        let mut guest = Guest {
            bytes,
            subject,
            session: bytes.read(),
            arena: Arena::new(&world.memory, (number % 16) as usize),
            memory: world.memory.clone(),
            calls: Vec::new(),
        };
        for _ in 0..sort.calls() {
            let call = guest.draw_call(&mut random, &world, sort);
            let spelling = Spelling::draw(&mut random);
            if trace {
                eprintln!("session {number} of any bytes: {call:x?}");
            }
            let played = guest.play(call, world.length, spelling, tally);
            played.map_err(|why| guest.tell(number, &why))?;
        }
    }
    Ok(())
}

impl<S: Subject> Guest<S> {
    fn play(
        &mut self,
        call: Call,
        length: usize,
        spelling: Spelling,
        tally: &mut Tally,
    ) -> Result<(), Vec<String>> {
        self.calls.push(call);
        let before = self.session.clone();
        let found = match call {
            Call::Harvest(_) => self.memory.clone(),
            _ => Vec::new(),
        };
        let mut maps = Maps::new(&call, 0);
        let lent = &mut self.memory[..length];
        let (wanted, seen) = ask(&mut self.session, lent, &mut maps.wanted, &call);
        let lent = self.arena.lend(length);
        let got = self.subject.call(lent, maps.lend(), &call, spelling);
        let mut why = differences(&wanted, &got, &self.memory, &self.arena);
        why.extend(maps.differences());
        why.extend(self.subject.wrong_bytes(&call, &got));
        why.extend(self.subject.wrong_session(&self.session));
        if !why.is_empty() {
            return Err(why);
        }
        tally.note_foreign(&self.bytes, &before, length, &call, &got, seen.as_ref());
        if let Call::Harvest(asked) = call {
            let cleaned = found != self.memory;
            tally.note_foreign_harvest(&self.bytes.regime, &before, length, &asked, cleaned);
        }
        Ok(())
    }

    /// The granule of the moment, or else that of home.
    fn granule(&self, world: &World) -> Granule {
        let regime = self.session.regime.as_ref();
        regime.unwrap_or(&world.regimes[0]).granule
    }

    /// Mostly an access of a page that one of the entries names. None that
    /// empties the entries, where the session is to be kept.
    fn draw_call(&self, random: &mut Random, world: &World, sort: Sort) -> Call {
        let keep = matches!(sort, Sort::Byte(_));
        if let Sort::Rows(row, other) = sort {
            return self.draw_harvest(random, world, &[row, other]);
        }
        match random.below(24) {
            0 if !keep => Call::DropAll,
            1 if !keep => Call::SetRegime(random.pick(&world.regimes)),
            2 | 3 => self.draw_store(random, world),
            4 if !keep => {
                let rows = random.pick(&[&[][..], &[], &[10], &[11], &[10, 11]]);
                self.draw_harvest(random, world, rows)
            }
            _ => {
                let granule = self.granule(world);
                let named = random.pick(&self.bytes.entries).page;
                let page = match random.below(6) {
                    0 => random.pick(&world.pages),
                    _ => first_of(granule, named),
                };
                Call::Access(draw_access(random, granule, page))
            }
        }
    }

    /// A harvest to which rows apply, those of the regime apart.
    fn draw_harvest(&self, random: &mut Random, world: &World, rows: &[u8]) -> Call {
        let regime = self.session.regime.unwrap_or(world.regimes[0]);
        let page = page_of(regime.granule, random.pick(&world.pages));
        let mut asked = draw_near(random, &regime, page);
        if rows.contains(&10) {
            spoil_pages(random, &regime, &mut asked);
        }
        if rows.contains(&11) {
            spoil_map(random, &mut asked);
        }
        Call::Harvest(asked)
    }

    fn draw_store(&self, random: &mut Random, world: &World) -> Call {
        let pool = self
            .session
            .regime
            .map_or(world.regimes[0].pool, |r| r.pool);
        let number = random.below(pool.length as u64 / 8 + 1);
        let output = random.below(PHYSICAL_LIMIT);
        let granule = self.granule(world);
        Call::Store {
            address: pool.address.wrapping_add(number.wrapping_mul(8)),
            value: match random.below(3) {
                0 => random.bits(),
                1 => draw_table(random, granule, world.regimes[0].pool.address),
                _ => draw_usable_leaf(random, granule, 3, output, Leaves::Clean),
            },
        }
    }

    /// Everything there is to know about a session that failed.
    fn tell(&self, number: u64, why: &[String]) -> String {
        let mut lines = vec![format!("DIFFERENCE in session {number} of any bytes")];
        lines.extend(why.iter().cloned());
        lines.push(format!("it began as: {:x?}", self.bytes.read()));
        lines.extend(self.calls.iter().map(|call| format!("{call:x?}")));
        lines.join("\n  ")
    }
}

/// A world and a session in it; where it is made for something, home is its
/// regime, but for what rows are to refuse.
fn draw(random: &mut Random, sort: Sort) -> (World, CSession) {
    let others = [Granule::Kib16, Granule::Kib64];
    let granule = match sort {
        Sort::Any | Sort::Rows(..) if random.coin() => random.pick(&others),
        _ => Granule::Kib4,
    };
    let world = World::planned(random, granule, Leaves::Mixed);
    let mut bytes = draw_bytes(random, &world);
    let mut spelling = Spelling::draw(random);
    let mut regime = world.regimes[0];
    match sort {
        Sort::Any => return (world, bytes),
        Sort::Byte(kib_4) => spelling.kib_4 = kib_4,
        Sort::Rows(row, other) => {
            // The first row last, so that its reason surely stands.
            let of_regime = |row: &u8| SET_REGIME.contains(row);
            for row in [other, row].into_iter().filter(of_regime) {
                spoil(random, row, world.memory.len(), &mut regime);
            }
        }
    }
    bytes.regime = spelling.regime(&regime);
    bytes.set = 1;
    (world, bytes)
}

fn draw_bytes(random: &mut Random, world: &World) -> CSession {
    let regime = draw_regime(random, &world.regimes[0]);
    let granule = regime.granule;
    CSession {
        regime: Spelling::draw(random).regime(&regime),
        entries: array::from_fn(|place| draw_entry(random, world, granule, place as u64)),
        set: random.pick(&[0, 1, 1, 1, 1, 2, 0x80, 0xFF]),
        spare: array::from_fn(|_| random.bits() as u8),
    }
}

/// A regime that is accepted, or that a row would refuse.
fn draw_regime(random: &mut Random, home: &Regime) -> Regime {
    let mut regime = if random.coin() {
        *home
    } else {
        vary(random, home)
    };
    let range = random.below(2) as usize;
    let bits = u64::from(regime.granule.page_bits());
    match random.below(18) {
        0 => regime.pool.start = random.pick(&[8, usize::MAX, usize::MAX - 4095]),
        1 => regime.pool.address |= 1 << random.below(bits),
        2 => regime.pool.address = random.pick(&[PHYSICAL_LIMIT, u64::MAX, u64::MAX - 4095]),
        3 => regime.ranges[range].t = random.pick(&[0, 1, 15, 40, 63, 64, 0xFF]),
        4 => regime.output_code = random.pick(&[6, 7, 8, 0xFF]),
        5 => regime.ranges[range].root |= 1 << random.between(bits - 4, bits - 1),
        6 => regime.ranges[range].root |= 1 << random.between(48, 63),
        // A multiple of a smaller granule at most.
        9 | 10 => {
            let off = 1 << random.between(bits - 4, bits - 1);
            regime.pool.length = regime.pool.length.saturating_sub(off);
        }
        7 => regime.attributes = random.bits().to_le_bytes(),
        8 => (regime.ha, regime.hd) = HD_ALONE,
        _ => {}
    }
    regime
}

/// An entry of any bytes, or one that mostly holds a page of its place.
fn draw_entry(random: &mut Random, world: &World, granule: Granule, place: u64) -> CEntry {
    let near = page_of(granule, random.pick(&world.pages));
    let output = random.below(PHYSICAL_LIMIT);
    let level = random.between(1, 3) as usize;
    let any = random.bits();
    CEntry {
        page: match random.below(12) {
            0 => any,
            _ => near - near % PLACES as u64 + place,
        },
        value: match random.below(6) {
            0 => random.bits(),
            _ => draw_usable_leaf(random, granule, level, output, Leaves::Mixed),
        },
        left: random.pick(&[0, 0, 0, 1, 1, 2, 2, 3, 4, 0x83, 0xFF]),
        held: random.pick(&[0, 1, 1, 1, 1, 2, 0x80, 0xFF]),
        tables: match random.below(3) {
            0 => any as u8 & !SUM_BITS,
            1 => any as u8 & !SUM_BITS | 1 << random.below(4),
            _ => any as u8,
        },
        spare: array::from_fn(|_| random.bits() as u8),
    }
}

//! Spare bytes: those given have no say, those that the library writes are 0.

use super::*;

/// Structs of numbers without padding: any bytes are one.
pub trait Plain {}

impl Plain for Answer {}
impl Plain for Session {}
impl Plain for Stepwise {}

pub fn bytes<T: Plain>(of: &mut T) -> &mut [u8] {
    // SAFETY: all bytes of a struct without padding are initialised, and any
    // bytes are one of these structs.
    unsafe { std::slice::from_raw_parts_mut(std::ptr::from_mut(of).cast(), size_of::<T>()) }
}

/// A session's spare bytes: its own, its regime's, its entries'; and the spare
/// bits of an entry's sum.
fn each_spare(session: &mut Session, mut each: impl FnMut(&mut [u8])) {
    each(&mut session.regime.spare);
    each(&mut session.spare);
    for entry in &mut session.entries {
        each(&mut entry.spare);
        let mut high = [entry.tables & 0xf0];
        each(&mut high);
        entry.tables = entry.tables & 0x0f | high[0] & 0xf0;
    }
}

/// What stands in spare bytes that are given, and where the library only
/// writes.
#[derive(Clone, Copy, PartialEq)]
pub enum Fill {
    Zeros,
    Noise,
    /// Noise in the session before each call too; it is logged without.
    NoiseInSession,
}

struct Noise {
    state: u64,
    fill: Fill,
}

impl Noise {
    fn fill(&mut self, bytes: &mut [u8]) {
        if self.fill != Fill::Zeros {
            bytes.fill_with(|| next(&mut self.state) as u8);
        }
    }
}

/// A random list of calls from the fresh session.
pub struct List {
    calls: u64,
    noise: Noise,
    /// EE: the byte order of the tables, and of most regimes.
    ee: u8,
    session: Session,
    pub memory: Vec<u8>,
    /// Each reply, and the session behind it; once it has a regime, its EE is
    /// logged as 0 where it is the list's.
    pub log: Vec<u8>,
    /// Of accesses: successes, faults, refusals, and hits among them; and the
    /// pages that harvests reported.
    counts: [u32; 5],
}

impl List {
    fn new(seed: u64, fill: Fill, ee: u8) -> Self {
        let mut memory = memory();
        for page in 0..96 {
            put(
                &mut memory,
                0x3000 + 8 * page,
                CLEAN + ((page as u64) << 12),
            );
        }
        if ee != 0 {
            memory = turned(memory);
        }
        let mut list = Self {
            calls: seed,
            noise: Noise { state: !seed, fill },
            ee,
            session: session_empty(),
            memory,
            log: Vec::new(),
            counts: [0; 5],
        };
        list.noise.fill(bytes(&mut list.session));
        // SAFETY: the session is lent to this call alone.
        unsafe { vmsa_session_empty(&mut list.session) };
        list
    }

    fn below(&mut self, limit: u64) -> u64 {
        (next(&mut self.calls) >> 16) % limit
    }

    fn regime(&mut self) -> Regime {
        let mut regime = Regime {
            tsz1: [16, 16, 39, 40][self.below(4) as usize],
            attributes: [u64::MAX, 0x04][self.below(2) as usize],
            ha: self.below(8) as u8,
            hd: self.below(2) as u8,
            wxn: self.below(2) as u8,
            hpd0: self.below(4) as u8 / 3,
            ee: self.ee ^ (self.below(8) as u8 / 7),
            granule: [1, 2, 3, 0, 0, 0, 0, 0][self.below(8) as usize],
            ..REGIME
        };
        self.noise.fill(&mut regime.spare);
        regime
    }

    fn access(&mut self) -> Access {
        let kind = self.below(8) as u8;
        let size = match kind {
            3 => 4,
            4 | 5 => 1,
            _ => 1 << self.below(5),
        };
        let mut access = Access {
            address: (0x400 + 64 * self.below(2) + self.below(4)) << 12 | self.below(0xffc) & !3,
            size,
            el0: self.below(2) as u8,
            kind,
            ..READ
        };
        self.noise.fill(&mut access.spare);
        access
    }

    /// An access, in the session or by the plain walk.
    fn ask(&mut self, regime: Option<Regime>) -> Answer {
        let access = self.access();
        let mut answer = Answer::default();
        self.noise.fill(bytes(&mut answer));
        let (memory, length) = (self.memory.as_mut_ptr(), self.memory.len());
        // SAFETY: the pointer and length are those of the memory, which like
        // the structs is lent to this call alone.
        unsafe {
            match &regime {
                Some(regime) => vmsa_walk(memory, length, regime, &access, &mut answer),
                None => {
                    vmsa_session_access(&mut self.session, memory, length, &access, &mut answer);
                }
            }
        }
        self.counts[usize::from(answer.tag)] += 1;
        self.counts[3] += u32::from(answer.tag != 2 && answer.reads == 0);
        answer
    }

    /// A harvest, in the session or plain.
    fn harvest(&mut self) {
        let regime = (self.below(4) == 0).then(|| self.regime());
        let (first, count) = (0x3fe + 64 * self.below(2), self.below(34));
        let mut map = [0; 4];
        let memory = &mut self.memory;
        let reply = match &regime {
            Some(regime) => harvest(memory, regime, first, count, &mut map),
            None => session_harvest(&mut self.session, memory, first, count, &mut map),
        };
        self.log.push(reply);
        self.log.extend(map);
        self.counts[4] += map.iter().map(|byte| byte.count_ones()).sum::<u32>();
    }

    fn call(&mut self) {
        if self.noise.fill == Fill::NoiseInSession {
            each_spare(&mut self.session, |spare| self.noise.fill(spare));
        }
        match self.below(32) {
            0 => {
                let regime = self.regime();
                let reply = session_set_regime(&mut self.session, &self.memory, &regime);
                self.log.push(reply);
            }
            1 => {
                let (address, value) = match self.below(4) {
                    0 => (POOL + THIRD as u64, TABLE | self.below(16) << 59),
                    _ => (POOL + 0x3000 + self.below(0x400), CLEAN),
                };
                let reply = session_store(&mut self.session, &mut self.memory, address, value);
                self.log.push(reply);
            }
            2 => session_invalidate_all(&mut self.session),
            3 => self.harvest(),
            which => {
                let regime = (which < 8).then(|| self.regime());
                let mut answer = self.ask(regime);
                self.log.extend(&*bytes(&mut answer));
            }
        }
        let mut after = self.session;
        if self.noise.fill == Fill::NoiseInSession {
            each_spare(&mut after, |spare| spare.fill(0));
        }
        if after.set != 0 {
            after.regime.ee ^= self.ee;
        }
        self.log.extend(&*bytes(&mut after));
    }

    /// A list of 300 calls, made.
    pub fn made(seed: u64, fill: Fill, ee: u8) -> Self {
        let mut list = Self::new(seed << 32 | 0x9e37_79b9, fill, ee);
        (0..300).for_each(|_| list.call());
        list
    }
}

#[test]
fn no_say() {
    // The same calls leave the same bytes, whatever stood where the library
    // writes and in the spare bytes it was given.
    let mut counts = [0; 5];
    for seed in 1..=40 {
        let [zeros, noise, in_session] = [Fill::Zeros, Fill::Noise, Fill::NoiseInSession]
            .map(|fill| List::made(seed, fill, seed as u8 % 2));
        for other in [noise, in_session] {
            assert!(zeros.log == other.log, "list {seed}");
            assert!(zeros.memory == other.memory, "list {seed}");
        }
        (0..5).for_each(|i| counts[i] += zeros.counts[i]);
    }
    let least = [500, 500, 500, 500, 100];
    assert!((0..5).all(|i| counts[i] > least[i]), "{counts:?}");
}

#[test]
fn zero_where_written() {
    // A session with a byte in all that is spare, and a regime and an access.
    const BYTE: u8 = 0xa5;
    let regime = Regime {
        spare: [BYTE; 4],
        ..REGIME
    };
    let read = Access {
        spare: [BYTE; 6],
        ..READ
    };
    let mut session = super::session(regime);
    assert_eq!(session, super::session(REGIME));
    each_spare(&mut session, |spare| assert!(spare.iter().all(|&b| b == 0)));
    each_spare(&mut session, |spare| spare.fill(BYTE));

    // A miss writes the page's entry, and a hit nothing.
    let mut memory = memory();
    let mut expected = session;
    assert_eq!(
        session_access(&mut session, &mut memory, &read).spare,
        [0; 4]
    );
    expected.entries[0x403 % ENTRIES] = Entry {
        page: 0x403,
        value: CLEAN | AF,
        held: 1,
        ..Entry::default()
    };
    assert_eq!(session, expected);
    assert_eq!(session_access(&mut session, &mut memory, &read).reads, 0);
    assert_eq!(session, expected);

    // Nor does a store, nor what is refused.
    assert_eq!(session_store(&mut session, &mut memory, POOL, 0), 0);
    assert_eq!(session_store(&mut session, &mut memory, POOL + 1, 0), 8);
    let bad = Regime { tsz0: 40, ..regime };
    assert_eq!(session_set_regime(&mut session, &memory, &bad), 3);
    let long = Access { size: 3, ..read };
    assert_eq!(session_access(&mut session, &mut memory, &long).refusal, 6);
    assert_eq!(session, expected);

    // A drop writes the entries, a set regime all.
    session_invalidate_all(&mut session);
    expected.entries = [Entry::default(); ENTRIES];
    assert_eq!(session, expected);
    each_spare(&mut session, |spare| spare.fill(BYTE));
    assert_eq!(session_set_regime(&mut session, &memory, &regime), 0);
    assert_eq!(session, super::session(REGIME));
}

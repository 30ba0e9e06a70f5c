//! Sessions: a script with every call, in both byte orders, what a turned EE
//! leaves, and long random lists, of every granule, held against the plain walk.

mod tables;

use tables::kind::Kind;
use tables::{
    get, memory, put, put_in, read, regime, turned, write, Both, Random, ADDRESS, CLEAN, LEAF,
    LENGTH, NO_EL0, NO_WRITE, POOL, TABLES,
};
use vmsa::{
    harvest, walk, Access, Answer, FaultKind, Granule, Pages, PhysAddr, Range, Refusal, Regime,
    Session, Stop, VirtAddr, VirtPage,
};

const AP2: u64 = 1 << 7;
const AF: u64 = 1 << 10;

/// The answer with its count of reads put to 0, for comparing.
fn uncounted(answer: Answer) -> Answer {
    match answer {
        Ok(mut found) => {
            found.reads = 0;
            Ok(found)
        }
        Err(Stop::Fault(mut fault)) => {
            fault.reads = 0;
            Err(Stop::Fault(fault))
        }
        refused => refused,
    }
}

fn reads(answer: Answer) -> u8 {
    match answer {
        Ok(found) => found.reads,
        Err(stop) => stop.fault().unwrap().reads,
    }
}

/// The session with every entry empty.
fn emptied(session: &Session) -> Session {
    let mut session = session.clone();
    session.invalidate_all();
    session
}

#[test]
fn script() {
    let mut memory = memory();
    let mut session = Both::new();
    assert_eq!(session.0, Session::default());
    let leaf = PhysAddr(POOL + LEAF as u64);

    // No regime yet, and a refused one leaves it so.
    let no_regime = Refusal::NoRegime;
    assert_eq!(
        session.access(&mut memory, &read()),
        Err(Stop::Refused(no_regime))
    );
    assert_eq!(session.store(&mut memory, leaf, 0), Err(no_regime));
    let page = Pages::new(ADDRESS.page(Granule::Kib4), 1);
    let mut map = [0x5a; 2];
    let refused = session.harvest(&mut memory, page, &mut map);
    assert_eq!(refused, Err(no_regime));
    session.invalidate_all();
    let bad = regime().range0(Range::new(PhysAddr(POOL), 15));
    assert_eq!(session.set_regime(&memory, &bad), Err(Refusal::Sizes));
    assert_eq!(session, Both::new());
    assert!(memory == tables::memory());

    // A read fills the entry; a write of the writable-clean page walks again.
    session.set_regime(&memory, &regime()).unwrap();
    let found = session.access(&mut memory, &read()).unwrap();
    assert_eq!(
        (found.reads, found.accessed, found.dirtied),
        (4, true, false)
    );
    let found = session.access(&mut memory, &read()).unwrap();
    assert_eq!((found.reads, found.accessed), (0, false));
    let found = session.access(&mut memory, &write()).unwrap();
    assert_eq!((found.reads, found.dirtied), (4, true));
    let found = session.access(&mut memory, &write()).unwrap();
    assert_eq!((found.reads, found.dirtied), (0, false));
    assert_eq!(get(&memory, LEAF), 0x0008_0000_8000_5743);

    // Permission and Alignment faults are answered from the held leaf.
    let fetch = Access::fetch(ADDRESS);
    let fault = session.access(&mut memory, &fetch).unwrap_err();
    let fault = fault.fault().unwrap();
    assert_eq!((fault.kind, fault.reads), (FaultKind::Permission, 0));

    // A store alone does not reach the entry; a drop does.
    session
        .store(&mut memory, leaf, CLEAN | AF | 0x1_0000)
        .unwrap();
    assert_eq!(get(&memory, LEAF), CLEAN | AF | 0x1_0000);
    let held = session.access(&mut memory, &write()).unwrap();
    assert_eq!((held.output.0, held.reads), (0x8000_5abc, 0));
    assert_eq!(get(&memory, LEAF), CLEAN | AF | 0x1_0000);
    session.invalidate_all();
    let seen = session.access(&mut memory, &write()).unwrap();
    assert_eq!((seen.output.0, seen.reads), (0x8001_5abc, 4));
    assert_eq!(get(&memory, LEAF), (CLEAN | AF | 0x1_0000) & !AP2);

    // A page 64 pages on has the same entry; a probe that may not be held
    // does not fill it, a read does.
    put(&mut memory, LEAF + 64 * 8, CLEAN);
    let far = VirtAddr(ADDRESS.0 + 64 * 4096);
    let probe = Access::probe_read(far);
    assert_eq!(reads(session.access(&mut memory, &probe)), 4);
    assert_eq!(reads(session.access(&mut memory, &read())), 0);
    assert_eq!(reads(session.access(&mut memory, &Access::read(far, 8))), 4);
    assert_eq!(reads(session.access(&mut memory, &probe)), 0);
    assert_eq!(reads(session.access(&mut memory, &read())), 4);
    assert_eq!(reads(session.access(&mut memory, &probe)), 4);

    // A harvest reports the page, makes it clean and empties the entries, so
    // that the next write marks it again.
    session.harvest(&mut memory, page, &mut map).unwrap();
    for _ in 0..2 {
        let found = session.access(&mut memory, &write()).unwrap();
        assert_eq!((found.reads, found.dirtied), (4, true));
        assert_eq!(reads(session.access(&mut memory, &write())), 0);
        session.harvest(&mut memory, page, &mut map).unwrap();
        assert_eq!(map, [1, 0x5a]);
        assert_eq!(get(&memory, LEAF), CLEAN | AF | 0x1_0000);
        assert_eq!(session.0, emptied(&session.0));
    }

    // Refused calls change neither memory nor session, nor the map.
    let before = (session.clone(), memory.clone());
    for (bad, refusal) in [
        (regime().attribute(3, 0x01), Refusal::Attributes),
        (regime().ha(false), Refusal::DirtyState),
    ] {
        assert_eq!(session.set_regime(&memory, &bad), Err(refusal));
    }
    for (access, refusal) in [
        (Access::read(ADDRESS, 5), Refusal::AccessSize),
        (Access::read(VirtAddr(0xfff), 2), Refusal::PageCrossing),
    ] {
        assert_eq!(
            session.access(&mut memory, &access),
            Err(Stop::Refused(refusal))
        );
    }
    let end = POOL + LENGTH as u64;
    for address in [POOL - 8, POOL + 4, end, 0, u64::MAX - 7] {
        let answer = session.store(&mut memory, PhysAddr(address), 1);
        assert_eq!(answer, Err(Refusal::StoreAddress));
    }
    for (count, refusal) in [(0, Refusal::PageRange), (17, Refusal::MapLength)] {
        let pages = Pages { count, ..page };
        let answer = session.harvest(&mut memory, pages, &mut map);
        assert_eq!((answer, map), (Err(refusal), [1, 0x5a]));
    }
    let short = &mut memory[..0x8000];
    assert_eq!(
        session.access(short, &read()),
        Err(Stop::Refused(Refusal::MemoryPool))
    );
    assert_eq!(session.store(short, leaf, 0), Err(Refusal::MemoryPool));
    let answer = session.harvest(short, page, &mut map);
    assert_eq!((answer, map), (Err(Refusal::MemoryPool), [1, 0x5a]));
    assert!((session.clone(), memory.clone()) == before);

    // The last descriptor of the pool may be stored; a new regime empties.
    let last = PhysAddr(end - 8);
    session.store(&mut memory, last, u64::MAX).unwrap();
    assert_eq!(get(&memory, LENGTH - 8), u64::MAX);
    assert_eq!(reads(session.access(&mut memory, &read())), 4);
    assert_eq!(reads(session.access(&mut memory, &read())), 0);
    session.set_regime(&memory, &regime()).unwrap();
    assert_eq!(reads(session.access(&mut memory, &read())), 4);
    let debug = format!("{:?}", session.0);
    assert_eq!(debug, "Session { set: true, held: 1, .. }");
}

/// The code of the fault, and its reads.
fn denied(answer: Answer) -> (u16, u8) {
    let fault = answer.unwrap_err().fault().unwrap();
    (fault.code, fault.reads)
}

#[test]
fn a_held_sum() {
    // An entry holds what the tables take away as the walk met them.
    let mut memory = memory();
    let mut session = Both::new();
    session.set_regime(&memory, &regime()).unwrap();
    let (offset, table) = TABLES[2];
    let third = PhysAddr(POOL + offset as u64);

    assert_eq!(reads(session.access(&mut memory, &read())), 4);
    session.store(&mut memory, third, table | NO_EL0).unwrap();
    assert!(session.access(&mut memory, &read()).is_ok());
    session.invalidate_all();
    assert_eq!(denied(session.access(&mut memory, &read())), (15, 4));
    session.store(&mut memory, third, table).unwrap();
    assert_eq!(denied(session.access(&mut memory, &read())), (15, 0));
    session.invalidate_all();
    assert_eq!(reads(session.access(&mut memory, &read())), 4);

    // A write that would make the page dirty walks, and meets the bit; held,
    // it leaves nothing to walk for.
    session.store(&mut memory, third, table | NO_WRITE).unwrap();
    assert_eq!(denied(session.access(&mut memory, &write())), (15, 4));
    assert_eq!(denied(session.access(&mut memory, &write())), (15, 0));
    assert_eq!(reads(session.access(&mut memory, &read())), 0);
    assert_eq!(get(&memory, LEAF), CLEAN | AF);
    session.store(&mut memory, third, table).unwrap();
    session.invalidate_all();
    assert!(session.access(&mut memory, &write()).unwrap().dirtied);
}

#[test]
fn ee_turned() {
    // A new regime with EE turned empties the entries, and the tables as they
    // stand lead nowhere.
    let mut memory = memory();
    let mut session = Session::new();
    session.set_regime(&memory, &regime()).unwrap();
    assert_eq!(reads(session.access(&mut memory, &read())), 4);
    let bad = regime().ee(true).ha(false);
    let refused = session.set_regime(&memory, &bad);
    assert_eq!(refused, Err(Refusal::DirtyState));
    assert_eq!(reads(session.access(&mut memory, &read())), 0);
    session.set_regime(&memory, &regime().ee(true)).unwrap();
    assert_eq!(denied(session.access(&mut memory, &read())), (4, 1));

    // The guest stores them again in the new order.
    for (offset, descriptor) in TABLES.into_iter().chain([(LEAF, CLEAN)]) {
        let address = PhysAddr(POOL + offset as u64);
        session.store(&mut memory, address, descriptor).unwrap();
    }
    assert!(memory == turned(&tables::memory()));
    assert_eq!(reads(session.access(&mut memory, &read())), 4);
    assert_eq!(reads(session.access(&mut memory, &read())), 0);
    assert!(session.access(&mut memory, &write()).unwrap().dirtied);
    assert_eq!(
        memory[LEAF..LEAF + 8],
        [0x00, 0x08, 0x00, 0x00, 0x80, 0x00, 0x57, 0x43]
    );
    session.set_regime(&memory, &regime()).unwrap();
    assert_eq!(denied(session.access(&mut memory, &write())), (4, 1));
}

#[test]
fn every_entry() {
    // 64 pages side by side fill 64 entries; each stays until it is dropped.
    let mut memory = memory();
    for page in 0..64 {
        put(
            &mut memory,
            0x3000 + 8 * page,
            CLEAN + ((page as u64) << 12),
        );
    }
    let mut session = Both::new();
    session.set_regime(&memory, &regime()).unwrap();
    let access = |page: u64| Access::write(VirtAddr(0x40_0008 + (page << 12)), 8).el0();
    for (expected, dirtied) in [(4, true), (0, false)] {
        for page in 0..64 {
            let found = session.access(&mut memory, &access(page)).unwrap();
            assert_eq!(found.output.0, 0x8000_5008 + (page << 12));
            assert_eq!((found.reads, found.dirtied), (expected, dirtied));
        }
    }
    session.invalidate_all();
    for page in 0..64 {
        let found = session.access(&mut memory, &access(page)).unwrap();
        assert_eq!(found.reads, 4);
    }
}

#[test]
fn same_calls_same_session() {
    // Two sessions over two memories; each call leaves them equal.
    let mut memories = [memory(), memory()];
    let mut sessions = [Session::new(), Session::new()];
    let mut both = |call: &dyn Fn(&mut Session, &mut [u8])| {
        for (session, memory) in sessions.iter_mut().zip(&mut memories) {
            call(session, memory);
        }
        assert_eq!(sessions[0], sessions[1]);
        sessions[0].clone()
    };
    let set = both(&|session, memory| session.set_regime(memory, &regime()).unwrap());
    let held = both(&|session, memory| {
        session.access(memory, &write()).unwrap();
    });
    assert_ne!(held, set);
    let stored = both(&|session, memory| session.store(memory, PhysAddr(POOL), 0).unwrap());
    assert_eq!(stored, held);
    // An emptied session is as one that was just set; so is a harvested one.
    assert_eq!(both(&|session, _| session.invalidate_all()), set);
    both(&|session, memory| {
        let _ = session.access(memory, &write());
    });
    let pages = Pages::new(VirtPage(0), 1);
    let harvested = both(&|session, memory| {
        session.harvest(memory, pages, &mut [0]).unwrap();
    });
    assert_eq!(harvested, set);
    assert!(memories[0] == memories[1]);
}

/// What the lists have met: successes from an entry, dirty marks by EE,
/// successes by granule, faults, harvests, and pages that these reported.
#[derive(Debug, Default)]
struct Met {
    harvests: u32,
    reported: u32,
    held: u32,
    dirtied: [u32; 2],
    found: [u32; 3],
    faults: u32,
}

impl Met {
    fn note(&mut self, regime: &Regime, answer: Answer) {
        let Ok(found) = answer else {
            self.faults += 1;
            return;
        };
        self.held += u32::from(found.reads == 0);
        self.dirtied[usize::from(regime.ee)] += u32::from(found.dirtied);
        self.found[regime.granule as usize] += 1;
    }
}

/// A random list of calls, each held against what it is to do.
struct List {
    kind: Kind,
    memory: Vec<u8>,
    session: Session,
    last: Option<Regime>,
}

impl List {
    fn set_regime(&mut self, random: &mut Random) {
        let before = self.memory.clone();
        let next = self.kind.regime(random);
        if self.session.set_regime(&self.memory, &next).is_ok() {
            self.last = Some(next);
        }
        assert!(self.memory == before);
    }

    /// A store is followed by a drop, or by a harvest, which is one too.
    fn store(&mut self, random: &mut Random, met: &mut Met) {
        let mut expected = self.memory.clone();
        let offset = self.kind.any_page(random) + 8 * random.below(32);
        let value = self.kind.descriptor(random);
        let address = PhysAddr(POOL + offset);
        let answer = self.session.store(&mut self.memory, address, value);
        if let (Ok(()), Some(regime)) = (answer, self.last) {
            let offset = regime.pool.start + offset as usize;
            put_in(regime.ee, &mut expected, offset, value);
            assert!(self.memory == expected);
            while random.below(2) == 0 {
                if self.harvest(random, met).is_ok() {
                    return;
                }
            }
            self.session.invalidate_all();
        }
        assert!(self.memory == expected);
    }

    /// It leaves what the plain harvest leaves.
    fn harvest(&mut self, random: &mut Random, met: &mut Met) -> Result<(), Refusal> {
        let mut plain = self.memory.clone();
        let granule = self.last.map_or(self.kind.granule, |regime| regime.granule);
        let address = self.kind.access(random, self.last).address;
        let pages = Pages::new(address.page(granule), random.below(70));
        let (mut map, mut plain_map) = ([0x5a; 8], [0x5a; 8]);
        let answer = self.session.harvest(&mut self.memory, pages, &mut map);
        let expected = match self.last {
            Some(regime) => harvest(&mut plain, &regime, pages, &mut plain_map),
            None => Err(Refusal::NoRegime),
        };
        assert_eq!((answer, map), (expected, plain_map), "{pages:?}");
        assert!(self.memory == plain, "{pages:?}");
        if answer.is_ok() {
            assert_eq!(self.session, emptied(&self.session));
            met.harvests += 1;
            met.reported += pages.dirty(&map).len() as u32;
        }
        answer
    }

    fn access(&mut self, random: &mut Random, met: &mut Met) {
        let mut walked = self.memory.clone();
        let access = self.kind.access(random, self.last);
        let answer = self.session.access(&mut self.memory, &access);
        if let Some(regime) = self.last {
            let plain = walk(&mut walked, &regime, &access);
            assert_eq!(uncounted(answer), uncounted(plain), "{access:?}");
            met.note(&regime, answer);
        } else {
            assert_eq!(answer, Err(Stop::Refused(Refusal::NoRegime)));
        }
        assert!(self.memory == walked, "{access:?}");
    }
}

#[test]
fn as_the_plain_walk() {
    let mut random = Random(0x9e37_79b9_7f4a_7c15);
    let mut met = Met::default();
    for number in 0..300 {
        let kind = Kind::of(number);
        let mut list = List {
            kind,
            memory: kind.memory(&mut random),
            session: Session::new(),
            last: None,
        };
        for _ in 0..200 {
            match random.below(24) {
                0 => list.set_regime(&mut random),
                1 => list.store(&mut random, &mut met),
                2 => drop(list.harvest(&mut random, &mut met)),
                _ => list.access(&mut random, &mut met),
            }
        }
    }
    // The lists are worth something.
    let few = |counts: &[u32], least| counts.iter().any(|&count| count < least);
    assert!(
        !few(&[met.held, met.faults, met.harvests, met.reported], 1000)
            && !few(&met.dirtied, 100)
            && !few(&met.found, 500),
        "{met:?}"
    );
}

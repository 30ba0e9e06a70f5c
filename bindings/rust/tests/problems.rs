//! `Regime::check`, `Regime::check_stepwise`, `Access::check` and `Pages::check`
//! against the library: they find a problem exactly where it refuses, with the
//! same number. At every limit, and over many random regimes, accesses and
//! harvests; and the words.

mod tables;

use std::collections::HashSet;
use std::mem::discriminant;

use tables::{read, regime, Random, POOL};
use vmsa::{
    harvest, walk, Access, AccessKind, Granule, Pages, PhysAddr, Pool, Problem, Refusal, Regime,
    Session, StepwiseWalk, Stop, VirtAddr, VirtPage, HARVEST_LIMIT, MEMORY_LIMIT, POOL_LIMIT,
};

const TOP: u64 = 1 << 48;

/// The most bytes of a map here: more than any harvest needs.
const MAP: usize = HARVEST_LIMIT as usize / 8 + 8;

/// What is checked. As it starts there is no problem.
#[derive(Clone, Copy, Debug)]
struct Question {
    memory: usize,
    regime: Regime,
    access: Access,
    pages: Pages,
    map: usize,
}

type Change = fn(&mut Question);

fn question() -> Question {
    Question {
        memory: POOL_LIMIT,
        regime: regime().pool(Pool::new(0, POOL_LIMIT, PhysAddr(POOL))),
        access: read(),
        pages: Pages::new(VirtPage(0x400), 9),
        map: 2,
    }
}

fn changed(changes: &[Change]) -> Question {
    let mut question = question();
    for change in changes {
        change(&mut question);
    }
    question
}

impl Question {
    /// A walk's first problem: the regime comes before the access.
    fn problem(&self) -> Option<Problem> {
        let regime = self.regime.check(self.memory);
        regime
            .and_then(|()| self.access.check(self.regime.granule))
            .err()
    }

    /// A harvest's first problem: the regime comes before pages and map.
    fn problem_of_harvest(&self) -> Option<Problem> {
        let regime = self.regime.check(self.memory);
        regime
            .and_then(|()| self.pages.check(&self.regime, self.map))
            .err()
    }

    /// The first problem of the start of a stepwise walk.
    fn problem_of_start(&self) -> Option<Problem> {
        let regime = self.regime.check_stepwise();
        regime
            .and_then(|()| self.access.check(self.regime.granule))
            .err()
    }
}

/// The library, over a memory of zeros: no descriptor is valid, and no call
/// changes it. A session for each granule.
struct Library {
    memory: Vec<u8>,
    map: Vec<u8>,
    sessions: [(Regime, Session); 3],
}

impl Library {
    fn new() -> Self {
        let memory = vec![0; MEMORY_LIMIT + 4096];
        let Question {
            memory: lent,
            regime,
            ..
        } = question();
        let sessions = Granule::ALL.map(|granule| {
            let mut session = Session::new();
            let regime = regime.granule(granule);
            session.set_regime(&memory[..lent], &regime).unwrap();
            (regime, session)
        });
        Self {
            memory,
            map: vec![0; MAP],
            sessions,
        }
    }

    /// Holds the checks against the six calls that make them.
    fn agrees(&mut self, question: &Question) {
        let lent = &mut self.memory[..question.memory];
        let refusal = |checked: Result<(), Problem>| checked.map_err(Problem::refusal);
        let given = Session::new().set_regime(lent, &question.regime);
        let checked = question.regime.check(question.memory);
        assert_eq!(refusal(checked), given, "{question:?}");

        let given = walk(lent, &question.regime, &question.access);
        let found = question.problem().map(Problem::refusal);
        assert_eq!(found, given.err().and_then(Stop::refusal), "{question:?}");

        let map = &mut self.map[..question.map];
        let given = harvest(lent, &question.regime, question.pages, map);
        let found = question.problem_of_harvest().map(Problem::refusal);
        assert_eq!(found, given.err(), "{question:?}");

        let ended = StepwiseWalk::start(&question.regime, &question.access).run(|_| None);
        let given = ended.settle(|_| panic!("no update is due")).unwrap();
        let found = question.problem_of_start().map(Problem::refusal);
        assert_eq!(found, given.err().and_then(Stop::refusal), "{question:?}");

        let lent = &mut self.memory[..POOL_LIMIT];
        for (regime, session) in &mut self.sessions {
            let given = session.access(lent, &question.access);
            let found = question.access.check(regime.granule);
            let found = found.err().map(Problem::refusal);
            assert_eq!(found, given.err().and_then(Stop::refusal), "{question:?}");

            let map = &mut self.map[..question.map];
            let given = session.harvest(lent, question.pages, map);
            let checked = question.pages.check(regime, question.map);
            assert_eq!(refusal(checked), given, "{question:?}");
        }
    }
}

/// Each cause, in the order in which they are looked for: a change that makes
/// it, also after the change of any later one, and the words behind the number,
/// with the limits by their names.
const CAUSES: [(Change, Refusal, &str); 21] = [
    (
        |q| q.memory = MEMORY_LIMIT + 1,
        Refusal::MemoryPool,
        "the memory's length, MEMORY_LIMIT + 1, is above its limit, MEMORY_LIMIT",
    ),
    (
        |q| q.regime.pool.start = 0x800,
        Refusal::MemoryPool,
        "the pool's start, 2048, is no multiple of 4096",
    ),
    (
        |q| q.regime.pool.length = 0x1008,
        Refusal::MemoryPool,
        "the pool's length, 4104, is no multiple of 4096",
    ),
    (
        |q| q.regime.pool.length = 0,
        Refusal::MemoryPool,
        "the pool's length is 0",
    ),
    (
        |q| q.regime.pool.length = POOL_LIMIT + 4096,
        Refusal::MemoryPool,
        "the pool's length, POOL_LIMIT + 4096, is above its limit, POOL_LIMIT",
    ),
    (
        |q| (q.memory, q.regime.pool.start, q.regime.pool.length) = (0x2000, 0x1000, 0x2000),
        Refusal::MemoryPool,
        "the pool's end, 12288, is past the end of the memory, 8192",
    ),
    (
        |q| q.regime.pool.address = PhysAddr(POOL + 0x800),
        Refusal::PoolAddress,
        "the pool's address, 0x40000800, is no multiple of 4096",
    ),
    (
        |q| (q.regime.pool.address, q.regime.pool.length) = (PhysAddr(TOP - 0x1000), 0x2000),
        Refusal::PoolAddress,
        "the pool's end address, 0x1000000001000, is above 2^48",
    ),
    (
        |q| q.regime.range0.tsz = 15,
        Refusal::Sizes,
        "T of range 0, 15, is outside 16 to 39",
    ),
    (
        |q| q.regime.range1.tsz = 40,
        Refusal::Sizes,
        "T of range 1, 40, is outside 16 to 39",
    ),
    (
        |q| q.regime.range0.root = PhysAddr(TOP + 8),
        Refusal::Root,
        "the root of range 0, 0x1000000000008, is no multiple of 4096",
    ),
    (
        |q| q.regime.range0.root = PhysAddr(TOP),
        Refusal::Root,
        "the root of range 0, 0x1000000000000, is not below 2^48",
    ),
    (
        |q| q.regime.range1.root = PhysAddr(TOP + 8),
        Refusal::Root,
        "the root of range 1, 0x1000000000008, is no multiple of 4096",
    ),
    (
        |q| q.regime.range1.root = PhysAddr(TOP),
        Refusal::Root,
        "the root of range 1, 0x1000000000000, is not below 2^48",
    ),
    (
        |q| q.regime.attributes = [0xff, 0x44, 0x04, 0xf0, 0x0f, 0xff, 0xff, 0xff],
        Refusal::Attributes,
        "attribute byte 3, 0xf0, is neither Device (0x00, 0x04, 0x08, 0x0c) \
         nor Normal (both halves nonzero)",
    ),
    (
        |q| q.regime.ha = false,
        Refusal::DirtyState,
        "HD is on and HA, which it needs, is off",
    ),
    (
        |q| q.access.size = 3,
        Refusal::AccessSize,
        "the size, 3, is not 1, 2, 4, 8 or 16",
    ),
    (
        |q| (q.access.kind, q.access.size) = (AccessKind::Fetch, 8),
        Refusal::AccessSize,
        "the size of a fetch, 8, is not 4",
    ),
    (
        |q| q.access = Access::fetch(VirtAddr(0x40_3abe)),
        Refusal::AccessSize,
        "the address of a fetch, 0x403abe, is no multiple of 4",
    ),
    (
        |q| (q.access.kind, q.access.size) = (AccessKind::ProbeWrite, 4),
        Refusal::AccessSize,
        "the size of a probe, 4, is not 1",
    ),
    (
        |q| q.access = Access::read(VirtAddr(0x40_3ffd), 4),
        Refusal::PageCrossing,
        "the first byte, 0x403ffd, and the last, 0x404000, lie in different pages of 4096 bytes",
    ),
];

/// The same for a harvest: what its causes are after those of the regime.
const HARVEST_CAUSES: [(Change, Refusal, &str); 6] = [
    (
        |q| q.pages.first = VirtPage(1 << 36),
        Refusal::PageRange,
        "the first page, 0x1000000000, is in neither range",
    ),
    (
        |q| q.pages.count = 0,
        Refusal::PageRange,
        "the number of pages is 0",
    ),
    (
        |q| q.pages.count = HARVEST_LIMIT + 1,
        Refusal::PageRange,
        "the number of pages, HARVEST_LIMIT + 1, is above its limit, HARVEST_LIMIT",
    ),
    (
        |q| q.pages = Pages::new(VirtPage((1 << 36) - 8), 9),
        Refusal::PageRange,
        "the last page, 0x1000000000, is past that of range 0, 0xfffffffff",
    ),
    (
        |q| q.pages = Pages::new(VirtPage((1 << 52) - 9), 10),
        Refusal::PageRange,
        "the last page, 0x10000000000000, is past that of range 1, 0xfffffffffffff",
    ),
    (
        |q| q.map = 1,
        Refusal::MapLength,
        "the map's length, 1, is below 2, the bytes for 9 pages",
    ),
];

/// Such words with the limits' numbers.
fn numbered(words: &str) -> String {
    [
        ("HARVEST_LIMIT + 1", HARVEST_LIMIT as usize + 1),
        ("HARVEST_LIMIT", HARVEST_LIMIT as usize),
        ("MEMORY_LIMIT + 1", MEMORY_LIMIT + 1),
        ("MEMORY_LIMIT", MEMORY_LIMIT),
        ("POOL_LIMIT + 4096", POOL_LIMIT + 4096),
        ("POOL_LIMIT", POOL_LIMIT),
    ]
    .into_iter()
    .fold(words.to_string(), |words, (name, number)| {
        words.replace(name, &number.to_string())
    })
}

#[test]
fn words() {
    assert_eq!(question().problem(), None);
    for (change, refusal, words) in CAUSES {
        let problem = changed(&[change]).problem().unwrap();
        assert_eq!(problem.refusal(), refusal);
        let (number, words) = (refusal.number(), numbered(words));
        assert_eq!(
            problem.to_string(),
            format!("refused with {number}: {words}")
        );
    }
    assert_eq!(question().problem_of_harvest(), None);
    for (change, refusal, words) in HARVEST_CAUSES {
        let problem = changed(&[change]).problem_of_harvest().unwrap();
        assert_eq!(problem.refusal(), refusal);
        let (number, words) = (refusal.number(), numbered(words));
        assert_eq!(
            problem.to_string(),
            format!("refused with {number}: {words}")
        );
    }
    let error: Box<dyn std::error::Error> = Box::new(Problem::PoolEmpty);
    assert_eq!(error.to_string(), "refused with 1: the pool's length is 0");
}

/// Causes that go by the granule: the words, with its bytes by their name.
const OF_GRANULES: [(Change, &str); 6] = [
    (
        |q| q.regime.pool.start = 2048,
        "the pool's start, 2048, is no multiple of BYTES",
    ),
    (
        |q| q.regime.pool.length = 2048,
        "the pool's length, 2048, is no multiple of BYTES",
    ),
    (
        |q| q.regime.pool.address = PhysAddr(2048),
        "the pool's address, 0x800, is no multiple of BYTES",
    ),
    (
        |q| q.regime.range0.root = PhysAddr(2048),
        "the root of range 0, 0x800, is no multiple of BYTES",
    ),
    (
        |q| q.regime.range1.root = PhysAddr(2048),
        "the root of range 1, 0x800, is no multiple of BYTES",
    ),
    (
        |q| q.access = Access::read(VirtAddr(0xffff), 2),
        "the first byte, 0xffff, and the last, 0x10000, lie in different pages of BYTES bytes",
    ),
];

#[test]
fn words_by_the_granule() {
    for granule in Granule::ALL {
        let bytes = granule.bytes().to_string();
        for (change, words) in OF_GRANULES {
            let mut question = changed(&[change]);
            question.regime.granule = granule;
            let problem = question.problem().unwrap().to_string();
            let words = words.replace("BYTES", &bytes);
            assert!(problem.ends_with(&words), "{problem}, not {words}");
        }
    }
}

#[test]
fn a_stepwise_walk_has_no_pool() {
    // The causes of 1 and 2 are none there, and the others are the same.
    for (change, refusal, _) in CAUSES {
        let question = changed(&[change]);
        let expected = match refusal {
            Refusal::MemoryPool | Refusal::PoolAddress => None,
            _ => question.problem(),
        };
        assert_eq!(question.problem_of_start(), expected);
    }
}

#[test]
fn values_to_match_on() {
    let pool = Pool::new(0x1000, POOL_LIMIT, PhysAddr(TOP - 0x1000));
    let regime = regime().pool(pool);
    assert_eq!(
        regime.check(POOL_LIMIT),
        Err(Problem::PoolPastMemory {
            start: 0x1000,
            length: POOL_LIMIT,
            memory: POOL_LIMIT,
        })
    );
    assert_eq!(
        regime.check(MEMORY_LIMIT),
        Err(Problem::PoolAddressTooHigh {
            address: PhysAddr(TOP - 0x1000),
            length: POOL_LIMIT,
        })
    );
    assert_eq!(
        Access::read(VirtAddr(u64::MAX), 2).check(Granule::Kib16),
        Err(Problem::PageCrossing {
            first: VirtAddr(u64::MAX),
            last: VirtAddr(0),
            granule: Granule::Kib16,
        })
    );
    let pages = Pages::new(VirtPage(0x400), 9);
    assert_eq!(
        pages.check(&regime, 1),
        Err(Problem::MapTooShort { length: 1, pages })
    );
    assert_eq!(
        Pages::new(VirtPage((1 << 34) - 1), 2).check(&regime.granule(Granule::Kib16), 1),
        Err(Problem::PagesPastRange {
            range: 0,
            last: VirtPage(1 << 34),
            end: VirtPage((1 << 34) - 1),
        })
    );
}

#[test]
fn the_first_of_two() {
    let mut library = Library::new();
    for (place, (change, _, words)) in CAUSES.into_iter().enumerate() {
        let words = numbered(words);
        library.agrees(&changed(&[change]));
        for (later, ..) in &CAUSES[place + 1..] {
            let question = changed(&[*later, change]);
            let problem = question.problem().unwrap();
            assert!(
                problem.to_string().ends_with(&words),
                "{problem}, not {words}"
            );
            library.agrees(&question);
        }
    }
}

#[test]
fn the_first_of_two_of_a_harvest() {
    // The causes of the regime come first; those of an access are none.
    let mut library = Library::new();
    for (change, refusal, _) in CAUSES {
        let expected = match refusal {
            Refusal::AccessSize | Refusal::PageCrossing => None,
            _ => changed(&[change]).problem(),
        };
        assert_eq!(changed(&[change]).problem_of_harvest(), expected);
        for (later, ..) in HARVEST_CAUSES {
            let question = changed(&[later, change]);
            let later = changed(&[later]).problem_of_harvest();
            assert_eq!(question.problem_of_harvest(), expected.or(later));
            library.agrees(&question);
        }
    }
    for (place, (change, ..)) in HARVEST_CAUSES.into_iter().enumerate() {
        let expected = changed(&[change]).problem_of_harvest().unwrap();
        for (later, ..) in &HARVEST_CAUSES[place + 1..] {
            let question = changed(&[*later, change]);
            let problem = question.problem_of_harvest().unwrap();
            assert_eq!(discriminant(&problem), discriminant(&expected));
            library.agrees(&question);
        }
    }
}

/// Changes up to a limit, which make no problem, and one step past it.
const LIMITS: [(Change, bool); 43] = [
    (|q| q.memory = MEMORY_LIMIT, true),
    (|q| q.memory = MEMORY_LIMIT + 1, false),
    (|q| q.memory = POOL_LIMIT, true),
    (|q| q.memory = POOL_LIMIT - 1, false),
    (|q| q.memory = 0, false),
    (|q| q.regime.pool.length = 0x1000, true),
    (|q| q.regime.pool.length = 0xfff, false),
    (|q| q.regime.pool.length = 0, false),
    (|q| q.regime.pool.length = usize::MAX - 0xfff, false),
    (
        |q| (q.memory, q.regime.pool.length) = (0x1000, 0x1000),
        true,
    ),
    (
        |q| (q.memory, q.regime.pool.length) = (MEMORY_LIMIT, POOL_LIMIT),
        true,
    ),
    (
        |q| (q.memory, q.regime.pool.length) = (MEMORY_LIMIT, POOL_LIMIT + 1),
        false,
    ),
    (
        |q| (q.memory, q.regime.pool.length) = (MEMORY_LIMIT, POOL_LIMIT + 0x1000),
        false,
    ),
    (
        |q| (q.memory, q.regime.pool.start) = (MEMORY_LIMIT, MEMORY_LIMIT - POOL_LIMIT),
        true,
    ),
    (
        |q| (q.memory, q.regime.pool.start) = (MEMORY_LIMIT - 1, MEMORY_LIMIT - POOL_LIMIT),
        false,
    ),
    (
        |q| (q.memory, q.regime.pool.start) = (MEMORY_LIMIT, 1),
        false,
    ),
    (|q| q.regime.pool.start = usize::MAX - 0xfff, false),
    (|q| q.regime.pool.start = usize::MAX - POOL_LIMIT + 1, false),
    (|q| q.regime.pool.address = PhysAddr(0), true),
    (|q| q.regime.pool.address = PhysAddr(1), false),
    (
        |q| q.regime.pool.address = PhysAddr(TOP - POOL_LIMIT as u64),
        true,
    ),
    (
        |q| q.regime.pool.address = PhysAddr(TOP - POOL_LIMIT as u64 + 0x1000),
        false,
    ),
    (
        |q| q.regime.pool.address = PhysAddr(0_u64.wrapping_sub(POOL_LIMIT as u64)),
        false,
    ),
    (
        |q| q.regime.pool.address = PhysAddr(u64::MAX - 0xfff),
        false,
    ),
    (|q| q.regime.range0.tsz = 16, true),
    (|q| q.regime.range0.tsz = 39, true),
    (|q| q.regime.range0.tsz = 255, false),
    (|q| q.regime.range1.tsz = 16, true),
    (|q| q.regime.range1.tsz = 39, true),
    (|q| q.regime.range1.tsz = 0, false),
    (|q| q.regime.range0.root = PhysAddr(TOP - 0x1000), true),
    (|q| q.regime.range0.root = PhysAddr(TOP - 1), false),
    (|q| q.regime.range1.root = PhysAddr(TOP - 0x1000), true),
    (|q| q.regime.range1.root = PhysAddr(u64::MAX - 0xfff), false),
    (|q| q.regime.hd = false, true),
    (|q| q.regime.ha = false, false),
    (|q| (q.regime.ha, q.regime.hd) = (false, false), true),
    (|q| q.access = Access::read(VirtAddr(u64::MAX), 1), true),
    (|q| q.access = Access::read(VirtAddr(u64::MAX), 2), false),
    (
        |q| q.access = Access::read(VirtAddr(u64::MAX - 15), 16),
        true,
    ),
    (|q| q.access = Access::read(VirtAddr(0x40_3ffc), 4), true),
    (|q| q.access = Access::read(VirtAddr(0x40_3000), 0), false),
    (|q| q.access.size = u64::MAX, false),
];

#[test]
fn at_every_limit() {
    let mut library = Library::new();
    for (place, (change, well)) in LIMITS.into_iter().enumerate() {
        let question = changed(&[change]);
        let problem = question.problem();
        assert_eq!(problem.is_none(), well, "{place}: {problem:?}");
        library.agrees(&question);
    }
    for byte in 0..=255 {
        for place in 0..8 {
            let mut question = question();
            question.regime.attributes[place] = byte;
            library.agrees(&question);
        }
        let mut question = question();
        question.regime.range0.tsz = byte;
        library.agrees(&question);
        question.regime.range1.tsz = byte;
        library.agrees(&question);
    }
    for kind in AccessKind::ALL {
        for size in 0..=33 {
            for address in 0xfe0..0x1004 {
                let mut question = question();
                question.access = Access::new(kind, VirtAddr(address), size);
                library.agrees(&question);
            }
        }
    }
}

#[test]
fn at_every_limit_of_a_granule() {
    type Set = fn(&mut Question, u64);
    let sets: [Set; 6] = [
        |q, n| (q.memory, q.regime.pool.start) = (MEMORY_LIMIT, n as usize),
        |q, n| q.regime.pool.length = n as usize,
        |q, n| q.regime.pool.address = PhysAddr(n),
        |q, n| q.regime.range0.root = PhysAddr(n),
        |q, n| q.regime.range1.root = PhysAddr(TOP - n),
        |q, n| q.access = Access::read(VirtAddr(n - 4), 8),
    ];
    let mut library = Library::new();
    for granule in Granule::ALL {
        for (place, set) in sets.into_iter().enumerate() {
            for bit in 11..=17 {
                let mut question = question();
                question.regime.granule = granule;
                set(&mut question, 1 << bit);
                library.agrees(&question);
                // A multiple of the granule is well, but as a boundary.
                let multiple = bit >= granule.page_bits();
                let well = multiple != (place + 1 == sets.len());
                assert_eq!(question.problem().is_none(), well, "{question:?}");
            }
        }
    }
}

/// The first page of a range, and the first past it.
fn bounds(granule: Granule, range: u8, tsz: u8) -> (u64, u64) {
    let all = 1 << (64 - granule.page_bits());
    match range {
        0 => (0, all >> tsz),
        _ => (all - (all >> tsz), all),
    }
}

/// A harvest, and whether there is no problem with it.
fn asked(library: &mut Library, regime: Regime, pages: (u64, u64), map: usize, well: bool) {
    let question = Question {
        regime,
        pages: Pages::new(VirtPage(pages.0), pages.1),
        map,
        ..question()
    };
    let problem = question.problem_of_harvest();
    assert_eq!(problem.is_none(), well, "{question:?}");
    library.agrees(&question);
}

/// At each end of a range, and past it.
fn at_ends(library: &mut Library, regime: Regime, begin: u64, end: u64) {
    let most = HARVEST_LIMIT.min(end - begin);
    for (first, count, well) in [
        (begin, 1, true),
        (begin, most, true),
        (begin, most + 1, false),
        (begin, 0, false),
        (begin, u64::MAX, false),
        (begin.wrapping_sub(1), 1, false),
        (end - most, most, true),
        (end - most + 1, most, false),
        (end - 1, 1, true),
        (end - 1, 2, false),
        (end - 1, u64::MAX, false),
        (end, 1, false),
        (u64::MAX, 1, false),
    ] {
        asked(library, regime, (first, count), MAP, well);
    }
}

#[test]
fn at_every_end_of_a_range() {
    let mut library = Library::new();
    for granule in Granule::ALL {
        for tsz in [16, 27, 39] {
            let mut regime = question().regime.granule(granule);
            (regime.range0.tsz, regime.range1.tsz) = (tsz, 33);
            let (begin, end) = bounds(granule, 0, tsz);
            at_ends(&mut library, regime, begin, end);
            (regime.range0.tsz, regime.range1.tsz) = (33, tsz);
            let (begin, end) = bounds(granule, 1, tsz);
            at_ends(&mut library, regime, begin, end);
        }
    }
}

#[test]
fn at_every_limit_of_a_map() {
    let mut library = Library::new();
    for (count, map) in [(8, 1), (16, 2), (65_528, 8191), (65_536, 8192)] {
        for (count, map, well) in [
            (count, map, true),
            (count - 7, map, true),
            (count - 7, map - 1, false),
            (count, 0, false),
            (count + 1, map, false),
        ] {
            asked(&mut library, question().regime, (0, count), map, well);
        }
    }
}

/// A number that is often at a limit.
fn edge(random: &mut Random) -> u64 {
    let granule = random.pick(&Granule::ALL).bytes();
    let limits = [
        0,
        granule,
        POOL_LIMIT as u64,
        MEMORY_LIMIT as u64,
        POOL,
        TOP,
        1 << 63,
    ];
    let limit = random.pick(&limits);
    match random.below(8) {
        0 => random.next(),
        1 => random.next() & !(granule - 1),
        2 => random.below(MEMORY_LIMIT as u64) & !(granule - 1),
        3 => limit.wrapping_sub(random.below(20)),
        4 => limit.wrapping_add(random.below(20)),
        5 => limit.wrapping_sub(POOL_LIMIT as u64),
        6 => limit.wrapping_sub(granule),
        _ => limit,
    }
}

/// Changes the pages or the map of a harvest.
fn change_harvest(question: &mut Question, random: &mut Random, number: u64) {
    let regime = &question.regime;
    let limit = HARVEST_LIMIT;
    match random.below(4) {
        0 => {
            let range = random.below(2) as u8;
            let tsz = [regime.range0.tsz, regime.range1.tsz][usize::from(range)];
            let (begin, end) = bounds(regime.granule, range, tsz.min(63));
            let near = random.pick(&[begin, end, end, 1 << 55, number]);
            let first = near.wrapping_add(5).wrapping_sub(random.below(10));
            question.pages.first = VirtPage(first);
        }
        1 => question.map = random.below(5) as usize,
        _ => question.pages.count = random.pick(&[0, 1, 8, 9, 16, limit, limit + 1, number]),
    }
}

/// Changes one thing to a number at random.
fn change(question: &mut Question, random: &mut Random) {
    let number = edge(random);
    let regime = &mut question.regime;
    let tsz = random.pick(&[0, 15, 16, 25, 39, 40, number as u8]);
    match random.below(20) {
        0 => question.memory = number as usize % (MEMORY_LIMIT + 4096),
        1 => regime.pool.start = number as usize,
        2 => regime.pool.length = number as usize,
        3 => regime.pool.address = PhysAddr(number),
        4 => regime.range0.tsz = tsz,
        5 => regime.range1.tsz = tsz,
        6 => regime.range0.root = PhysAddr(number),
        7 => regime.range1.root = PhysAddr(number),
        8 => regime.attributes[random.below(8) as usize] = random.next() as u8,
        9 => question.access.address = VirtAddr(number),
        10 => question.access.size = random.pick(&[1, 2, 4, 8, 16, number]),
        11 => question.access.kind = random.pick(&AccessKind::ALL),
        // A pool that mostly fits, in a memory that may be shorter.
        12 => {
            let bits = regime.granule.page_bits();
            let pages = (POOL_LIMIT >> bits) + 3 - random.below(20) as usize;
            question.memory = MEMORY_LIMIT - random.below(3) as usize;
            regime.pool.length = pages << bits;
            regime.pool.start = MEMORY_LIMIT - (pages << bits);
        }
        13 => {
            regime.ha = random.below(2) == 0;
            regime.hd = random.below(2) == 0;
        }
        14 => regime.granule = random.pick(&Granule::ALL),
        15..=18 => change_harvest(question, random, number),
        _ => {
            regime.range0.disabled = random.below(2) == 0;
            regime.range1.disabled = random.below(2) == 0;
            regime.range0.hpd = random.below(2) == 0;
            regime.range1.hpd = random.below(2) == 0;
            regime.ee = random.below(2) == 0;
        }
    }
}

/// Whether a problem is one that the question has.
fn has(question: &Question, problem: Problem) -> bool {
    let Question {
        memory,
        regime,
        access,
        pages,
        map,
    } = question;
    let pool = regime.pool;
    let ranges = [regime.range0, regime.range1];
    let within = regime.granule.bytes() - 1;
    let fetch = access.kind == AccessKind::Fetch;
    let probe = matches!(access.kind, AccessKind::ProbeRead | AccessKind::ProbeWrite);
    match problem {
        Problem::MemoryTooLong { length } => length == *memory && length > MEMORY_LIMIT,
        Problem::PoolStartUnaligned { start, granule } => {
            (start, granule) == (pool.start, regime.granule) && start as u64 & within != 0
        }
        Problem::PoolLengthUnaligned { length, granule } => {
            (length, granule) == (pool.length, regime.granule) && length as u64 & within != 0
        }
        Problem::PoolEmpty => pool.length == 0,
        Problem::PoolTooLong { length } => length == pool.length && length > POOL_LIMIT,
        Problem::PoolPastMemory {
            start,
            length,
            memory: of,
        } => {
            (start, length, of) == (pool.start, pool.length, *memory)
                && (start > of || length > of - start)
        }
        Problem::PoolAddressUnaligned { address, granule } => {
            (address, granule) == (pool.address, regime.granule) && address.0 & within != 0
        }
        Problem::PoolAddressTooHigh { address, length } => {
            (address, length) == (pool.address, pool.length)
                && (address.0 > TOP || length as u64 > TOP - address.0)
        }
        Problem::TszOutOfBounds { range, tsz } => {
            tsz == ranges[usize::from(range)].tsz && !(16..=39).contains(&tsz)
        }
        Problem::RootUnaligned {
            range,
            root,
            granule,
        } => {
            (root, granule) == (ranges[usize::from(range)].root, regime.granule)
                && root.0 & within != 0
        }
        Problem::RootTooHigh { range, root } => {
            root == ranges[usize::from(range)].root && root.0 >> 48 != 0
        }
        Problem::AttributeByte { index, byte } => {
            byte == regime.attributes[index] && (byte & 0xf == 0 || byte < 0x10) && byte & !0xc != 0
        }
        Problem::HdWithoutHa => regime.hd && !regime.ha,
        Problem::Size { size } => size == access.size && (size.count_ones() != 1 || size > 16),
        Problem::FetchSize { size } => fetch && size == access.size && size != 4,
        Problem::FetchUnaligned { address } => {
            fetch && address == access.address && address.0 & 3 != 0
        }
        Problem::ProbeSize { size } => probe && size == access.size && size != 1,
        Problem::PageCrossing {
            first,
            last,
            granule,
        } => {
            (first, granule) == (access.address, regime.granule)
                && last.0.wrapping_sub(first.0) == access.size - 1
                && first.0 & !within != last.0 & !within
        }
        _ => has_of_harvest(regime, *pages, *map, problem),
    }
}

/// Whether a harvest has a problem, by the addresses of its pages.
fn has_of_harvest(regime: &Regime, pages: Pages, map: usize, problem: Problem) -> bool {
    let address = |page: u64| u128::from(page) << regime.granule.page_bits();
    let size = |tsz: u8| 1_u128 << 64_u8.saturating_sub(tsz);
    let ends = [size(regime.range0.tsz), 1 << 64];
    let begins = [0, ends[1] - size(regime.range1.tsz)];
    let within = |range: usize, page| (begins[range]..ends[range]).contains(&address(page));
    let first = pages.first.0;
    match problem {
        Problem::FirstPageOutside { first: page } => {
            page.0 == first && !within(0, first) && !within(1, first)
        }
        Problem::NoPages => pages.count == 0,
        Problem::TooManyPages { count } => count == pages.count && count > HARVEST_LIMIT,
        Problem::PagesPastRange { range, last, end } => {
            let range = usize::from(range);
            within(range, first)
                && !within(range, last.0)
                && last.0 - first == pages.count - 1
                && address(end.0 + 1) == ends[range]
        }
        Problem::MapTooShort { length, pages: of } => {
            length == map && of == pages && (length as u128) * 8 < pages.count.into()
        }
        _ => false,
    }
}

#[test]
fn over_random_questions() {
    let mut random = Random(0x9e37_79b9_7f4a_7c15);
    let mut library = Library::new();
    let mut met = HashSet::new();
    let mut accepted = 0;
    for _ in 0..60_000 {
        let mut question = question();
        for _ in 0..=random.below(4) {
            change(&mut question, &mut random);
        }
        library.agrees(&question);
        let found = [
            question.regime.check(question.memory).err(),
            question.access.check(question.regime.granule).err(),
            question.pages.check(&question.regime, question.map).err(),
        ];
        for problem in found.into_iter().flatten() {
            assert!(has(&question, problem), "{problem:?} of {question:?}");
            met.insert(discriminant(&problem));
        }
        accepted += usize::from(found == [None; 3]);
    }
    assert!(library.memory.iter().all(|&byte| byte == 0));

    // The questions are worth something: each problem was met.
    let causes = CAUSES.map(|(change, ..)| changed(&[change]).problem().unwrap());
    let of_harvest = HARVEST_CAUSES.map(|(change, ..)| changed(&[change]).problem_of_harvest());
    let causes = causes.iter().chain(of_harvest.iter().flatten());
    let causes: HashSet<_> = causes.map(discriminant).collect();
    assert_eq!(met, causes);
    assert!(accepted > 5_000, "{accepted} accepted");
}

//! Short scripts on the session, worked by hand from the numbers of the worked
//! cases (RULES 12). Page 0x403 has place 3, its leaf is at 0x40003018.

use super::{access, read_descriptor, start, write_descriptor, LEAF, LEAF_OFFSET};
use crate::geometry::Granule;
use crate::reference::{Access, Answer, Kind, Regime, Success, AP1, AP2, POOL_LIMIT};
use crate::refusals::SET_REGIME;
use crate::session::{page_of, place_of, Held, Session};

/// The leaf with AF 1, as a read leaves it.
const READ: u64 = 0x0008_0000_8000_57C3;
/// The leaf with AF 1 and AP[2] 0, as a write leaves it.
const WRITTEN: u64 = 0x0008_0000_8000_5743;

struct Script {
    session: Session,
    memory: Vec<u8>,
    regime: Regime,
}

impl Script {
    /// A session with the regime of the worked cases set.
    fn new() -> Self {
        Script::with(|_| {})
    }

    /// The same with something changed in the regime.
    fn with(change: impl Fn(&mut Regime)) -> Self {
        let (memory, mut regime) = start();
        change(&mut regime);
        let mut session = Session::FRESH;
        assert_eq!(session.set_regime(memory.len(), &regime), None);
        Script {
            session,
            memory,
            regime,
        }
    }

    fn ask(&mut self, access: &Access) -> Answer {
        self.session.access(&mut self.memory, access).0
    }

    /// An access by EL0 of 4 bytes at 0x403ABC.
    fn go(&mut self, kind: Kind) -> Answer {
        self.ask(&access(kind))
    }

    fn store(&mut self, address: u64, value: u64) -> Option<u8> {
        self.session.store(&mut self.memory, address, value)
    }

    fn leaf(&self) -> u64 {
        read_descriptor(&self.memory, LEAF_OFFSET)
    }

    fn held(&self) -> Option<Held> {
        self.session.places[3]
    }
}

/// Output address, count, marks.
fn success(answer: Answer) -> (u64, u8, bool, bool) {
    match answer {
        Answer::Success(s) => (s.output, s.reads, s.accessed, s.dirtied),
        other => panic!("{other:?} is no success"),
    }
}

/// Code, level, count.
fn fault(answer: Answer) -> (u16, u8, u8) {
    match answer {
        Answer::Fault(fault) => (fault.stop.code(), fault.stop.level, fault.reads),
        other => panic!("{other:?} is no fault"),
    }
}

#[test]
fn pages_and_places() {
    assert_eq!(page_of(Granule::Kib4, 0x40_3ABC), 0x403);
    assert_eq!(page_of(Granule::Kib4, u64::MAX), (1 << 52) - 1);
    assert_eq!(place_of(0x403), 3);
    assert_eq!(place_of(0x443), 3);
    assert_eq!(place_of((1 << 52) - 1), 63);
}

#[test]
fn a_held_page_reads_nothing() {
    let mut script = Script::new();
    let first = script.go(Kind::Read);
    assert_eq!(success(first), (0x8000_5ABC, 4, true, false));
    assert_eq!(script.leaf(), READ);
    // Another address in the page, and nothing left of the tables.
    script.memory.fill(0);
    let again = script.ask(&Access {
        address: 0x40_3008,
        size: 8,
        ..access(Kind::Read)
    });
    let wanted = Success {
        output: 0x8000_5008,
        attribute: 0xFF,
        shareability: 3,
        nonglobal: false,
        level: 3,
        accessed: false,
        dirtied: false,
        rememberable: true,
        reads: 0,
    };
    assert_eq!(again, Answer::Success(wanted));
    assert!(script.memory.iter().all(|&byte| byte == 0));
}

#[test]
fn a_write_on_a_clean_leaf_walks_again() {
    let mut script = Script::new();
    script.go(Kind::Read);
    let write = script.go(Kind::Write);
    assert_eq!(success(write), (0x8000_5ABC, 4, false, true));
    assert_eq!(script.leaf(), WRITTEN);
    // Now the held leaf is dirty.
    let before = script.memory.clone();
    let update = script.go(Kind::Update);
    assert_eq!(success(update), (0x8000_5ABC, 0, false, false));
    assert_eq!(script.memory, before);
}

#[test]
fn a_probe_of_a_clean_leaf_is_a_hit() {
    let mut script = Script::new();
    script.go(Kind::Read);
    let probe = script.ask(&Access {
        size: 1,
        ..access(Kind::ProbeWrite)
    });
    assert_eq!(success(probe), (0x8000_5ABC, 0, false, false));
    assert_eq!(script.leaf(), READ);
}

#[test]
fn a_failed_second_walk_leaves_the_place() {
    let mut script = Script::new();
    script.go(Kind::Read);
    assert_eq!(script.store(0x4000_2010, 0), None);
    assert_eq!(fault(script.go(Kind::Write)), (6, 2, 3));
    let read = script.go(Kind::Read);
    assert_eq!(success(read), (0x8000_5ABC, 0, false, false));
    script.session.drop_all();
    assert_eq!(fault(script.go(Kind::Read)), (6, 2, 3));
    assert_eq!(script.held(), None);
}

#[test]
fn a_second_walk_that_may_be_remembered_renews_the_place() {
    let mut script = Script::new();
    script.go(Kind::Read);
    // Read-only now: AP[2] 1, DBM 0, AF 1.
    assert_eq!(script.store(0x4000_3018, 0x8000_97C3), None);
    assert_eq!(fault(script.go(Kind::Write)), (15, 3, 4));
    let read = script.go(Kind::Read);
    assert_eq!(success(read), (0x8000_9ABC, 0, false, false));
    assert_eq!(fault(script.go(Kind::Write)), (15, 3, 0));
}

#[test]
fn pages_64_apart_share_a_place() {
    let mut script = Script::new();
    let other = Access {
        address: 0x44_3ABC,
        ..access(Kind::Read)
    };
    write_descriptor(&mut script.memory, 0x3218, 0x0008_0000_8000_97C3);
    assert_eq!(success(script.go(Kind::Read)).1, 4);
    assert_eq!(success(script.ask(&other)), (0x8000_9ABC, 4, false, false));
    assert_eq!(success(script.ask(&other)), (0x8000_9ABC, 0, false, false));
    assert_eq!(success(script.go(Kind::Read)).1, 4);
    // Page 0x404 has a place of its own.
    let next = Access {
        address: 0x40_4ABC,
        ..access(Kind::Read)
    };
    write_descriptor(&mut script.memory, 0x3020, LEAF);
    assert_eq!(success(script.ask(&next)).1, 4);
    assert_eq!(success(script.go(Kind::Read)).1, 0);
    // The same page number but for its top bit is another page.
    let upper = Access {
        address: 0x40_3ABC | 1 << 63,
        ..access(Kind::Read)
    };
    assert_eq!(fault(script.ask(&upper)), (4, 0, 0));
    assert_eq!(success(script.go(Kind::Read)).1, 0);
}

#[test]
fn a_leaf_without_access_flag_is_not_remembered() {
    // P5: HA and HD off.
    let mut script = Script::with(|regime| (regime.ha, regime.hd) = (false, false));
    assert_eq!(fault(script.go(Kind::Write)), (11, 3, 4));
    assert_eq!(script.held(), None);
    // P3: a probe leaves AF 0. P4: so does a Permission fault.
    let mut script = Script::with(|regime| regime.hd = false);
    let probe = Access {
        size: 1,
        ..access(Kind::ProbeRead)
    };
    assert_eq!(success(script.ask(&probe)).1, 4);
    assert_eq!(success(script.ask(&probe)).1, 4);
    assert_eq!(fault(script.go(Kind::Write)), (15, 3, 4));
    assert_eq!(script.held(), None);
}

#[test]
fn faults_on_a_leaf_are_remembered() {
    let mut script = Script::with(|regime| {
        regime.hd = false;
        regime.attributes[0] = 0x00;
    });
    write_descriptor(&mut script.memory, LEAF_OFFSET, READ);
    assert_eq!(fault(script.go(Kind::Write)), (15, 3, 4));
    assert_eq!(script.store(0x4000_3018, 0), None);
    assert_eq!(fault(script.go(Kind::Write)), (15, 3, 0));
    assert_eq!(success(script.go(Kind::Read)).1, 0);
    // Device: an Alignment fault comes first, a fetch is not permitted.
    let misaligned = Access {
        address: 0x40_3ABD,
        size: 2,
        ..access(Kind::Write)
    };
    assert_eq!(fault(script.ask(&misaligned)), (33, 3, 0));
    assert_eq!(fault(script.go(Kind::Fetch)), (15, 3, 0));
}

#[test]
fn a_write_that_faults_on_a_clean_leaf_is_a_hit() {
    let mut script = Script::with(|regime| regime.attributes[0] = 0x00);
    let leaf = LEAF & !(1 << AP1);
    write_descriptor(&mut script.memory, LEAF_OFFSET, leaf);
    let read = Access {
        el0: false,
        ..access(Kind::Read)
    };
    assert_eq!(success(script.ask(&read)).1, 4);
    assert_eq!(fault(script.go(Kind::Write)), (15, 3, 0));
    let misaligned = Access {
        address: 0x40_3ABD,
        size: 2,
        el0: false,
        kind: Kind::Update,
    };
    assert_eq!(fault(script.ask(&misaligned)), (33, 3, 0));
    let write = Access {
        el0: false,
        ..access(Kind::Write)
    };
    assert_eq!(success(script.ask(&write)), (0x8000_5ABC, 4, false, true));
}

#[test]
fn two_pages_with_one_leaf() {
    let mut script = Script::new();
    // A block of 2 MiB at level 2, clean and accessed.
    write_descriptor(&mut script.memory, 0x2010, 0x0008_0000_8000_07C1);
    let beside = Access {
        address: 0x40_4ABC,
        ..access(Kind::Write)
    };
    let read = Access {
        kind: Kind::Read,
        ..beside
    };
    assert_eq!(success(script.go(Kind::Read)).1, 3);
    assert_eq!(success(script.ask(&read)).1, 3);
    assert_eq!(
        success(script.go(Kind::Write)),
        (0x8000_3ABC, 3, false, true)
    );
    // The other page's leaf is still held clean; in memory it is dirty.
    assert_eq!(success(script.ask(&beside)), (0x8000_4ABC, 3, false, false));
    assert_eq!(success(script.ask(&beside)), (0x8000_4ABC, 0, false, false));
}

#[test]
fn a_store_changes_its_bytes_alone() {
    let mut script = Script::new();
    script.go(Kind::Read);
    let mut wanted = script.memory.clone();
    wanted[LEAF_OFFSET..LEAF_OFFSET + 8].copy_from_slice(&[8, 7, 6, 5, 4, 3, 2, 1]);
    assert_eq!(script.store(0x4000_3018, 0x0102_0304_0506_0708), None);
    assert_eq!(script.memory, wanted);
    assert_eq!(success(script.go(Kind::Read)).1, 0);
    // The pool's last descriptor, and the first behind it.
    assert_eq!(script.store(0x4000_FFF8, 1), None);
    wanted[0xFFF8] = 1;
    for address in [
        0x4001_0000,
        0x3FFF_FFF8,
        0x4000_3019,
        0x4000_301C,
        0x4000_FFFC,
        0x4000_3018 | 1 << 48,
        0,
        u64::MAX - 7,
        u64::MAX,
    ] {
        assert_eq!(script.store(address, 2), Some(8), "{address:#x}");
    }
    assert_eq!(script.memory, wanted);
}

#[test]
fn refusals_in_their_order() {
    let (mut memory, regime) = start();
    let mut session = Session::FRESH;
    let bad = Access {
        size: 3,
        ..access(Kind::Read)
    };
    let crossing = Access {
        address: 0x40_3FFD,
        ..access(Kind::Read)
    };
    // 9 comes before all else.
    let refused = |answer: (Answer, _)| answer.0;
    let none = refused(session.access(&mut [], &bad));
    assert_eq!(none, Answer::Refused(9));
    assert_eq!(session.store(&mut [], 1, 0), Some(9));
    session.drop_all();
    assert_eq!(session.set_regime(65_535, &regime), Some(1));
    let mut hd_alone = regime;
    hd_alone.ha = false;
    assert_eq!(session.set_regime(65_535, &hd_alone), Some(1));
    hd_alone.attributes[0] = 0x0F;
    assert_eq!(session.set_regime(65_536, &hd_alone), Some(5));
    hd_alone.attributes = regime.attributes;
    assert_eq!(session.set_regime(65_536, &hd_alone), Some(13));
    assert_eq!(session, Session::FRESH);

    assert_eq!(session.set_regime(65_536, &regime), None);
    let short = &mut memory[..65_535];
    assert_eq!(
        refused(session.access(&mut *short, &bad)),
        Answer::Refused(1)
    );
    assert_eq!(session.store(short, 1, 0), Some(1));
    for (asked, number) in [(&bad, 6), (&crossing, 7)] {
        let answer = refused(session.access(&mut memory, asked));
        assert_eq!(answer, Answer::Refused(number));
    }
    assert_eq!(memory, start().0);
}

#[test]
fn a_regime_refused_with_13_is_not_set() {
    // P5, HA alone off.
    let (mut memory, mut regime) = start();
    regime.ha = false;
    let mut session = Session::FRESH;
    assert_eq!(session.set_regime(memory.len(), &regime), Some(13));
    assert_eq!(session, Session::FRESH);
    let (answer, _) = session.access(&mut memory, &access(Kind::Write));
    assert_eq!(answer, Answer::Refused(9));
    assert_eq!(session.store(&mut memory, 0x4000_3018, 0), Some(9));
    assert_eq!(memory, start().0);

    // Where a regime stands, it goes on with its marks.
    let mut script = Script::new();
    script.go(Kind::Read);
    assert_eq!(script.session.set_regime(65_536, &regime), Some(13));
    assert_eq!(success(script.go(Kind::Read)).1, 0);
    let write = script.go(Kind::Write);
    assert_eq!(success(write), (0x8000_5ABC, 4, false, true));
}

#[test]
fn a_regime_that_13_would_refuse_is_used_as_it_is() {
    // No call leaves such a session (RULES 10.5).
    let mut script = Script::new();
    script.regime.ha = false;
    script.session.regime = Some(script.regime);
    assert_eq!(fault(script.go(Kind::Write)), (11, 3, 4));
    assert_eq!(script.store(0x4000_3018, READ), None);
    // The leaf is not writable-clean, and held so.
    assert_eq!(success(script.go(Kind::Read)).1, 4);
    assert_eq!(fault(script.go(Kind::Write)), (15, 3, 0));
    assert_eq!(script.leaf(), READ);
}

#[test]
fn a_regime_that_3_or_4_would_refuse_finds_no_table() {
    // No call leaves such a session either.
    type Change = fn(&mut Regime);
    let changes: [Change; 4] = [
        |regime| regime.output_code = 6,
        |regime| regime.ranges[1].t = 0,
        |regime| regime.ranges[0].t = 200,
        |regime| regime.ranges[1].root = 1 << 48,
    ];
    for change in changes {
        let mut script = Script::new();
        script.go(Kind::Read);
        change(&mut script.regime);
        script.session.regime = Some(script.regime);
        let before = script.memory.clone();
        // What is held answers; a write with a mark to make walks.
        assert_eq!(success(script.go(Kind::Read)).1, 0);
        assert_eq!(fault(script.go(Kind::Write)), (4, 0, 0));
        assert_eq!(success(script.go(Kind::Read)).1, 0);
        script.session.drop_all();
        assert_eq!(fault(script.go(Kind::Read)), (4, 0, 0));
        assert_eq!(script.memory, before);
    }
}

#[test]
fn what_empties_the_places() {
    let mut script = Script::new();
    script.go(Kind::Read);
    let held = script.session.clone();
    let wanted = Held {
        page: 0x403,
        leaf: crate::reference::Leaf {
            descriptor: READ,
            level: 3,
            taken: 0,
        },
    };
    assert_eq!(script.held(), Some(wanted));

    // Nothing that is refused, by whichever row.
    type Change = fn(&mut Regime);
    let changes: [(u8, Change); 6] = [
        (1, |regime| regime.pool.length = POOL_LIMIT + 4096),
        (2, |regime| regime.pool.address = 1 << 48),
        (3, |regime| regime.output_code = 6),
        (4, |regime| regime.ranges[1].root = 8),
        (5, |regime| regime.attributes[7] = 0x0F),
        (13, |regime| regime.ha = false),
    ];
    assert_eq!(changes.map(|(row, _)| row), SET_REGIME);
    for (row, change) in changes {
        let mut bad = script.regime;
        change(&mut bad);
        assert_eq!(script.session.set_regime(65_536, &bad), Some(row));
        assert_eq!(script.session, held);
    }

    // The same regime once more, and a drop; both leave the regime.
    let emptied = Session {
        regime: Some(script.regime),
        ..Session::FRESH
    };
    assert_eq!(script.session.set_regime(65_536, &script.regime), None);
    assert_eq!(script.session, emptied);
    assert_eq!(success(script.go(Kind::Read)).1, 4);
    script.session.drop_all();
    assert_eq!(script.session, emptied);
}

#[test]
fn a_table_that_is_its_own_leaf() {
    // The root's first entry points to the root: every level reads it.
    let (mut memory, regime) = start();
    let own = 0x0008_0000_4000_0083;
    assert_ne!(own & 1 << AP2, 0);
    write_descriptor(&mut memory, 0, own);
    let mut session = Session::FRESH;
    session.set_regime(memory.len(), &regime);
    let write = Access {
        address: 0,
        size: 8,
        el0: false,
        kind: Kind::Write,
    };
    let (answer, _) = session.access(&mut memory, &write);
    assert_eq!(success(answer), (0x4000_0000, 4, true, true));
    assert_eq!(read_descriptor(&memory, 0), 0x0008_0000_4000_0403);
    let (answer, _) = session.access(&mut memory, &write);
    assert_eq!(success(answer), (0x4000_0000, 0, false, false));
}

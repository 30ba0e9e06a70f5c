//! The worked cases, P1 to P12 (RULES 12), held against the reference, and a
//! check that the cases meet all they should.

mod granules;
mod harvest;
mod limits;
mod orders;
mod refusals;
mod rule3;
mod session;
mod spare;
mod stepwise;
mod tables;
mod vectors;

use crate::boundary::{plain_answer, CAnswer};
use crate::cases::{run_all, Case, Runner};
use crate::geometry::Granule;
use crate::reference::{self, walk, Access, Answer, Kind, Pool, Range, Regime, Success, Walk};
use crate::stepwise::{Second, Trial};
use crate::tally::Tally;
use crate::{bare, promises, reversed};

const POOL: u64 = 0x4000_0000;
const LEAF_OFFSET: usize = 0x3018;
const LEAF: u64 = 0x0008_0000_8000_53C3;

/// Of tables that stand lowest byte first, as those of the worked cases do.
fn read_descriptor(memory: &[u8], offset: usize) -> u64 {
    reference::read_descriptor(memory, offset, false)
}

fn write_descriptor(memory: &mut [u8], offset: usize, descriptor: u64) {
    reference::write_descriptor(memory, offset, descriptor, false);
}

/// The memory and regime that each case starts from.
fn start() -> (Vec<u8>, Regime) {
    let mut memory = vec![0; 65_536];
    write_descriptor(&mut memory, 0, 0x4000_1003);
    write_descriptor(&mut memory, 0x1000, 0x4000_2003);
    write_descriptor(&mut memory, 0x2010, 0x4000_3003);
    write_descriptor(&mut memory, LEAF_OFFSET, LEAF);
    let range = Range {
        root: POOL,
        t: 16,
        disabled: false,
        hpd: false,
    };
    let regime = Regime {
        pool: Pool {
            start: 0,
            length: 65_536,
            address: POOL,
        },
        ranges: [range; 2],
        output_code: 5,
        ha: true,
        hd: true,
        wxn: false,
        ee: false,
        granule: Granule::Kib4,
        attributes: [0xFF; 8],
    };
    (memory, regime)
}

fn access(kind: Kind) -> Access {
    Access {
        address: 0x40_3ABC,
        size: 4,
        el0: true,
        kind,
    }
}

/// Walks, and demands that no byte changed beside the leaf.
fn go(memory: &mut [u8], regime: &Regime, access: &Access) -> Walk {
    let before = memory.to_vec();
    let result = walk(memory, regime, access);
    let leaf = LEAF_OFFSET..LEAF_OFFSET + 8;
    assert_eq!(memory[..leaf.start], before[..leaf.start]);
    assert_eq!(memory[leaf.end..], before[leaf.end..]);
    result
}

fn success(walk: &Walk) -> Success {
    match walk.answer {
        Answer::Success(success) => success,
        other => panic!("{other:?} is no success"),
    }
}

/// Code, level, rememberable, reads.
fn fault(walk: &Walk) -> (u16, u8, bool, u8) {
    match walk.answer {
        Answer::Fault(fault) => (
            fault.stop.code(),
            fault.stop.level,
            fault.rememberable,
            fault.reads,
        ),
        other => panic!("{other:?} is no fault"),
    }
}

#[test]
fn p1_read() {
    let (mut memory, regime) = start();
    let walk = go(&mut memory, &regime, &access(Kind::Read));
    let wanted = Success {
        output: 0x8000_5ABC,
        attribute: 0xFF,
        shareability: 3,
        nonglobal: false,
        level: 3,
        accessed: true,
        dirtied: false,
        rememberable: true,
        reads: 4,
    };
    assert_eq!(success(&walk), wanted);
    assert_eq!(read_descriptor(&memory, LEAF_OFFSET), 0x0008_0000_8000_57C3);
    let path = [POOL, POOL + 0x1000, POOL + 0x2010, POOL + 0x3018];
    assert_eq!(walk.visited, path);
}

#[test]
fn p2_write() {
    let (mut memory, regime) = start();
    let walk = go(&mut memory, &regime, &access(Kind::Write));
    let success = success(&walk);
    assert_eq!(success.output, 0x8000_5ABC);
    assert!(success.accessed && success.dirtied && success.rememberable);
    assert_eq!(
        memory[LEAF_OFFSET..LEAF_OFFSET + 8],
        [0x43, 0x57, 0x00, 0x80, 0x00, 0x00, 0x08, 0x00]
    );
}

#[test]
fn p3_probe_write() {
    let (mut memory, regime) = start();
    let probe = Access {
        size: 1,
        ..access(Kind::ProbeWrite)
    };
    let walk = go(&mut memory, &regime, &probe);
    let success = success(&walk);
    assert_eq!(success.output, 0x8000_5ABC);
    assert!(!success.accessed && !success.dirtied && !success.rememberable);
    assert_eq!(read_descriptor(&memory, LEAF_OFFSET), LEAF);
    // With size 4 it is refused.
    let walk = go(&mut memory, &regime, &access(Kind::ProbeWrite));
    assert_eq!(walk.answer, Answer::Refused(6));
}

#[test]
fn p4_hd_off() {
    let (mut memory, mut regime) = start();
    regime.hd = false;
    let walk = go(&mut memory, &regime, &access(Kind::Write));
    assert_eq!(fault(&walk), (15, 3, false, 4));
    assert_eq!(read_descriptor(&memory, LEAF_OFFSET), LEAF);
}

#[test]
fn p5_ha_and_hd_off() {
    let (mut memory, mut regime) = start();
    (regime.ha, regime.hd) = (false, false);
    let walk = go(&mut memory, &regime, &access(Kind::Write));
    assert_eq!(fault(&walk), (11, 3, false, 4));
    assert_eq!(read_descriptor(&memory, LEAF_OFFSET), LEAF);
}

#[test]
fn p5_ha_alone_off() {
    let (mut memory, mut regime) = start();
    regime.ha = false;
    for kind in Kind::ALL {
        let size = if kind.is_probe() { 1 } else { 4 };
        let asked = Access {
            size,
            ..access(kind)
        };
        let walk = go(&mut memory, &regime, &asked);
        assert_eq!(walk.answer, Answer::Refused(13), "{kind:?}");
        assert_eq!(walk.visited, []);
    }
    assert_eq!(read_descriptor(&memory, LEAF_OFFSET), LEAF);
}

#[test]
fn p6_last_granule() {
    let (mut memory, regime) = start();
    write_descriptor(&mut memory, 0x2010, 0x4000_F003);
    let walk = go(&mut memory, &regime, &access(Kind::Read));
    assert_eq!(fault(&walk), (7, 3, false, 4));
    assert_eq!(walk.visited[3], 0x4000_F018);
}

#[test]
fn p7_past_the_pool() {
    let (mut memory, regime) = start();
    write_descriptor(&mut memory, 0x2010, 0x4001_0003);
    let walk = go(&mut memory, &regime, &access(Kind::Read));
    assert_eq!(fault(&walk), (23, 3, false, 4));
}

#[test]
fn p8_output_size() {
    let (mut memory, mut regime) = start();
    regime.output_code = 0;
    write_descriptor(&mut memory, LEAF_OFFSET, 0x0008_0001_0000_03C3);
    let walk = go(&mut memory, &regime, &access(Kind::Read));
    assert_eq!(fault(&walk), (3, 3, false, 4));
}

#[test]
fn p9_reserved() {
    let (mut memory, regime) = start();
    write_descriptor(&mut memory, LEAF_OFFSET, LEAF & !2);
    let walk = go(&mut memory, &regime, &access(Kind::Read));
    assert_eq!(fault(&walk), (7, 3, false, 4));
}

/// P10's read, which is not aligned to its size.
fn misaligned() -> Access {
    Access {
        address: 0x40_3ABD,
        size: 2,
        ..access(Kind::Read)
    }
}

#[test]
fn p10_alignment() {
    let (mut memory, mut regime) = start();
    regime.attributes[0] = 0x00;
    let walk = go(&mut memory, &regime, &misaligned());
    assert_eq!(fault(&walk), (33, 3, false, 4));
    assert_eq!(read_descriptor(&memory, LEAF_OFFSET), LEAF);
}

#[test]
fn p11_page_end() {
    let (mut memory, regime) = start();
    let fits = Access {
        address: 0x40_3FFC,
        ..access(Kind::Read)
    };
    let walk = go(&mut memory, &regime, &fits);
    assert_eq!(success(&walk).output, 0x8000_5FFC);
    let crosses = Access {
        address: 0x40_3FFD,
        ..access(Kind::Read)
    };
    let walk = go(&mut memory, &regime, &crosses);
    assert_eq!(walk.answer, Answer::Refused(7));
}

#[test]
fn p12_pool_length() {
    let (mut memory, mut regime) = start();
    memory.resize(1_052_672, 0);
    regime.pool.length = 1_048_576;
    let walk = go(&mut memory, &regime, &access(Kind::Read));
    assert_eq!(success(&walk).output, 0x8000_5ABC);
    regime.pool.length = 1_052_672;
    let walk = go(&mut memory, &regime, &access(Kind::Read));
    assert_eq!(walk.answer, Answer::Refused(1));
}

/// Takes the cases without a library: they must keep the promises, meet all
/// that can occur, and be as many as wanted.
struct Survey {
    tally: Tally,
    count: u64,
    /// How many were walked in the other byte order too.
    reversed: u64,
    /// Those that are walked a descriptor at a time too.
    stepwise: Trial<Second>,
    /// The memory before a case; then also for the walks without the tables'
    /// bits and in the other order.
    before: Vec<u8>,
}

impl Survey {
    fn walk_reversed(&mut self, case: &Case, left: &[u8], answer: &CAnswer) {
        if !reversed::is_due(self.count) {
            return;
        }
        let again = |lent: &mut [u8], other: &Regime| {
            plain_answer(&reference::walk(lent, other, case.access).answer)
        };
        let walked = reversed::check(case.regime, answer, left, &mut self.before, again)
            .unwrap_or_else(|broken| panic!("case {}: {broken}: {answer:?}", self.count));
        self.reversed += u64::from(walked);
    }
}

impl Runner for Survey {
    fn run(&mut self, memory: &mut Vec<u8>, case: &Case) {
        self.count += 1;
        self.before.clone_from(memory);
        let before = &self.before;
        let walk = walk(memory, case.regime, case.access);
        let answer = plain_answer(&walk.answer);
        // These cross leaf bits, so each of their walks must see them.
        assert!(!["rights", "tables"].contains(&case.family) || walk.leaf.is_some());
        promises::check(
            case.regime,
            case.access,
            &answer,
            before,
            memory,
            &walk,
            case.expect,
        )
        .unwrap_or_else(|broken| panic!("case {}: {broken}: {answer:?}", self.count));
        self.tally.note(case, before, &walk, &answer);
        if crate::stepwise::is_due(self.count) {
            let held = self.stepwise.case(case, &mut self.before, memory, &walk);
            held.unwrap_or_else(|why| panic!("case {}: {why}", self.count));
        }

        let (regime, access) = (case.regime, case.access);
        let again = |lent: &mut [u8]| plain_answer(&reference::walk(lent, regime, access).answer);
        bare::check(regime, access, &walk, &answer, &mut self.before, again)
            .unwrap_or_else(|broken| panic!("case {}: {broken}: {answer:?}", self.count));
        self.walk_reversed(case, memory, &answer);
    }
}

#[test]
fn cases_meet_all_that_can_occur() {
    let mut survey = Survey {
        tally: Tally::default(),
        count: 0,
        reversed: 0,
        stepwise: Trial::new(Second, 1),
        before: Vec::new(),
    };
    run_all(1, &mut survey);
    survey.stepwise.run_all(false).unwrap();
    assert_eq!(survey.stepwise.tally.missing(), []);
    assert_eq!(survey.stepwise.tally.strangers(), []);
    let walks = survey.stepwise.tally.walks();
    assert!(walks >= 60_000, "{walks} walks a descriptor at a time");
    assert_eq!(survey.tally.missing(), []);
    assert_eq!(survey.tally.strangers(), []);
    assert!(survey.count >= 200_000, "{} cases", survey.count);
    let reversed = survey.reversed;
    assert!(
        reversed >= survey.count / 6,
        "{reversed} the other way round"
    );
}

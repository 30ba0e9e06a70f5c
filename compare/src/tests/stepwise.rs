//! The walk a descriptor at a time (RULES 16): the worked cases, the second
//! program's own reading of each rule, and slips that must be told.

use super::{access, misaligned, start, LEAF, LEAF_OFFSET, POOL};
use crate::boundary::{
    plain_answer, CAccess, CAnswer, CRegime, CStepwise, Spelling, Stepper, FAULT, REFUSED, SUCCESS,
};
use crate::geometry::Granule;
use crate::reference::{pool_reader, walk, Access, Kind, Regime, AP_TABLE_1};
use crate::stepwise::{Second, Trial, WALK_ENDED};

/// The walk of the worked cases, fed with what the pool holds, to its end; and
/// the addresses that it names.
fn walked(memory: &[u8], regime: &Regime, access: &Access) -> (CStepwise, Vec<u64>) {
    let mut walk = Second.begin(regime, access, Spelling::PLAIN);
    let holds = pool_reader(memory, regime);
    let mut named = Vec::new();
    while walk.ended == 0 {
        let held = holds(walk.address);
        named.push(walk.address);
        assert_eq!(Second.offer(&mut walk, held), 0);
    }
    (walk, named)
}

/// The end of a worked case is that of the plain walk, with its update.
fn ends_as_the_walk(regime: &Regime, memory: &[u8], access: &Access) -> CStepwise {
    let mut left = memory.to_vec();
    let plain = walk(&mut left, regime, access);
    let (end, named) = walked(memory, regime, access);
    assert_eq!(end.answer, plain_answer(&plain.answer));
    assert_eq!(named, plain.visited);
    let leaf = |memory: &[u8]| super::read_descriptor(memory, LEAF_OFFSET);
    match end.update {
        0 => assert_eq!((end.address, end.expected, end.value), (0, 0, 0)),
        _ => {
            assert_eq!(end.address, POOL + LEAF_OFFSET as u64);
            assert_eq!((end.expected, end.value), (leaf(memory), leaf(&left)));
        }
    }
    assert_eq!(end.update != 0, left != memory);
    end
}

#[test]
fn worked_cases() {
    let (memory, regime) = start();
    let p1 = ends_as_the_walk(&regime, &memory, &access(Kind::Read));
    assert_eq!((p1.expected, p1.value), (LEAF, 0x0008_0000_8000_57C3));
    let p2 = ends_as_the_walk(&regime, &memory, &access(Kind::Write));
    assert_eq!((p2.expected, p2.value), (LEAF, 0x0008_0000_8000_5743));
    let probe = Access {
        size: 1,
        ..access(Kind::ProbeWrite)
    };
    let p3 = ends_as_the_walk(&regime, &memory, &probe);
    assert_eq!((p3.answer.tag, p3.update), (SUCCESS, 0));
    let off = Regime {
        hd: false,
        ..regime
    };
    let p4 = ends_as_the_walk(&off, &memory, &access(Kind::Write));
    assert_eq!((p4.answer.code, p4.update), (15, 0));
    let p10 = Regime {
        attributes: [0; 8],
        ..regime
    };
    let p10 = ends_as_the_walk(&p10, &memory, &misaligned());
    assert_eq!((p10.answer.code, p10.update), (33, 0));
}

/// P7: the fourth descriptor is not reachable.
#[test]
fn not_reachable() {
    let (mut memory, regime) = start();
    super::write_descriptor(&mut memory, 0x2010, 0x4001_0003);
    let (end, named) = walked(&memory, &regime, &access(Kind::Read));
    assert_eq!(named[3], 0x4001_0018);
    assert_eq!((end.answer.tag, end.answer.code), (FAULT, 23));
    assert_eq!((end.answer.reads, end.update), (4, 0));
}

/// Each field on the way, and 0 in those that are not in use.
#[test]
fn fields_on_the_way() {
    let (_, regime) = start();
    let mut walk = Second.begin(&regime, &access(Kind::Write), Spelling::PLAIN);
    let none = CAnswer {
        tag: REFUSED,
        ..CAnswer::default()
    };
    let offers = [0x4000_1003 | 1 << AP_TABLE_1, 0x4000_2003, 0x4000_3003];
    let sums = [0, 8, 8, 8];
    for (step, sum) in (0..).zip(sums) {
        assert_eq!(walk.answer, none);
        assert_eq!((walk.left, walk.tables), (3 - step, sum));
        assert_eq!((walk.ended, walk.update), (0, 0));
        assert_eq!((walk.expected, walk.value, walk.spare), (0, 0, [0; 4]));
        let offered = offers.get(usize::from(step)).copied();
        assert_eq!(Second.value(&mut walk, offered.unwrap_or(LEAF)), 0);
    }
    // Bit 62 takes the writing away.
    assert_eq!((walk.answer.code, walk.answer.reads), (15, 4));
    assert_eq!((walk.left, walk.tables, walk.address), (0, 0, 0));
}

/// With HPD on the bits are told all the same, and do not count at the leaf.
#[test]
fn bits_that_do_not_count() {
    let (_, mut regime) = start();
    regime.ranges[0].hpd = true;
    let mut walk = Second.begin(&regime, &access(Kind::Write), Spelling::PLAIN);
    for table in [0x4000_1003 | 1 << AP_TABLE_1, 0x4000_2003, 0x4000_3003] {
        assert_eq!(Second.value(&mut walk, table), 0);
        assert_eq!(walk.tables, 8);
    }
    assert_eq!(Second.value(&mut walk, LEAF), 0);
    assert_eq!((walk.answer.tag, walk.answer.dirtied), (SUCCESS, 1));
}

/// Rows 3 to 7 with 13 at the start; 1 and 2 do not arise.
#[test]
fn refusals_of_the_start() {
    let (_, regime) = start();
    let number = |regime: &Regime, access: &Access| {
        let walk = Second.begin(regime, access, Spelling::PLAIN);
        assert_eq!((walk.ended, walk.answer.tag), (1, REFUSED));
        walk.answer.refusal
    };
    let mut size = access(Kind::Read);
    size.size = 3;
    let mut crossing = access(Kind::Read);
    crossing.address = 0x40_3FFD;
    assert_eq!(number(&regime, &crossing), 7);
    assert_eq!(number(&regime, &size), 6);
    let mut bad = Regime {
        ha: false,
        ..regime
    };
    bad.pool.start = 1;
    bad.pool.address = u64::MAX;
    assert_eq!(number(&bad, &size), 13);
    bad.attributes[7] = 1;
    assert_eq!(number(&bad, &size), 5);
    bad.ranges[1].root = 8;
    assert_eq!(number(&bad, &size), 4);
    bad.output_code = 6;
    assert_eq!(number(&bad, &size), 3);
}

/// After an end of every sort, either offer is refused and changes nothing.
#[test]
fn offers_after_the_end() {
    let (memory, regime) = start();
    let mut small = access(Kind::Read);
    small.size = 0;
    let mut outside = access(Kind::Read);
    outside.address |= 1 << 54;
    let ends = [access(Kind::Write), access(Kind::Fetch), small, outside];
    let tags = ends.map(|access| {
        let (end, _) = walked(&memory, &regime, &access);
        for offered in [Some(LEAF), None] {
            let mut late = end;
            assert_eq!(Second.offer(&mut late, offered), WALK_ENDED);
            assert_eq!(late.difference(&end), None);
        }
        end.answer.tag
    });
    assert_eq!(tags, [SUCCESS, SUCCESS, REFUSED, FAULT]);
}

/// A walk that wants the leaf of the worked cases.
fn at_leaf() -> CStepwise {
    let (_, regime) = start();
    let mut walk = Second.begin(&regime, &access(Kind::Write), Spelling::PLAIN);
    for table in [0x4000_1003, 0x4000_2003, 0x4000_3003] {
        Second.value(&mut walk, table);
    }
    walk
}

fn offered(mut walk: CStepwise, value: u64) -> CStepwise {
    assert_eq!(Second.value(&mut walk, value), 0);
    walk
}

/// RULES 16.6.
#[test]
fn any_bytes_are_a_walk() {
    let leaf = at_leaf();
    // Any byte but 0 says that it has ended.
    for ended in 1..=0xFF {
        let mut walk = CStepwise { ended, ..leaf };
        assert_eq!(Second.unreachable(&mut walk), WALK_ENDED);
        assert_eq!(walk.difference(&CStepwise { ended, ..leaf }), None);
    }
    // Bits 7..4 have no say, and the others count as the tables' sum.
    let idle = CStepwise {
        tables: 0xF0,
        ..leaf
    };
    assert_eq!(offered(idle, LEAF).difference(&offered(leaf, LEAF)), None);
    let sum = CStepwise { tables: 8, ..leaf };
    assert_eq!(offered(sum, LEAF).answer.code, 15);
    // The descriptor may have any address; then the update is there.
    let odd = CStepwise {
        address: u64::MAX,
        ..leaf
    };
    assert_eq!(offered(odd, LEAF).address, u64::MAX);
    // A disabled range goes on.
    let mut disabled = leaf;
    disabled.regime.disabled0 = 9;
    assert_eq!(offered(disabled, LEAF).answer.tag, SUCCESS);
    // The rows are asked again.
    let mut refused = leaf;
    refused.regime.tsz1 = 15;
    refused.access.size = 3;
    let refused = offered(refused, LEAF);
    assert_eq!((refused.ended, refused.answer.refusal), (1, 3));
}

/// With more levels left than there are, it is at the first level.
#[test]
fn levels_left_are_bounded() {
    for (granule, byte, most) in [
        (Granule::Kib4, 0, 3),
        (Granule::Kib16, 2, 3),
        (Granule::Kib64, 1, 2),
    ] {
        let mut walk = at_leaf();
        walk.regime.granule = byte;
        for left in most..=0xFF {
            let first = offered(CStepwise { left, ..walk }, 0);
            assert_eq!(first.answer.reads, 1, "{granule} {left}");
            assert_eq!(first.answer.level, 3 - most, "{granule} {left}");
        }
        for left in 0..most {
            let lower = offered(CStepwise { left, ..walk }, 0);
            assert_eq!(lower.answer.reads, most - left + 1);
            assert_eq!(lower.answer.level, 3 - left);
        }
    }
}

/// The second program with a slip in what it leaves of a walk. The slip is
/// given the walk before the call, as none at the start.
struct Slips<S>(S);

impl<S: Fn(Option<&CStepwise>, &mut CStepwise)> Stepper for Slips<S> {
    fn start(&self, regime: &CRegime, access: &CAccess, walk: &mut CStepwise) {
        Second.start(regime, access, walk);
        (self.0)(None, walk);
    }

    fn value(&self, walk: &mut CStepwise, value: u64) -> u8 {
        let before = *walk;
        let number = Second.value(walk, value);
        (self.0)(Some(&before), walk);
        number
    }

    fn unreachable(&self, walk: &mut CStepwise) -> u8 {
        Second.unreachable(walk)
    }
}

/// Whether a slip is told, in the walks that are made apart from the cases.
fn told(slip: impl Fn(Option<&CStepwise>, &mut CStepwise)) -> bool {
    Trial::new(Slips(slip), 1).run_all(false).is_err()
}

#[test]
fn slips_are_told() {
    assert!(!told(|_, _| {}));
    assert!(told(|_, walk| walk.spare[3] = 1));
    assert!(told(|_, walk| walk.regime.spare[0] = 1));
    assert!(told(|_, walk| walk.expected ^= u64::from(walk.update)));
    assert!(told(|_, walk| {
        walk.answer.reads += walk.answer.dirtied;
    }));
    // An address named twice.
    assert!(told(|before, walk| {
        if let (Some(before), 0) = (before, walk.ended) {
            walk.address = before.address;
        }
    }));
    // The sum is lost at the last table.
    assert!(told(|before, walk| {
        if before.is_some_and(|before| before.left == 1) {
            walk.tables = 0;
        }
    }));
    // A value is taken after the end.
    assert!(told(|before, walk| {
        if before.is_some_and(|before| before.ended != 0) {
            walk.value = 1;
        }
    }));
}

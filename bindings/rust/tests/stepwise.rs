//! The walk a descriptor at a time: the worked cases, every first level, the
//! end at each step, and random tables, held against the plain walk.

mod tables;

use tables::kind::Kind;
use tables::{
    memory, put, put_in, read, regime, under, write, Random, ADDRESS, CLEAN, EXTERNAL_ABORT, LEAF,
    NO_EL0, NO_EL0_FETCH, NO_EL1_FETCH, NO_WRITE, POOL,
};
use vmsa::{
    Access, Answer, Ended, Fault, FaultKind, Granule, LeafUpdate, OutputSize, PhysAddr, Pool,
    Range, Refusal, Regime, Step, StepwiseWalk, Stop, TablesSum, VirtAddr,
};

const AP2: u64 = 1 << 7;
const AF: u64 = 1 << 10;

/// The addresses of the worked cases' descriptors, the leaf's last.
const WAY: [u64; 4] = [0x4000_0000, 0x4000_1000, 0x4000_2010, 0x4000_3018];

/// What a walk was: the addresses that it named, its answer, and the update.
#[derive(Debug, PartialEq)]
struct Told {
    named: Vec<u64>,
    answer: Answer,
    update: Option<LeafUpdate>,
}

/// What stands at an address of the regime's pool, in its byte order; `None`
/// outside it.
fn descriptor(memory: &[u8], regime: &Regime, address: PhysAddr) -> Option<u64> {
    let Pool { start, length, .. } = regime.pool;
    let offset = usize::try_from(address.0.checked_sub(regime.pool.address.0)?).ok()?;
    let bytes = memory[start..start + length].get(offset..offset.checked_add(8)?)?;
    let bytes = bytes.try_into().unwrap();
    Some(if regime.ee {
        u64::from_be_bytes(bytes)
    } else {
        u64::from_le_bytes(bytes)
    })
}

/// The answer of an end, its update made.
fn settled(ended: Ended) -> Answer {
    ended.settle(|_| true).unwrap()
}

/// A walk over a memory that holds the regime's pool; the update is made.
fn told(memory: &mut [u8], regime: &Regime, access: &Access) -> Told {
    let mut named = Vec::new();
    let ended = StepwiseWalk::start(regime, access).run(|address| {
        named.push(address.0);
        descriptor(memory, regime, address)
    });
    let update = ended.update();
    let exchange = |update: LeafUpdate| {
        let stands = descriptor(memory, regime, update.address);
        assert_eq!(stands, Some(update.expected));
        let offset = regime.pool.start + (update.address.0 - regime.pool.address.0) as usize;
        put_in(regime.ee, memory, offset, update.new);
        true
    };
    Told {
        named,
        answer: ended.settle(exchange).unwrap(),
        update,
    }
}

/// Holds a walk against the plain walk: the answer, and the memory left.
fn agrees(memory: &[u8], regime: &Regime, access: &Access) -> Told {
    let (mut ours, mut plain) = (memory.to_vec(), memory.to_vec());
    let told = told(&mut ours, regime, access);
    let answer = vmsa::walk(&mut plain, regime, access);
    assert_eq!(told.answer, answer, "{regime:?}, {access:?}");
    assert!(ours == plain, "{regime:?}, {access:?}");
    let (reads, marks) = match answer {
        Ok(found) => (found.reads, found.accessed || found.dirtied),
        Err(Stop::Fault(fault)) => (fault.reads, false),
        Err(Stop::Refused(_)) => (0, false),
    };
    assert_eq!(told.named.len(), usize::from(reads));
    assert_eq!(told.update.is_some(), marks);
    if let Some(update) = told.update {
        assert_eq!(told.named.last(), Some(&update.address.0));
        assert_eq!((update.expected ^ update.new) & !(AF | AP2), 0);
    }
    told
}

/// The fault of a worked case, which has read its four descriptors.
fn fault(told: &Told) -> u16 {
    assert_eq!(told.update, None);
    let fault = told.answer.unwrap_err().fault().unwrap();
    assert_eq!((fault.level, fault.reads), (3, 4));
    assert!(!fault.cacheable);
    fault.code
}

/// The worked cases' memory with one descriptor changed.
fn with(offset: usize, descriptor: u64) -> Vec<u8> {
    let mut memory = memory();
    put(&mut memory, offset, descriptor);
    memory
}

#[test]
fn p1_and_p2_updates() {
    for (access, new) in [
        (read(), 0x0008_0000_8000_57c3),
        (write(), 0x0008_0000_8000_5743),
    ] {
        let told = agrees(&memory(), &regime(), &access);
        assert_eq!(told.named, WAY);
        let found = told.answer.unwrap();
        assert_eq!((found.output.0, found.reads), (0x8000_5abc, 4));
        assert!(found.accessed && found.cacheable);
        assert_eq!(found.dirtied, access == write());
        let update = LeafUpdate {
            address: PhysAddr(WAY[3]),
            expected: CLEAN,
            new,
        };
        assert_eq!(told.update, Some(update));
    }
}

#[test]
fn no_update_where_none_is_due() {
    // P3, a page that is dirty already, and one that was read.
    let probe = Access::probe_write(ADDRESS).el0();
    let dirty = (CLEAN | AF) & !AP2;
    for (leaf, access, cacheable) in [
        (CLEAN, probe, false),
        (CLEAN | AF, read(), true),
        (dirty, write(), true),
    ] {
        let told = agrees(&with(LEAF, leaf), &regime(), &access);
        assert_eq!((&*told.named, told.update), (&WAY[..], None));
        assert_eq!(told.answer.unwrap().cacheable, cacheable);
    }
    let four = Access { size: 4, ..probe };
    let told = agrees(&memory(), &regime(), &four);
    assert_eq!(told.answer, Err(Stop::Refused(Refusal::AccessSize)));
    assert!(told.named.is_empty());
}

#[test]
fn p4_and_p5_switches_off() {
    let told = agrees(&memory(), &regime().hd(false), &write());
    assert_eq!((&*told.named, fault(&told)), (&WAY[..], 15));
    let off = regime().ha(false);
    let told = agrees(&memory(), &off.hd(false), &write());
    assert_eq!((&*told.named, fault(&told)), (&WAY[..], 11));
    let told = agrees(&memory(), &off, &write());
    assert_eq!(told.answer, Err(Stop::Refused(Refusal::DirtyState)));
    assert!(told.named.is_empty());
}

#[test]
fn p6_and_p7_the_end_of_the_pool() {
    let told = agrees(&with(0x2010, 0x4000_f003), &regime(), &write());
    assert_eq!(told.named[3], 0x4000_f018);
    assert_eq!(fault(&told), 7);
    let told = agrees(&with(0x2010, 0x4001_0003), &regime(), &write());
    assert_eq!(told.named[3], 0x4001_0018);
    assert_eq!(told.answer, Err(Stop::Fault(EXTERNAL_ABORT)));

    // It is the reader that ends there: one with more of them goes on.
    let more = |address: PhysAddr| match address.0 {
        0x4000_2010 => Some(0x4001_0003),
        0x4001_0018 => Some(CLEAN),
        _ => descriptor(&memory(), &regime(), address),
    };
    let ended = StepwiseWalk::start(&regime(), &write()).run(more);
    assert_eq!(ended.update().unwrap().address.0, 0x4001_0018);
    assert_eq!(settled(ended).unwrap().output.0, 0x8000_5abc);
}

#[test]
fn p8_to_p10_leaves() {
    let narrow = regime().output(OutputSize::Bits32);
    let far = with(LEAF, 0x0008_0001_0000_03c3);
    assert_eq!(fault(&agrees(&far, &narrow, &write())), 3);
    let block = with(LEAF, CLEAN & !2);
    assert_eq!(fault(&agrees(&block, &regime(), &write())), 7);
    let device = regime().attribute(0, 0x00);
    let unaligned = Access::read(VirtAddr(0x40_3abd), 2).el0();
    assert_eq!(fault(&agrees(&memory(), &device, &unaligned)), 33);
}

#[test]
fn p11_the_end_of_the_page() {
    let told = agrees(&memory(), &regime(), &Access::read(VirtAddr(0x40_3ffc), 4));
    assert_eq!(told.answer.unwrap().output.0, 0x8000_5ffc);
    let told = agrees(&memory(), &regime(), &Access::read(VirtAddr(0x40_3ffd), 4));
    assert_eq!(told.answer, Err(Stop::Refused(Refusal::PageCrossing)));
    assert!(told.named.is_empty());
}

/// The steps of a walk over the worked cases' tables, to its end.
fn steps(regime: &Regime, access: &Access) -> Vec<Step> {
    let lent = tables::regime();
    let mut steps = vec![StepwiseWalk::start(regime, access)];
    while let Some(Step::Wants(walk)) = steps.last() {
        let value = descriptor(&memory(), &lent, walk.address());
        steps.push(walk.clone().value(value.unwrap()));
    }
    steps
}

/// What is told of a step.
fn shown(step: &Step) -> String {
    format!("{step:?}")
}

#[test]
fn p12_the_pool_and_ee_have_no_say() {
    let none = Pool::default();
    let longest = Pool::new(0, 1_048_576, PhysAddr(POOL));
    let longer = Pool::new(0, 1_052_672, PhysAddr(POOL));
    let odd = Pool::new(usize::MAX, 1, PhysAddr(u64::MAX));
    for access in [read(), write()] {
        let expected = steps(&regime(), &access);
        assert_eq!(expected.len(), 5);
        for pool in [none, longest, longer, odd] {
            for ee in [false, true] {
                let steps = steps(&regime().pool(pool).ee(ee), &access);
                assert_eq!(steps.last(), expected.last());
                assert!(steps.iter().map(shown).eq(expected.iter().map(shown)));
            }
        }
    }
}

#[test]
fn faults_before_any_read() {
    let range = Range::new(PhysAddr(POOL), 25);
    let disabled = Range {
        disabled: true,
        ..range
    };
    let high = Range::new(PhysAddr(1 << 32), 25);
    let beyond = Access::read(VirtAddr(1 << 39), 1);
    for (range, access, kind) in [
        (disabled, read(), FaultKind::Translation),
        (range, beyond, FaultKind::Translation),
        (high, read(), FaultKind::AddressSize),
    ] {
        let regime = regime().range0(range).output(OutputSize::Bits32);
        let told = agrees(&memory(), &regime, &access);
        assert!(told.named.is_empty());
        let fault = told.answer.unwrap_err().fault().unwrap();
        assert_eq!((fault.kind, fault.level, fault.reads), (kind, 0, 0));
    }
}

#[test]
fn the_sum_so_far() {
    let none = TablesSum::default();
    let first = TablesSum {
        no_write: true,
        no_el1_fetch: true,
        ..none
    };
    let both = TablesSum {
        no_el0: true,
        no_el0_fetch: true,
        ..first
    };
    let bits = [NO_WRITE | NO_EL1_FETCH, 0, NO_EL0 | NO_EL0_FETCH | 1 << 63];
    let memory = under(bits);
    for (hpd, expected) in [
        (false, [none, first, first, both]),
        (true, [none, none, none, none]),
    ] {
        let range = Range::new(PhysAddr(POOL), 16).hpd(hpd);
        let regime = regime().range0(range);
        agrees(&memory, &regime, &write());
        let mut step = StepwiseWalk::start(&regime, &write());
        for sum in expected {
            let Step::Wants(walk) = step else {
                panic!("four descriptors are wanted");
            };
            assert_eq!(walk.tables(), sum);
            let value = descriptor(&memory, &regime, walk.address());
            step = walk.value(value.unwrap());
        }
        let Step::Ended(ended) = step else {
            panic!("the page ends it");
        };
        assert_eq!(ended.update().is_some(), hpd);
    }
}

#[test]
fn each_bit_of_the_sum_alone() {
    type Has = fn(&TablesSum) -> bool;
    let bits: [(u64, Has); 4] = [
        (NO_WRITE, |sum| sum.no_write),
        (NO_EL0, |sum| sum.no_el0),
        (NO_EL0_FETCH, |sum| sum.no_el0_fetch),
        (NO_EL1_FETCH, |sum| sum.no_el1_fetch),
    ];
    for (bit, _) in bits {
        let Step::Wants(walk) = StepwiseWalk::start(&regime(), &read()) else {
            panic!("it wants the root's entry");
        };
        let Step::Wants(walk) = walk.value(0x4000_1003 | bit) else {
            panic!("it wants the next table's");
        };
        for (of, has) in bits {
            assert_eq!(has(&walk.tables()), of == bit);
        }
    }
}

/// A level of a granule's tables (`docs/RULES.md`, 6.2): its number, and the
/// highest and the lowest bit of its index.
type Level = (u8, u32, u32);

const LEVELS: [(Granule, &[Level]); 3] = [
    (
        Granule::Kib4,
        &[(0, 47, 39), (1, 38, 30), (2, 29, 21), (3, 20, 12)],
    ),
    (
        Granule::Kib16,
        &[(0, 47, 47), (1, 46, 36), (2, 35, 25), (3, 24, 14)],
    ),
    (Granule::Kib64, &[(1, 47, 42), (2, 41, 29), (3, 28, 16)]),
];

/// The levels that a range of size T has: those whose index has an address bit.
fn levels(of: &'static [Level], tsz: u8) -> &'static [Level] {
    let bits = 64 - u32::from(tsz);
    let first = of.iter().position(|&(.., lowest)| lowest < bits);
    &of[first.unwrap()..]
}

/// The index of an address in a level's table.
fn index(address: u64, tsz: u8, (_, highest, lowest): Level) -> u64 {
    let end = (highest + 1).min(64 - u32::from(tsz));
    (address & ((1 << end) - 1)) >> lowest
}

/// Starts a walk of some address and offers so many tables: the walk, and the
/// level that it stands at. The descriptors it wants are held against 6.2.
fn down((granule, of): (Granule, &'static [Level]), tsz: u8, tables: usize) -> StepwiseWalk {
    let address = 0xb4d2_a59e_3c71 & ((1 << (64 - tsz)) - 1);
    let range = Range::new(PhysAddr(POOL), tsz);
    let regime = regime().pool(Pool::default()).range0(range);
    let access = Access::write(VirtAddr(address), 1).el0();
    let mut step = StepwiseWalk::start(&regime.granule(granule), &access);
    for (place, &level) in levels(of, tsz).iter().enumerate() {
        let Step::Wants(walk) = step else {
            panic!("level {} is wanted", level.0);
        };
        let table = POOL + place as u64 * granule.bytes();
        let expected = table + 8 * index(address, tsz, level);
        assert_eq!((walk.address().0, walk.level()), (expected, level.0));
        if place == tables {
            return walk;
        }
        step = walk.value((table + granule.bytes()) | 3);
    }
    panic!("there are fewer levels");
}

/// Each granule with each T, and the levels then.
fn every_first_level() -> impl Iterator<Item = ((Granule, &'static [Level]), u8)> {
    LEVELS
        .into_iter()
        .flat_map(|of| (16..=39).map(move |tsz| (of, tsz)))
}

#[test]
fn to_a_page_from_every_first_level() {
    for (of, tsz) in every_first_level() {
        let last = levels(of.1, tsz).len() - 1;
        let walk = down(of, tsz, last);
        let address = walk.address();
        let Step::Ended(ended) = walk.value(CLEAN) else {
            panic!("the page ends it");
        };
        let update = LeafUpdate {
            address,
            expected: CLEAN,
            new: (CLEAN | AF) & !AP2,
        };
        assert_eq!(ended.update(), Some(update));
        let found = settled(ended).unwrap();
        let frame = CLEAN & 0xffff_ffff_f000 & !(of.0.bytes() - 1);
        let offset = 0xb4d2_a59e_3c71 & (of.0.bytes() - 1);
        assert_eq!(found.output.0, frame | offset);
        assert_eq!((found.level, usize::from(found.reads)), (3, last + 1));
    }
}

/// The fault that ends a walk, with no update due.
fn ends(step: Step) -> Fault {
    let Step::Ended(ended) = step else {
        panic!("it has ended");
    };
    assert_eq!(ended.update(), None);
    settled(ended).unwrap_err().fault().unwrap()
}

#[test]
fn an_end_at_each_step() {
    // Not reachable, or no valid descriptor.
    for (of, tsz) in every_first_level() {
        for (place, &(level, ..)) in levels(of.1, tsz).iter().enumerate() {
            let expected = |kind: FaultKind| Fault {
                kind,
                level,
                code: kind.code(level),
                cacheable: false,
                reads: place as u8 + 1,
            };
            let abort = ends(down(of, tsz, place).unreachable());
            assert_eq!(abort, expected(FaultKind::ExternalAbort));
            for none in [0, 2, u64::MAX - 1] {
                let fault = ends(down(of, tsz, place).value(none));
                assert_eq!(fault, expected(FaultKind::Translation));
            }
        }
    }
}

#[test]
fn an_address_beyond_the_output_size() {
    let narrow = regime().output(OutputSize::Bits32);
    for (level, address) in WAY.into_iter().enumerate() {
        let offset = (address - POOL) as usize;
        let told = agrees(&with(offset, 1 << 32 | 3), &narrow, &write());
        assert_eq!(told.named, WAY[..=level]);
        let fault = told.answer.unwrap_err().fault().unwrap();
        assert_eq!(usize::from(fault.code), level);
        assert_eq!(fault.kind, FaultKind::AddressSize);
    }
}

#[test]
fn blocks() {
    for (of, tsz) in every_first_level() {
        for (place, &(level, _, lowest)) in levels(of.1, tsz).iter().enumerate() {
            let has = level == 2 || level == 1 && of.0 == Granule::Kib4;
            let step = down(of, tsz, place).value(CLEAN & !2);
            if !has {
                assert_eq!(ends(step).kind, FaultKind::Translation);
                continue;
            }
            let Step::Ended(ended) = step else {
                panic!("the block ends it");
            };
            assert_eq!(ended.update().unwrap().new, (CLEAN | AF) & !AP2 & !2);
            let found = settled(ended).unwrap();
            assert_eq!((found.level, usize::from(found.reads)), (level, place + 1));
            let within = (1 << lowest) - 1;
            let offset = 0xb4d2_a59e_3c71 & ((1 << (64 - tsz)) - 1) & within;
            assert_eq!(found.output.0 & within, offset);
        }
    }
}

#[test]
fn over_random_tables() {
    let mut random = Random(0x9e37_79b9_7f4a_7c15);
    // Successes by granule, updates by EE, faults and refusals.
    let (mut found, mut updates, mut faults, mut refused) = ([0; 3], [0; 2], 0, 0);
    for number in 0..4000 {
        let kind = Kind::of(number);
        let memory = kind.memory(&mut random);
        for _ in 0..8 {
            let regime = kind.regime(&mut random);
            let access = kind.access(&mut random, Some(regime));
            // Rows 1 and 2 are to refuse nothing.
            let no_pool = [Refusal::MemoryPool, Refusal::PoolAddress];
            let problem = regime.check(memory.len()).err();
            if problem.is_some_and(|problem| no_pool.contains(&problem.refusal())) {
                continue;
            }
            let told = agrees(&memory, &regime, &access);
            updates[usize::from(regime.ee)] += u32::from(told.update.is_some());
            match told.answer {
                Ok(_) => found[regime.granule as usize] += 1,
                Err(Stop::Fault(_)) => faults += 1,
                Err(Stop::Refused(_)) => refused += 1,
            }
        }
    }
    let counts = [&found[..], &updates, &[faults, refused]].concat();
    assert!(counts.iter().all(|&count| count > 300), "{counts:?}");
}

#[test]
fn four_offers_end_it() {
    // Whatever is offered, which is mostly a table.
    let mut random = Random(0x2545_f491_4f6c_dd1d);
    let mut ended_after = [0; 5];
    for number in 0..20_000 {
        let kind = Kind::of(number);
        let regime = kind.regime(&mut random);
        let access = kind.access(&mut random, Some(regime));
        let mut asked = 0;
        let ended = StepwiseWalk::start(&regime, &access).run(|_| {
            asked += 1;
            match random.below(16) {
                0 => None,
                1 => Some(random.next()),
                _ => Some(random.next() & 0xf8ff_ffff_ffff_fffc | 3),
            }
        });
        if let Ok(found) = settled(ended) {
            assert_eq!(usize::from(found.reads), asked);
        }
        ended_after[asked] += 1;
    }
    assert!(
        ended_after.iter().all(|&count| count > 500),
        "{ended_after:?}"
    );
}

#[test]
fn two_readers_that_agree() {
    // They differ where nothing is named.
    let mut random = Random(0x9e37_79b9_7f4a_7c15);
    for number in 0..1000 {
        let kind = Kind::of(number);
        let (regime, memory) = (kind.regime(&mut random), kind.memory(&mut random));
        let access = kind.access(&mut random, Some(regime));
        let expected = told(&mut memory.clone(), &regime, &access);
        let start = StepwiseWalk::start(&regime, &access);
        let ended = start.run(|address| match expected.named.contains(&address.0) {
            true => descriptor(&memory, &regime, address),
            false => panic!("{address} is not named"),
        });
        assert_eq!(ended.update(), expected.update);
        assert_eq!(settled(ended), expected.answer);
    }
}

#[test]
fn an_exchange_that_fails() {
    // Another writer sets the Access flag between the read and the exchange:
    // the first walk leaves no answer, and the second has a dirty update left.
    let mut memory = memory();
    let answers = [CLEAN | AF, CLEAN | AF].map(|written| {
        let start = StepwiseWalk::start(&regime(), &write());
        let ended = start.run(|address| descriptor(&memory, &regime(), address));
        put(&mut memory, LEAF, written);
        ended.settle(|update| {
            let stands = descriptor(&memory, &regime(), update.address);
            let same = stands == Some(update.expected);
            if same {
                put(&mut memory, LEAF, update.new);
            }
            same
        })
    });
    assert_eq!(answers[0], None);
    let found = answers[1].unwrap().unwrap();
    assert!(!found.accessed && found.dirtied);
    assert_eq!(tables::get(&memory, LEAF), (CLEAN | AF) & !AP2);
}

#[test]
fn an_exchange_is_asked_for_once_or_never() {
    for (leaf, due) in [(CLEAN, 1), (CLEAN | AF, 0), (0, 0)] {
        let memory = with(LEAF, leaf);
        let start = StepwiseWalk::start(&regime(), &read());
        let ended = start.run(|address| descriptor(&memory, &regime(), address));
        let mut asked = 0;
        let answer = ended.clone().settle(|update| {
            asked += 1;
            assert_eq!(Some(update), ended.update());
            true
        });
        assert_eq!((asked, answer.is_some()), (due, true));
        // What was not made leaves no answer.
        assert_eq!(ended.settle(|_| false).is_some(), due == 0);
    }
}

#[test]
fn shown_in_hexadecimal() {
    let steps = steps(&regime(), &write());
    assert_eq!(
        shown(&steps[1]),
        "Wants(StepwiseWalk { address: PhysAddr(0x40001000), level: 1, tables: TablesSum { \
         no_write: false, no_el0: false, no_el0_fetch: false, no_el1_fetch: false }, .. })"
    );
    let Step::Ended(ended) = &steps[4] else {
        panic!("it has ended");
    };
    assert_eq!(
        format!("{:?}", ended.update().unwrap()),
        "LeafUpdate { address: PhysAddr(0x40003018), expected: 0x80000800053c3, \
         new: 0x8000080005743 }"
    );
}

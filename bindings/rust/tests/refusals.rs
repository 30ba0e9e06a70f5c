//! The numbers of the refusals, and which of two a call gives.

mod tables;

use tables::{memory, read, regime, LENGTH, POOL};
use vmsa::{
    Access, Pages, PhysAddr, Range, Refusal, Regime, Session, Step, StepwiseWalk, VirtAddr,
    VirtPage,
};

/// What a call is made with; as it starts, none is refused.
struct Question {
    set: bool,
    lent: usize,
    regime: Regime,
    access: Access,
    store: PhysAddr,
    pages: Pages,
    map: usize,
}

type Change = fn(&mut Question);

/// Each refusal with its number (`docs/RULES.md`, 5.1), and a change that makes
/// it apply, whatever else was changed; for 12 there is none, since an offer
/// after the end does not compile.
const REFUSALS: &[(Refusal, u8, Change)] = &[
    (Refusal::MemoryPool, 1, |question| {
        question.lent = LENGTH - 1;
    }),
    (Refusal::PoolAddress, 2, |question| {
        question.regime.pool.address = PhysAddr(POOL + 8);
    }),
    (Refusal::Sizes, 3, |question| {
        question.regime.range1.tsz = 40
    }),
    (Refusal::Root, 4, |question| {
        question.regime.range1.root = PhysAddr(1 << 48);
    }),
    (Refusal::Attributes, 5, |question| {
        question.regime.attributes[7] = 0x0f;
    }),
    (Refusal::AccessSize, 6, |question| question.access.size = 32),
    (Refusal::PageCrossing, 7, |question| {
        question.access.address = VirtAddr(0x40_3fff);
    }),
    (Refusal::StoreAddress, 8, |question| {
        question.store = PhysAddr(POOL + LENGTH as u64);
    }),
    (Refusal::NoRegime, 9, |question| question.set = false),
    (Refusal::PageRange, 10, |question| {
        question.pages.first = VirtPage(1 << 36);
    }),
    (Refusal::MapLength, 11, |question| question.map = 1),
    (Refusal::WalkEnded, 12, |_| {}),
    (Refusal::DirtyState, 13, |question| {
        question.regime.ha = false;
    }),
];

/// A call: the refusal it gives, if any.
type Call = fn(&Question) -> Option<Refusal>;

/// The order in which each call checks (`docs/RULES.md`, 5.3). Which of two
/// comes first follows from their places here, and from nothing else.
const ORDERS: [(Call, &[Refusal]); 7] = [
    (
        walk,
        &[
            Refusal::MemoryPool,
            Refusal::PoolAddress,
            Refusal::Sizes,
            Refusal::Root,
            Refusal::Attributes,
            Refusal::DirtyState,
            Refusal::AccessSize,
            Refusal::PageCrossing,
        ],
    ),
    (
        set_regime,
        &[
            Refusal::MemoryPool,
            Refusal::PoolAddress,
            Refusal::Sizes,
            Refusal::Root,
            Refusal::Attributes,
            Refusal::DirtyState,
        ],
    ),
    (
        access,
        &[
            Refusal::NoRegime,
            Refusal::MemoryPool,
            Refusal::AccessSize,
            Refusal::PageCrossing,
        ],
    ),
    (
        store,
        &[
            Refusal::NoRegime,
            Refusal::MemoryPool,
            Refusal::StoreAddress,
        ],
    ),
    (
        harvest,
        &[
            Refusal::MemoryPool,
            Refusal::PoolAddress,
            Refusal::Sizes,
            Refusal::Root,
            Refusal::Attributes,
            Refusal::DirtyState,
            Refusal::PageRange,
            Refusal::MapLength,
        ],
    ),
    (
        session_harvest,
        &[
            Refusal::NoRegime,
            Refusal::MemoryPool,
            Refusal::PageRange,
            Refusal::MapLength,
        ],
    ),
    (
        start,
        &[
            Refusal::Sizes,
            Refusal::Root,
            Refusal::Attributes,
            Refusal::DirtyState,
            Refusal::AccessSize,
            Refusal::PageCrossing,
        ],
    ),
];

fn question() -> Question {
    Question {
        set: true,
        lent: LENGTH,
        regime: regime(),
        access: read(),
        store: PhysAddr(POOL),
        pages: Pages::new(VirtPage(0x400), 9),
        map: 2,
    }
}

fn walk(question: &Question) -> Option<Refusal> {
    let lent = &mut memory()[..question.lent];
    let answer = vmsa::walk(lent, &question.regime, &question.access);
    answer.err().and_then(vmsa::Stop::refusal)
}

fn set_regime(question: &Question) -> Option<Refusal> {
    let lent = &memory()[..question.lent];
    Session::new().set_regime(lent, &question.regime).err()
}

/// The session of an access, a store or a harvest. What is wrong with the
/// regime does not reach it.
fn session(question: &Question) -> Session {
    let mut session = Session::new();
    if question.set {
        session.set_regime(&memory(), &regime()).unwrap();
    }
    session
}

fn access(question: &Question) -> Option<Refusal> {
    let lent = &mut memory()[..question.lent];
    let answer = session(question).access(lent, &question.access);
    answer.err().and_then(vmsa::Stop::refusal)
}

fn store(question: &Question) -> Option<Refusal> {
    let lent = &mut memory()[..question.lent];
    session(question).store(lent, question.store, 0).err()
}

fn harvest(question: &Question) -> Option<Refusal> {
    let lent = &mut memory()[..question.lent];
    let map = &mut vec![0; question.map];
    vmsa::harvest(lent, &question.regime, question.pages, map).err()
}

fn session_harvest(question: &Question) -> Option<Refusal> {
    let lent = &mut memory()[..question.lent];
    let map = &mut vec![0; question.map];
    session(question).harvest(lent, question.pages, map).err()
}

fn start(question: &Question) -> Option<Refusal> {
    match StepwiseWalk::start(&question.regime, &question.access) {
        Step::Wants(_) => None,
        Step::Ended(ended) => {
            let answer = ended.settle(|_| panic!("no update is due"));
            answer.unwrap().err().and_then(vmsa::Stop::refusal)
        }
    }
}

/// A question to which these refusals apply.
fn spoilt(refusals: &[Refusal]) -> Question {
    let mut question = question();
    for refusal in refusals {
        let (.., change) = REFUSALS.iter().find(|(of, ..)| of == refusal).unwrap();
        change(&mut question);
    }
    question
}

#[test]
fn numbers() {
    let found = Refusal::ALL.iter().map(|of| (*of, of.number()));
    let expected = REFUSALS.iter().map(|&(of, number, _)| (of, number));
    assert_eq!(found.collect::<Vec<_>>(), expected.collect::<Vec<_>>());
}

#[test]
fn each_alone() {
    for (call, order) in ORDERS {
        assert_eq!(call(&question()), None);
        for &refusal in Refusal::ALL {
            let expected = order.contains(&refusal).then_some(refusal);
            assert_eq!(call(&spoilt(&[refusal])), expected, "{refusal:?}");
        }
    }
}

#[test]
fn the_first_of_two() {
    for (call, order) in ORDERS {
        for (place, &refusal) in order.iter().enumerate() {
            for &later in &order[place + 1..] {
                let given = call(&spoilt(&[later, refusal]));
                assert_eq!(given, Some(refusal), "{refusal:?}, {later:?}");
            }
        }
    }
}

#[test]
fn a_disabled_range_is_checked() {
    for (range, refusal) in [
        (Range::new(PhysAddr(0), 15), Refusal::Sizes),
        (Range::new(PhysAddr(8), 16), Refusal::Root),
    ] {
        let disabled = Range {
            disabled: true,
            ..range
        };
        for regime in [regime().range0(disabled), regime().range1(disabled)] {
            let question = Question {
                regime,
                ..question()
            };
            assert_eq!(walk(&question), Some(refusal));
            assert_eq!(set_regime(&question), Some(refusal));
            assert_eq!(harvest(&question), Some(refusal));
            assert_eq!(start(&question), Some(refusal));
        }
    }
}

#[test]
fn dirty_state() {
    for (ha, hd) in [(false, false), (false, true), (true, false), (true, true)] {
        let question = Question {
            regime: regime().ha(ha).hd(hd),
            ..question()
        };
        let expected = (hd && !ha).then_some(Refusal::DirtyState);
        assert_eq!(walk(&question), expected, "{ha}, {hd}");
        assert_eq!(set_regime(&question), expected, "{ha}, {hd}");
        assert_eq!(harvest(&question), expected, "{ha}, {hd}");
        assert_eq!(start(&question), expected, "{ha}, {hd}");
    }
}

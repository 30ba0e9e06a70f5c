//! The largest pool in the largest memory: walked, marked and harvested up to
//! its last descriptor, and no further, in both byte orders; one step more of
//! either is refused.

mod tables;

use tables::{get, harvest, put, regime, walk, Both, CLEAN, EXTERNAL_ABORT, POOL};
use vmsa::{
    Access, Answer, Granule, Pages, PhysAddr, Pool, Refusal, Regime, Session, Stop, VirtAddr,
    VirtPage, HARVEST_LIMIT, MEMORY_LIMIT, POOL_LIMIT,
};

/// Where the pool starts: with the memory, or so that both end together.
const STARTS: [usize; 2] = [0, MEMORY_LIMIT - POOL_LIMIT];

/// Physical address of the pool's end.
const END: u64 = POOL + POOL_LIMIT as u64;

/// An address whose leaf is the pool's last descriptor, and one whose leaf
/// would be the next, past the pool.
const LAST: VirtAddr = VirtAddr(0x5f_fabc);
const NEXT: VirtAddr = VirtAddr(0x60_0abc);

/// The leaf after a read, and after a write.
const READ: u64 = CLEAN | 1 << 10;
const DIRTY: u64 = READ & !(1 << 7);

fn read(address: VirtAddr) -> Access {
    Access::read(address, 4).el0()
}

fn write(address: VirtAddr) -> Access {
    Access::write(address, 4).el0()
}

/// A regime with a pool of so many bytes.
fn of(start: usize, length: usize) -> Regime {
    regime().pool(Pool::new(start, length, PhysAddr(POOL)))
}

/// The memory, and a page behind it that is not lent: tables in the pool, with
/// a leaf at its very end and one right behind it. Bytes of 0x5a are around
/// them, and make no valid descriptor.
fn room_of(start: usize) -> Vec<u8> {
    let mut room = vec![0x5a; MEMORY_LIMIT + 0x1000];
    put(&mut room, start, (POOL + 0x1000) | 3);
    put(&mut room, start + 0x1000, (POOL + 0x2000) | 3);
    put(&mut room, start + 0x2010, (END - 0x1000) | 3);
    put(&mut room, start + 0x2018, END | 3);
    put(&mut room, start + POOL_LIMIT - 8, CLEAN);
    put(&mut room, start + POOL_LIMIT, CLEAN);
    room
}

/// A success of 4 reads, and the marks that it makes.
fn found(answer: Answer, accessed: bool, dirtied: bool) {
    let found = answer.unwrap();
    assert_eq!((found.output.0, found.reads), (0x8000_5abc, 4));
    assert_eq!((found.accessed, found.dirtied), (accessed, dirtied));
}

fn abort(answer: Answer) {
    assert_eq!(answer, Err(Stop::Fault(EXTERNAL_ABORT)));
}

#[test]
fn largest_pool_walked() {
    for start in STARTS {
        let (mut room, mut expected) = (room_of(start), room_of(start));
        let last = start + POOL_LIMIT - 8;
        let mut ask = |access| walk(&mut room[..MEMORY_LIMIT], &of(start, POOL_LIMIT), &access);

        found(ask(read(LAST)), true, false);
        found(ask(write(LAST)), false, true);
        abort(ask(read(NEXT)));
        abort(ask(write(NEXT)));
        put(&mut expected, last, DIRTY);
        assert!(room == expected);
    }
}

#[test]
fn largest_pool_in_a_session() {
    for start in STARTS {
        let (mut room, mut expected) = (room_of(start), room_of(start));
        let last = start + POOL_LIMIT - 8;
        let lent = &mut room[..MEMORY_LIMIT];
        let mut session = Both::new();
        session.set_regime(lent, &of(start, POOL_LIMIT)).unwrap();

        found(session.access(lent, &read(LAST)), true, false);
        abort(session.access(lent, &write(NEXT)));
        assert_eq!(get(lent, last), READ);
        found(session.access(lent, &write(LAST)), false, true);
        assert_eq!(get(lent, last), DIRTY);
        session.store(lent, PhysAddr(END - 8), 0).unwrap();
        let past = session.store(lent, PhysAddr(END), 0);
        assert_eq!(past, Err(Refusal::StoreAddress));
        put(&mut expected, last, 0);
        assert!(room == expected);
    }
}

#[test]
fn largest_pool_harvested() {
    // As many pages as can be: the last leaf is among them, and the one past
    // the pool, which is as dirty, would be.
    let pages = Pages::new(VirtPage(0), HARVEST_LIMIT);
    let last = LAST.page(Granule::Kib4);
    for start in STARTS {
        let mut room = room_of(start);
        put(&mut room, start + POOL_LIMIT - 8, DIRTY);
        put(&mut room, start + POOL_LIMIT, DIRTY);
        let mut expected = room.clone();
        put(&mut expected, start + POOL_LIMIT - 8, READ);
        let mut map = vec![0x5a; pages.map_length() + 1];
        let lent = &mut room[..MEMORY_LIMIT];
        harvest(lent, &of(start, POOL_LIMIT), pages, &mut map).unwrap();
        assert!(pages.dirty(&map).eq([last]));
        assert_eq!(map.last(), Some(&0x5a));
        assert!(room == expected);

        let lent = &mut room[..MEMORY_LIMIT];
        let mut session = Both::new();
        session.set_regime(lent, &of(start, POOL_LIMIT)).unwrap();
        found(session.access(lent, &write(LAST)), false, true);
        session.harvest(lent, pages, &mut map).unwrap();
        assert!(pages.dirty(&map).eq([last]));
        assert!(room == expected);
    }
}

/// Refused with 1: a walk, a harvest, and a set regime.
fn refused(lent: &mut [u8], regime: &Regime) {
    let refusal = Refusal::MemoryPool;
    let answer = walk(lent, regime, &read(LAST));
    assert_eq!(answer, Err(Stop::Refused(refusal)));
    let pages = Pages::new(VirtPage(0), 8);
    assert_eq!(harvest(lent, regime, pages, &mut [0]), Err(refusal));
    let mut session = Session::new();
    assert_eq!(session.set_regime(lent, regime), Err(refusal));
    assert_eq!(session, Session::new());
}

#[test]
fn one_byte_more_of_memory() {
    let mut room = room_of(0);
    let regime = of(0, POOL_LIMIT);
    let refusal = Refusal::MemoryPool;
    let mut session = Session::new();
    session.set_regime(&room[..MEMORY_LIMIT], &regime).unwrap();
    let before = session.clone();

    let long = &mut room[..MEMORY_LIMIT + 1];
    refused(long, &regime);
    let answer = session.access(long, &read(LAST));
    assert_eq!(answer, Err(Stop::Refused(refusal)));
    assert_eq!(session.store(long, PhysAddr(POOL), 0), Err(refusal));
    let pages = Pages::new(VirtPage(0), 8);
    assert_eq!(session.harvest(long, pages, &mut [0]), Err(refusal));
    assert_eq!(session, before);
    assert!(room == room_of(0));
}

#[test]
fn one_page_more_of_pool() {
    let mut room = room_of(0);
    for granule in Granule::ALL {
        let longer = of(0, POOL_LIMIT + granule.bytes() as usize);
        refused(&mut room[..MEMORY_LIMIT], &longer.granule(granule));
    }
    assert!(room == room_of(0));
}

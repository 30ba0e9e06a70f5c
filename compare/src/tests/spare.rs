//! Spare bytes, and the bits of an entry's `tables` that have no say: honest
//! functions pass, and each slip is told.

use super::{access, start};
use crate::boundary::{
    CAccess, CAnswer, CEntry, CRegime, CSession, Library, LibrarySession, SessionFunctions,
    Spelling, Subject, SUM_BITS,
};
use crate::geometry::Granule;
use crate::harvest::{Fill, Harvest};
use crate::random::Random;
use crate::reference::{Kind, Regime, AP_TABLE_1, PXN_TABLE};
use crate::session::{Call, PLACES};
use std::collections::BTreeSet;
use std::mem::offset_of;

const NOISY: Spelling = Spelling {
    noise: 0x1234_5678,
    ..Spelling::PLAIN
};

const EMPTY: CEntry = CEntry {
    page: 0,
    value: 0,
    left: 0,
    held: 0,
    tables: 0,
    spare: [0; 5],
};

// Offsets in a session.
const REGIME_SPARE: usize = offset_of!(CRegime, spare);
const TABLES: usize = offset_of!(CEntry, tables);
const ENTRY_SPARE: usize = offset_of!(CEntry, spare);

/// Where an entry begins.
fn entry(place: usize) -> usize {
    offset_of!(CSession, entries) + place * size_of::<CEntry>()
}

// Functions that keep to the spare bytes, and to little else.

/// A session with this regime and empty entries.
fn set_session(regime: CRegime) -> CSession {
    CSession {
        regime,
        entries: [EMPTY; PLACES],
        set: 1,
        spare: [0; 7],
    }
}

unsafe extern "C" fn empty(session: *mut CSession) {
    *session = CSession {
        regime: Spelling::PLAIN.regime(&start().1),
        entries: [EMPTY; PLACES],
        set: 0,
        spare: [0; 7],
    };
    (*session).regime.spare = [0; 4];
}

unsafe extern "C" fn set(
    session: *mut CSession,
    _: *const u8,
    length: usize,
    regime: *const CRegime,
) -> u8 {
    if length == 0 {
        return 1;
    }
    empty(session);
    (*session).regime.root0 = (*regime).root0;
    0
}

unsafe extern "C" fn fill(
    session: *mut CSession,
    _: *mut u8,
    _: usize,
    _: *const CAccess,
    answer: *mut CAnswer,
) {
    (*session).entries[3] = CEntry { held: 1, ..EMPTY };
    *answer = CAnswer {
        cacheable: 1,
        reads: 4,
        ..CAnswer::default()
    };
}

unsafe extern "C" fn store(_: *mut CSession, _: *mut u8, _: usize, _: u64, _: u64) -> u8 {
    0
}

unsafe extern "C" fn drop_all(session: *mut CSession) {
    (*session).entries = [EMPTY; PLACES];
}

unsafe extern "C" fn reap(
    session: *mut CSession,
    _: *mut u8,
    length: usize,
    _: u64,
    _: u64,
    _: *mut u8,
    _: usize,
) -> u8 {
    if length == 0 {
        return 1;
    }
    drop_all(session);
    0
}

const HONEST: SessionFunctions = SessionFunctions {
    empty,
    set_regime: set,
    access: fill,
    store,
    invalidate_all: drop_all,
    harvest: reap,
};

// And one slip each.

unsafe extern "C" fn empty_but_one_byte(session: *mut CSession) {
    let old = (*session).entries[63].held;
    empty(session);
    (*session).entries[63].held = old;
}

unsafe extern "C" fn set_spare(
    session: *mut CSession,
    _: *const u8,
    _: usize,
    regime: *const CRegime,
) -> u8 {
    empty(session);
    (*session).regime = *regime;
    0
}

unsafe extern "C" fn set_as_spelled(
    session: *mut CSession,
    _: *const u8,
    _: usize,
    regime: *const CRegime,
) -> u8 {
    empty(session);
    (*session).regime = *regime;
    (*session).regime.spare = [0; 4];
    0
}

unsafe extern "C" fn clear_refused(
    session: *mut CSession,
    _: *const u8,
    _: usize,
    _: *const CRegime,
) -> u8 {
    (*session).spare = [0; 7];
    3
}

unsafe extern "C" fn keep_spare(
    session: *mut CSession,
    _: *mut u8,
    _: usize,
    _: *const CAccess,
    answer: *mut CAnswer,
) {
    (*session).entries[3].tables = SUM_BITS;
    (*answer).cacheable = 1;
    (*answer).reads = 4;
}

unsafe extern "C" fn keep_idle_bits(
    session: *mut CSession,
    _: *mut u8,
    _: usize,
    _: *const CAccess,
    answer: *mut CAnswer,
) {
    let tables = (*session).entries[3].tables;
    (*session).entries[3] = CEntry { tables, ..EMPTY };
    (*answer).cacheable = 1;
    (*answer).reads = 4;
}

unsafe extern "C" fn fill_on_a_hit(
    session: *mut CSession,
    _: *mut u8,
    _: usize,
    _: *const CAccess,
    answer: *mut CAnswer,
) {
    (*session).entries[3] = EMPTY;
    (*answer).reads = 0;
}

unsafe extern "C" fn clear_in_store(
    session: *mut CSession,
    _: *mut u8,
    _: usize,
    _: u64,
    _: u64,
) -> u8 {
    (*session).entries[0].spare = [0; 5];
    0
}

unsafe extern "C" fn clear_idle_bits_in_store(
    session: *mut CSession,
    _: *mut u8,
    _: usize,
    _: u64,
    _: u64,
) -> u8 {
    (*session).entries[0].tables &= SUM_BITS;
    0
}

unsafe extern "C" fn drop_all_and_more(session: *mut CSession) {
    drop_all(session);
    (*session).regime.spare = [0; 4];
}

unsafe extern "C" fn reap_but_one(
    session: *mut CSession,
    _: *mut u8,
    _: usize,
    _: u64,
    _: u64,
    _: *mut u8,
    _: usize,
) -> u8 {
    let page = (*session).entries[63].page | 1;
    drop_all(session);
    (*session).entries[63].page = page;
    0
}

unsafe extern "C" fn reap_and_more(
    session: *mut CSession,
    _: *mut u8,
    _: usize,
    _: u64,
    _: u64,
    _: *mut u8,
    _: usize,
) -> u8 {
    drop_all(session);
    (*session).spare = [0; 7];
    0
}

unsafe extern "C" fn empty_refused(
    session: *mut CSession,
    _: *mut u8,
    _: usize,
    _: u64,
    _: u64,
    _: *mut u8,
    _: usize,
) -> u8 {
    drop_all(session);
    10
}

unsafe extern "C" fn answer_but_spare(
    _: *mut u8,
    _: usize,
    _: *const CRegime,
    _: *const CAccess,
    answer: *mut CAnswer,
) {
    let spare = (*answer).spare;
    *answer = CAnswer {
        spare,
        ..CAnswer::default()
    };
}

/// The first wrong byte of the session after a call.
fn wrong(functions: SessionFunctions, call: Call, lent: usize) -> Option<String> {
    // SAFETY: the functions above write what they are lent to write alone.
    let mut session = unsafe { LibrarySession::fresh(functions, 7) }.unwrap();
    let mut map = call.map();
    let reply = session.call(&mut vec![0; lent], &mut map, &call, NOISY);
    let words = session.wrong_bytes(&call, &reply)?;
    Some(words.split(" of").next().unwrap_or_default().to_string())
}

fn tells(functions: SessionFunctions, call: Call, byte: usize) {
    let told = wrong(functions, call, 4096);
    assert_eq!(told, Some(format!("byte {byte}")), "{call:?}");
}

const STORE: Call = Call::Store {
    address: 0,
    value: 0,
};

const HARVEST: Call = Call::Harvest(Harvest {
    first: 0,
    count: 8,
    room: 1,
    fill: Fill::Byte(0),
});

/// The place of its page is the fourth.
fn read() -> Call {
    Call::Access(access(Kind::Read))
}

#[test]
fn honest_functions_pass() {
    let set = Call::SetRegime(start().1);
    for call in [set, read(), STORE, Call::DropAll, HARVEST] {
        for lent in [0, 4096] {
            assert_eq!(wrong(HONEST, call, lent), None, "{call:?}");
        }
    }
}

#[test]
fn an_unwritten_byte_is_told() {
    // SAFETY: as above.
    let fresh = |empty| unsafe { LibrarySession::fresh(SessionFunctions { empty, ..HONEST }, 7) };
    assert!(fresh(empty).is_ok());
    assert!(fresh(empty_but_one_byte).is_err());

    // SAFETY: as above.
    let library = unsafe { Library::new(answer_but_spare) };
    let (mut memory, regime) = start();
    let answer = library.walk(&mut memory, &regime, &access(Kind::Read), NOISY);
    assert_ne!(answer, CAnswer::default());
}

#[test]
fn slips_of_a_set_regime_are_told() {
    let call = Call::SetRegime(start().1);
    let with = |set_regime| SessionFunctions {
        set_regime,
        ..HONEST
    };
    tells(with(set_spare), call, REGIME_SPARE);
    tells(with(clear_refused), call, offset_of!(CSession, spare));
}

#[test]
fn numbers_kept_as_they_were_spelled_are_told() {
    let functions = SessionFunctions {
        set_regime: set_as_spelled,
        ..HONEST
    };
    let call = Call::SetRegime(start().1);
    let told = |spelling| {
        // SAFETY: as above.
        let mut session = unsafe { LibrarySession::fresh(functions, 7) }.unwrap();
        let reply = session.call(&mut [0; 4096], &mut [], &call, spelling);
        session.wrong_bytes(&call, &reply)
    };
    assert_eq!(told(NOISY), None);
    for kib_4 in 3..=0xFF {
        assert!(told(Spelling { kib_4, ..NOISY }).is_some());
        let truth = kib_4;
        assert!(told(Spelling { truth, ..NOISY }).is_some());
    }
}

#[test]
fn slips_of_an_access_are_told() {
    let with = |access| SessionFunctions { access, ..HONEST };
    tells(with(keep_spare), read(), entry(3) + ENTRY_SPARE);
    tells(with(keep_idle_bits), read(), entry(3) + TABLES);
    tells(with(fill_on_a_hit), read(), entry(3) + TABLES);
}

#[test]
fn slips_of_the_others_are_told() {
    let with = |store| SessionFunctions { store, ..HONEST };
    tells(with(clear_in_store), STORE, entry(0) + ENTRY_SPARE);
    tells(with(clear_idle_bits_in_store), STORE, entry(0) + TABLES);
    let invalidate_all = drop_all_and_more;
    let functions = SessionFunctions {
        invalidate_all,
        ..HONEST
    };
    tells(functions, Call::DropAll, REGIME_SPARE);
}

#[test]
fn slips_of_a_harvest_are_told() {
    let with = |harvest| SessionFunctions { harvest, ..HONEST };
    tells(with(reap_but_one), HARVEST, entry(63));
    tells(with(reap_and_more), HARVEST, offset_of!(CSession, spare));
    tells(with(empty_refused), HARVEST, entry(0) + TABLES);
}

#[test]
fn the_offsets_are_those_of_the_interface() {
    assert_eq!(offset_of!(CRegime, hpd0), 56);
    assert_eq!(offset_of!(CRegime, hpd1), 57);
    assert_eq!(offset_of!(CRegime, ee), 58);
    assert_eq!(offset_of!(CRegime, granule), 59);
    assert_eq!(REGIME_SPARE, 60);
    assert_eq!(size_of::<CRegime>() - REGIME_SPARE, 4);
    assert_eq!((TABLES, ENTRY_SPARE), (18, 19));
    assert_eq!(entry(1), 64 + 24);
}

#[test]
fn spare_bytes_say_nothing() {
    let (_, regime) = start();
    assert_eq!(NOISY.regime(&regime).read(), regime);
    let held = CEntry {
        page: 0x403,
        held: 0x80,
        tables: 0x88,
        ..EMPTY
    };
    let said = held.read().unwrap();
    assert_eq!((said.page, said.leaf.level), (0x403, 3));
    assert_eq!(said.leaf.taken, 1 << AP_TABLE_1);
    let other = CEntry {
        tables: 0x78,
        spare: [1; 5],
        ..held
    };
    assert_eq!(other.read(), Some(said));
    // A leaf at no level; and one that is not held.
    assert_eq!(CEntry { left: 4, ..held }.read(), None);
    assert_eq!(CEntry { held: 0, ..held }.read(), None);
}

/// Any byte but 0 says EE, alone and in a session; and no spare byte does.
#[test]
fn any_byte_but_0_says_ee() {
    let (_, regime) = start();
    let mut words = Spelling::PLAIN.regime(&regime);
    words.spare = [0xFF; 4];
    for byte in 0..=0xFF {
        words.ee = byte;
        let ee = byte != 0;
        assert_eq!(words.read(), Regime { ee, ..regime }, "{byte}");
        let session = set_session(words);
        assert_eq!(session.read().regime, Some(Regime { ee, ..regime }));
    }
    for truth in 1..=0xFF {
        let odd = Spelling { truth, ..NOISY };
        assert_eq!(odd.regime(&regime).ee, 0);
        let with_ee = Regime { ee: true, ..regime };
        assert_eq!(odd.regime(&with_ee).ee, truth);
        assert_eq!(odd.regime(&with_ee).read(), with_ee);
    }
}

/// 1 says 64 KiB, 2 says 16 KiB, any other byte 4 KiB; and no spare byte has
/// a say.
#[test]
fn every_byte_says_a_granule() {
    let (_, regime) = start();
    let mut words = NOISY.regime(&regime);
    words.spare = [2; 4];
    for byte in 0..=0xFF {
        words.granule = byte;
        let granule = match byte {
            1 => Granule::Kib64,
            2 => Granule::Kib16,
            _ => Granule::Kib4,
        };
        assert_eq!(words.read(), Regime { granule, ..regime }, "{byte}");
        let odd = Spelling {
            kib_4: byte,
            ..NOISY
        };
        if granule == Granule::Kib4 {
            assert_eq!(odd.regime(&regime).granule, byte);
            assert_eq!(odd.regime(&regime).read(), regime);
        }
        let others = [(Granule::Kib16, 2), (Granule::Kib64, 1)];
        for (granule, number) in others {
            let larger = Regime { granule, ..regime };
            assert_eq!(odd.regime(&larger).granule, number);
        }
    }
}

/// No byte above 2 is left out, and none of those below says 4 KiB.
#[test]
fn bytes_that_are_drawn_for_4_kib() {
    let mut random = Random::new(1);
    let drawn = (0..20_000).map(|_| Spelling::draw(&mut random).kib_4);
    let drawn: BTreeSet<u8> = drawn.collect();
    let wanted: BTreeSet<u8> = (0..=0xFF).filter(|byte| ![1, 2].contains(byte)).collect();
    assert_eq!(drawn, wanted);
}

#[test]
fn another_meaning_is_told() {
    // SAFETY: as above.
    let mut session = unsafe { LibrarySession::fresh(HONEST, 7) }.unwrap();
    let mut bytes = set_session(NOISY.regime(&start().1));
    bytes.entries[3].held = 1;
    let wanted = bytes.read();
    for tables in 0..=0xFF {
        bytes.entries[3].tables = tables;
        session.put(&bytes);
        let told = session.wrong_session(&wanted);
        assert_eq!(
            told.is_some(),
            tables & SUM_BITS != 0,
            "{tables:#x}: {told:?}"
        );
    }
    bytes.entries[3].tables = 1;
    assert_eq!(bytes.read().places[3].unwrap().leaf.taken, 1 << PXN_TABLE);
    bytes.regime.hpd1 = 2;
    assert!(bytes.read().regime.unwrap().ranges[1].hpd);
    session.put(&bytes);
    let told = session.wrong_session(&wanted).unwrap();
    assert!(told.contains("regime"), "{told}");
    bytes.regime.hpd1 = 0;
    bytes.regime.ee = 0x80;
    session.put(&bytes);
    let told = session.wrong_session(&wanted).unwrap();
    assert!(told.contains("regime"), "{told}");
}

#[test]
fn another_granule_is_told() {
    // SAFETY: as above.
    let mut session = unsafe { LibrarySession::fresh(HONEST, 7) }.unwrap();
    let mut bytes = set_session(NOISY.regime(&start().1));
    let wanted = bytes.read();
    for (granule, differs) in [(3, false), (1, true), (2, true)] {
        bytes.regime.granule = granule;
        session.put(&bytes);
        let told = session.wrong_session(&wanted);
        assert_eq!(told.is_some(), differs, "{granule}: {told:?}");
    }
}

//! Rule 3 on short lists: honest ones keep it, forged ones break it.

use super::{access, start};
use crate::boundary::{plain_answer, CAnswer, CSession, Reply, Spelling, Subject};
use crate::harvest::{Fill, Harvest};
use crate::reference::{Access, Kind, Regime};
use crate::rule3::{Class, History};
use crate::scripts::{run_all, Tally};
use crate::session::{Call, Session};

/// The reference's session in the library's form.
#[derive(Clone)]
struct Mirror(Session);

impl Subject for Mirror {
    fn set_regime(&mut self, memory: &mut [u8], regime: &Regime, _: Spelling) -> u8 {
        self.0.set_regime(memory.len(), regime).unwrap_or(0)
    }

    fn access(&mut self, memory: &mut [u8], access: &Access, _: Spelling) -> CAnswer {
        plain_answer(&self.0.access(memory, access).0)
    }

    fn store(&mut self, memory: &mut [u8], address: u64, value: u64) -> u8 {
        self.0.store(memory, address, value).unwrap_or(0)
    }

    fn invalidate_all(&mut self) {
        self.0.drop_all();
    }

    fn harvest(&mut self, memory: &mut [u8], asked: &Harvest, map: &mut [u8]) -> u8 {
        self.0.harvest(memory, asked, map).unwrap_or(0)
    }

    fn put(&mut self, bytes: &CSession) {
        self.0 = bytes.read();
    }
}

struct List {
    session: Mirror,
    memory: Vec<u8>,
    history: History,
}

impl List {
    /// The regime of the worked cases is set and page 0x403 was read.
    fn new() -> Self {
        let (memory, regime) = start();
        let mut list = List {
            session: Mirror(Session::FRESH),
            history: History::new(&memory),
            memory,
        };
        list.call(Call::SetRegime(regime));
        list.read();
        list
    }

    /// An honest call, which must keep the rule.
    fn call(&mut self, call: Call) -> CAnswer {
        let mut map = call.map();
        let memory = &mut self.memory;
        let reply = self.session.call(memory, &mut map, &call, Spelling::PLAIN);
        let broken = self.record_with(call, reply, &map);
        assert_eq!(broken, [""; 0]);
        match reply {
            Reply::Answered(answer) => answer,
            _ => CAnswer::default(),
        }
    }

    fn read(&mut self) -> CAnswer {
        self.call(Call::Access(access(Kind::Read)))
    }

    /// Any reply at all, over the memory as it is; what it breaks. A map stays
    /// as it was lent.
    fn record(&mut self, call: Call, reply: Reply) -> Vec<String> {
        self.record_with(call, reply, &call.map())
    }

    /// The same with any map.
    fn record_with(&mut self, call: Call, reply: Reply, map: &[u8]) -> Vec<String> {
        let lent = self.memory.len();
        self.history.record(call, reply, lent, &self.memory, map);
        let at = self.history.events().len() - 1;
        self.history.check(at).err().unwrap_or_default()
    }

    /// A forged answer to the read.
    fn forge(&mut self, answer: CAnswer) -> Vec<String> {
        self.record(Call::Access(access(Kind::Read)), Reply::Answered(answer))
    }

    fn class(&self, access: &Access) -> Option<Class> {
        let mut memory = self.memory.clone();
        let promise = self.history.whole().promise(access, &mut memory);
        promise.ok().flatten().map(|(class, _)| class)
    }
}

fn write() -> Access {
    access(Kind::Write)
}

fn beside() -> Access {
    Access {
        address: 0x44_3ABC,
        ..access(Kind::Read)
    }
}

#[test]
fn a_hit_must_count_nothing() {
    let mut list = List::new();
    let hit = list.read();
    assert_eq!(hit.reads, 0);
    for reads in 1..=4 {
        let broken = list.forge(CAnswer { reads, ..hit });
        assert_eq!(broken.len(), 1, "{broken:?}");
        assert!(broken[0].contains("second half, OneAnswer"), "{broken:?}");
    }
}

#[test]
fn an_emptied_place_must_count() {
    let mut list = List::new();
    let hit = list.read();
    list.call(Call::DropAll);
    let broken = list.forge(hit);
    assert!(broken[0].contains("second half, Nothing"), "{broken:?}");
}

#[test]
fn another_page_takes_the_place() {
    let mut list = List::new();
    let hit = list.read();
    list.call(Call::Store {
        address: 0x4000_3218,
        value: 0x8000_97C3,
    });
    assert_eq!(list.class(&beside()), Some(Class::OtherPage));
    assert_eq!(list.class(&write()), Some(Class::DirtyMark));
    list.call(Call::Access(beside()));
    assert_eq!(list.class(&beside()), Some(Class::OneAnswer));
    assert_eq!(list.class(&access(Kind::Read)), Some(Class::OtherPage));
    let broken = list.forge(hit);
    assert!(broken[0].contains("second half, OtherPage"), "{broken:?}");
}

#[test]
fn the_first_half_knows_a_repeated_answer() {
    let mut list = List::new();
    let hit = list.read();
    let elsewhere = Call::Access(Access {
        address: 0x40_3AC0,
        ..access(Kind::Read)
    });
    let broken = list.record(elsewhere, Reply::Answered(hit));
    assert!(broken[0].contains("first half"), "{broken:?}");
}

#[test]
fn after_a_store_the_one_answer_stays() {
    let mut list = List::new();
    list.call(Call::Store {
        address: 0x4000_3018,
        value: 0x8000_97C3,
    });
    let old = list.read();
    assert_eq!((old.output, old.reads), (0x8000_5ABC, 0));
    let new = CAnswer {
        output: 0x8000_9ABC,
        reads: 4,
        ..old
    };
    let broken = list.forge(new);
    assert!(broken[0].contains("second half, OneAnswer"), "{broken:?}");
}

#[test]
fn a_refused_regime_changes_nothing() {
    let mut list = List::new();
    let (_, mut regime) = start();
    regime.ha = false;
    list.call(Call::SetRegime(regime));
    assert!(!list.history.events()[2].is_accepted());
    assert_eq!(list.class(&write()), Some(Class::DirtyMark));
    assert_eq!(list.read().reads, 0);
    for number in [0, 5, 6] {
        let broken = list.record(Call::SetRegime(regime), Reply::Changed(number));
        assert_eq!(broken, ["rule 3: set regime is refused wrongly"]);
    }
}

#[test]
fn bytes_that_were_not_promised() {
    // A store that stores nothing.
    let mut list = List::new();
    let store = Call::Store {
        address: 0x4000_3018,
        value: 0,
    };
    let broken = list.record(store, Reply::Changed(0));
    assert_eq!(broken, ["rule 3: other bytes are promised"]);
    // A write without its mark.
    let mut list = List::new();
    let answer = list.call(Call::Access(write()));
    let mut list = List::new();
    let broken = list.record(Call::Access(write()), Reply::Answered(answer));
    assert_eq!(broken.len(), 2, "{broken:?}");
    // A drop that writes.
    let mut list = List::new();
    list.memory[0] ^= 1;
    let broken = list.record(Call::DropAll, Reply::Dropped);
    assert_eq!(broken, ["rule 3: other bytes are promised"]);
}

/// Of page 0x403 and those around it, with room for 24 pages.
fn harvest(first: u64, count: u64) -> Call {
    Call::Harvest(Harvest {
        first,
        count,
        room: 3,
        fill: Fill::Byte(0xFF),
    })
}

#[test]
fn a_harvest_is_an_emptying() {
    let mut list = List::new();
    let hit = list.read();
    list.call(Call::Access(write()));
    list.call(harvest(0x3F8, 24));
    assert_eq!(list.class(&access(Kind::Read)), Some(Class::Nothing));
    let broken = list.forge(hit);
    assert!(broken[0].contains("second half, Nothing"), "{broken:?}");
    // A refused one is none.
    let mut list = List::new();
    list.call(harvest(0x3F8, 25));
    assert_eq!(list.class(&access(Kind::Read)), Some(Class::OneAnswer));
}

#[test]
fn a_harvest_is_its_own_drop() {
    let mut list = List::new();
    let hit = list.read();
    list.call(Call::Store {
        address: 0x4000_3018,
        value: 0x8000_97C3,
    });
    list.call(harvest(0x3F8, 24));
    let broken = list.forge(hit);
    let wanted = "rule 3: first half: not the plain walk's answer";
    assert_eq!(broken[0], wanted, "{broken:?}");
}

#[test]
fn forged_harvests_are_told() {
    let told = |count, number, map: [u8; 3]| {
        let mut list = List::new();
        list.call(Call::Access(write()));
        list.record_with(harvest(0x3F8, count), Reply::Changed(number), &map)
    };
    let (bytes, map) = (
        "rule 3: other bytes are promised",
        "rule 3: another map is promised",
    );
    // The map is right, and the leaf was not set again.
    assert_eq!(told(12, 0, [0, 8, 0xFF]), [bytes]);
    let lost = "rule 3: a written page is not reported";
    assert_eq!(told(12, 0, [0, 0, 0xFF]), [lost, map, bytes]);
    assert_eq!(told(12, 0, [0, 8, 0]), [map, bytes]);
    let refused = "rule 3: a harvest is refused wrongly";
    assert_eq!(told(12, 10, [0xFF; 3]), [refused, map, bytes]);
    assert_eq!(told(25, 10, [0xFF; 3]), [refused]);
    assert_eq!(told(25, 11, [0xFF; 3]), [""; 0]);
    assert_eq!(told(25, 11, [0xFF, 0xFF, 0]), [map]);
}

/// What a harvest of this moment must report.
fn owed(list: &List) -> usize {
    let Call::Harvest(asked) = harvest(0x3F8, 24) else {
        panic!("no harvest")
    };
    list.history.whole().owed(&asked).len()
}

#[test]
fn written_pages_are_owed() {
    let mut list = List::new();
    assert_eq!(owed(&list), 0);
    list.call(Call::Access(write()));
    assert_eq!(owed(&list), 1);
    list.call(Call::DropAll);
    list.call(harvest(0x3F8, 25));
    assert_eq!(owed(&list), 1);
    // Once it was reported, or after a store, nothing is promised.
    list.call(harvest(0x3F8, 24));
    assert_eq!(owed(&list), 0);
    list.call(Call::Access(write()));
    assert_eq!(owed(&list), 1);
    list.call(Call::Store {
        address: 0x4000_0008,
        value: 0,
    });
    assert_eq!(owed(&list), 0);
    list.call(Call::Access(write()));
    assert_eq!(owed(&list), 0);
    list.call(Call::DropAll);
    list.call(Call::Access(write()));
    assert_eq!(owed(&list), 1);
}

#[test]
fn nothing_is_remembered_without_a_walk() {
    let mut list = List::new();
    let hit = list.read();
    list.call(Call::DropAll);
    list.forge(hit);
    let broken = list.forge(hit);
    assert!(broken[0].contains("never walked"), "{broken:?}");
}

#[test]
fn scripts_meet_all_that_can_occur() {
    let mut tally = Tally::default();
    let played = run_all(1, false, |_| Ok(Mirror(Session::FRESH)), &mut tally);
    played.unwrap_or_else(|difference| panic!("{difference}"));
    assert_eq!(tally.missing(), []);
    assert_eq!(tally.strangers(), []);
}

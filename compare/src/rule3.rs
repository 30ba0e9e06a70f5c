//! Rule 3 (RULES 11) as a claim about a list of calls and replies. Nothing
//! here looks into a session: what it remembers is read off its replies.

use crate::boundary::{plain_answer, CAnswer, Reply, REFUSED, SUCCESS};
use crate::geometry::Granule;
use crate::harvest::{harvest_on, Harvest};
use crate::reference::{bit, look, offset_in_memory, walk, write_descriptor, Access, Regime, DBM};
use crate::refusals;
use crate::session::{page_of, place_of, Call};

/// A call, its reply, and the memory before and after it.
#[derive(Clone, Copy, Debug)]
pub struct Event {
    pub call: Call,
    pub reply: Reply,
    /// How many bytes of the memory were lent, from its first on.
    pub lent: usize,
    found: usize,
    left: usize,
}

impl Event {
    pub fn is_accepted(&self) -> bool {
        match self.reply {
            Reply::Changed(number) => number == 0,
            Reply::Answered(answer) => answer.tag != REFUSED,
            Reply::Dropped => true,
        }
    }

    pub fn is_accepted_store(&self) -> bool {
        matches!(self.call, Call::Store { .. }) && self.is_accepted()
    }

    pub fn is_accepted_harvest(&self) -> bool {
        matches!(self.call, Call::Harvest(_)) && self.is_accepted()
    }

    /// An accepted set regime or harvest, or a drop all.
    pub fn is_emptying(&self) -> bool {
        match self.call {
            Call::SetRegime(_) | Call::Harvest(_) => self.is_accepted(),
            Call::DropAll => true,
            _ => false,
        }
    }

    /// The address and the count of an access that may be remembered.
    pub fn rememberable(&self) -> Option<(u64, u8)> {
        match (self.call, self.reply) {
            (Call::Access(access), Reply::Answered(answer)) if answer.cacheable != 0 => {
                Some((access.address, answer.reads))
            }
            _ => None,
        }
    }
}

/// What the second half (RULES 11.3) says of a new access.
#[derive(Clone, Copy, Debug, PartialEq, Eq, PartialOrd, Ord)]
pub enum Class {
    /// Refused with 9.
    NoRegime,
    /// The page was the last: one answer, whatever the memory holds.
    OneAnswer,
    /// The page was the last, but that answer would make a dirty mark.
    DirtyMark,
    /// The last rememberable access at the place was of another page.
    OtherPage,
    /// There was none since the last emptying.
    Nothing,
}

/// What `check` had to say of an access.
#[derive(Clone, Copy, Debug, Default)]
pub struct Checked {
    /// The first half spoke of it.
    pub first_half: bool,
    pub class: Option<Class>,
}

/// The list so far.
pub struct History {
    events: Vec<Event>,
    /// The memory at first, and after each change of it.
    memories: Vec<Vec<u8>>,
    /// For each event the map that it left, where it had one.
    maps: Vec<Vec<u8>>,
}

impl History {
    pub fn new(memory: &[u8]) -> Self {
        History {
            events: Vec::new(),
            memories: vec![memory.to_vec()],
            maps: Vec::new(),
        }
    }

    pub fn events(&self) -> &[Event] {
        &self.events
    }

    /// Puts a call on the list, with memory and map as they were left.
    pub fn record(&mut self, call: Call, reply: Reply, lent: usize, memory: &[u8], map: &[u8]) {
        let found = self.memories.len() - 1;
        if self.memories[found] != memory {
            self.memories.push(memory.to_vec());
        }
        self.events.push(Event {
            call,
            reply,
            lent,
            found,
            left: self.memories.len() - 1,
        });
        self.maps.push(map.to_vec());
    }

    /// The memory as an event found it.
    pub fn found(&self, event: &Event) -> &[u8] {
        &self.memories[event.found]
    }

    /// The memory as an event left it.
    pub fn left(&self, event: &Event) -> &[u8] {
        &self.memories[event.left]
    }

    /// All that came before an event, or the whole list.
    pub fn before(&self, at: usize) -> Past<'_> {
        Past {
            history: self,
            events: &self.events[..at],
        }
    }

    pub fn whole(&self) -> Past<'_> {
        self.before(self.events.len())
    }

    /// Rule 3 for one event, by those before it. Says all that is broken.
    pub fn check(&self, at: usize) -> Result<Checked, Vec<String>> {
        let event = &self.events[at];
        let mut check = Check {
            past: self.before(at),
            event,
            left: self.left(event),
            map: &self.maps[at],
            memory: self.found(event).to_vec(),
            checked: Checked::default(),
            broken: Vec::new(),
        };
        match (event.call, event.reply) {
            (Call::SetRegime(regime), Reply::Changed(number)) => {
                let wanted = refusals::of_set_regime(event.lent, &regime).unwrap_or(0);
                check.demand(number == wanted, "set regime is refused wrongly");
            }
            (Call::Store { address, value }, Reply::Changed(number)) => {
                check.store(address, value, number);
            }
            (Call::DropAll, Reply::Dropped) => {}
            (Call::Access(access), Reply::Answered(answer)) => check.access(&access, answer),
            (Call::Harvest(asked), Reply::Changed(number)) => check.harvest(&asked, number),
            _ => check.demand(false, "the reply is one to another call"),
        }
        check.demand(check.left == check.memory, "other bytes are promised");
        if check.broken.is_empty() {
            Ok(check.checked)
        } else {
            Err(check.broken)
        }
    }
}

/// The check of one event.
struct Check<'a> {
    past: Past<'a>,
    event: &'a Event,
    /// The memory and the map as the event left them.
    left: &'a [u8],
    map: &'a [u8],
    /// The memory as the event found it; then as it must leave it.
    memory: Vec<u8>,
    checked: Checked,
    broken: Vec<String>,
}

impl Check<'_> {
    fn demand(&mut self, holds: bool, words: &str) {
        if !holds {
            self.broken.push(format!("rule 3: {words}"));
        }
    }

    fn store(&mut self, address: u64, value: u64, number: u8) {
        let regime = self.past.regime();
        let wanted = refusals::of_store(self.event.lent, regime.as_ref(), address).unwrap_or(0);
        self.demand(number == wanted, "a store is refused wrongly");
        if let (0, Some(regime)) = (number, regime) {
            match offset_in_memory(&regime.pool, address) {
                Some(at) => write_descriptor(&mut self.memory, at, value, regime.ee),
                None => self.demand(false, "a store beside the pool is accepted"),
            }
        }
    }

    fn access(&mut self, access: &Access, answer: CAnswer) {
        let lent = self.event.lent;
        if let Some((wanted, bytes)) = self.past.first_half(access, &self.memory, lent) {
            self.checked.first_half = true;
            let without_count = CAnswer { reads: 0, ..answer };
            self.demand(
                without_count == wanted,
                "first half: not the plain walk's answer",
            );
            self.demand(self.left == bytes, "first half: not the plain walk's bytes");
        }
        match self.past.promise(access, &mut self.memory[..lent]) {
            Ok(Some((class, wanted))) => {
                self.checked.class = Some(class);
                let words = format!("second half, {class:?}: another answer is promised");
                self.demand(answer == wanted, &words);
            }
            // Its bytes are not promised either.
            Ok(None) => self.memory.copy_from_slice(self.left),
            Err(words) => self.demand(false, words),
        }
        self.demand(
            answer.tag != REFUSED || self.event.found == self.event.left,
            "a refused access changed the memory",
        );
    }

    fn harvest(&mut self, asked: &Harvest, number: u8) {
        let (regime, lent) = (self.past.regime(), self.event.lent);
        let refusal = refusals::of_session_harvest(lent, regime.as_ref(), asked);
        self.demand(
            number == refusal.unwrap_or(0),
            "a harvest is refused wrongly",
        );
        let mut map = asked.map();
        if let (None, Some(regime)) = (refusal, regime) {
            harvest_on(&mut self.memory[..lent], &regime, asked, &mut map);
            let is_told = |(page, _): &(u64, usize)| {
                let number = (page - asked.first) as usize;
                self.map[number / 8] >> (number % 8) & 1 == 1
            };
            let all_told = self.past.owed(asked).iter().all(is_told);
            self.demand(all_told, "a written page is not reported");
        }
        self.demand(self.map == map, "another map is promised");
    }
}

/// The list up to a moment.
#[derive(Clone, Copy)]
pub struct Past<'a> {
    history: &'a History,
    events: &'a [Event],
}

impl<'a> Past<'a> {
    /// The regime last accepted.
    pub fn regime(&self) -> Option<Regime> {
        self.events.iter().rev().find_map(|event| match event.call {
            Call::SetRegime(regime) if event.is_accepted() => Some(regime),
            _ => None,
        })
    }

    /// Whether EE was on when the descriptor at an offset of the memory was
    /// last stored, if it was.
    pub fn stored_with_ee(&self, offset: usize) -> Option<bool> {
        let mut regime: Option<Regime> = None;
        let mut ee = None;
        for event in self.events.iter().filter(|event| event.is_accepted()) {
            match event.call {
                Call::SetRegime(next) => regime = Some(next),
                Call::Store { address, .. } => {
                    let into = |r: &Regime| offset_in_memory(&r.pool, address) == Some(offset);
                    ee = regime.filter(into).map(|r| r.ee).or(ee);
                }
                _ => {}
            }
        }
        ee
    }

    pub fn last_emptying(&self) -> Option<usize> {
        self.events.iter().rposition(Event::is_emptying)
    }

    /// Events since the last emptying.
    fn since_emptying(&self) -> std::ops::Range<usize> {
        self.last_emptying().map_or(0, |at| at + 1)..self.events.len()
    }

    /// The granule by which pages are told apart since the last emptying; any,
    /// where there is no regime and nothing is remembered.
    pub fn granule(&self) -> Granule {
        self.regime().map_or(Granule::Kib4, |regime| regime.granule)
    }

    /// Rememberable accesses at the place of an address since the last
    /// emptying, the last one first, each with its page and count.
    fn rememberable_at(&self, address: u64) -> impl Iterator<Item = (usize, u64, u8)> + 'a {
        let (events, granule) = (self.events, self.granule());
        let place = place_of(page_of(granule, address));
        self.since_emptying().rev().filter_map(move |at| {
            let (other, reads) = events[at].rememberable()?;
            let page = page_of(granule, other);
            (place_of(page) == place).then_some((at, page, reads))
        })
    }

    /// Whether the last rememberable access at its place was of the page of
    /// an address.
    pub fn remembers(&self, address: u64) -> bool {
        let last = self.rememberable_at(address).next();
        last.is_some_and(|(_, page, _)| page == page_of(self.granule(), address))
    }

    /// The last rememberable access at the place of an address that read
    /// something.
    pub fn last_walk_at(&self, address: u64) -> Option<usize> {
        let all = self.rememberable_at(address);
        let mut walks = all.filter(|(.., reads)| *reads > 0);
        walks.next().map(|(at, ..)| at)
    }

    /// Whether a store was accepted since the last emptying.
    fn asks_for_a_drop(&self) -> bool {
        let since = &self.events[self.since_emptying()];
        since.iter().any(Event::is_accepted_store)
    }

    /// The pages that a harvest of this moment must report, and the event of
    /// each that wrote it: a write or update that succeeded on a leaf with DBM,
    /// since the last accepted store, regime and harvest, and with a drop
    /// between it and every accepted store before it.
    pub fn owed(&self, asked: &Harvest) -> Vec<(u64, usize)> {
        let ends = |event: &Event| {
            let set = matches!(event.call, Call::SetRegime(_)) && event.is_accepted();
            set || event.is_accepted_store() || event.is_accepted_harvest()
        };
        let last = self.events.iter().rposition(ends);
        let since = last.map_or(0, |at| at + 1)..self.events.len();
        let wrote = since.filter_map(|at| self.written(at).map(|page| (page, at)));
        let is_asked = |page: u64| page >= asked.first && page - asked.first < asked.count;
        wrote.filter(|(page, _)| is_asked(*page)).collect()
    }

    /// The page that an event wrote on a leaf with DBM, where no drop was asked
    /// for before it.
    fn written(&self, at: usize) -> Option<u64> {
        let event = &self.events[at];
        let (Call::Access(access), Reply::Answered(answer)) = (event.call, event.reply) else {
            return None;
        };
        let past = self.history.before(at);
        let wrote = access.kind.changes_data() && answer.tag == SUCCESS;
        let regime = past.regime().filter(|_| wrote && !past.asks_for_a_drop())?;
        let left = &self.history.left(event)[..event.lent];
        let (leaf, _) = look(left, &regime, &access).leaf?;
        bit(leaf.descriptor, DBM).then(|| page_of(regime.granule, access.address))
    }

    /// RULES 11.2: the plain walk of this moment, its count put to 0, and the
    /// bytes it leaves; nothing where a store came after the last emptying, or
    /// before any regime.
    fn first_half(
        &self,
        access: &Access,
        memory: &[u8],
        lent: usize,
    ) -> Option<(CAnswer, Vec<u8>)> {
        let regime = self.regime()?;
        if self.asks_for_a_drop() {
            return None;
        }
        let mut bytes = memory.to_vec();
        let answer = plain_answer(&walk(&mut bytes[..lent], &regime, access).answer);
        Some((CAnswer { reads: 0, ..answer }, bytes))
    }

    /// RULES 11.3: the answer that a new access must get over a memory of any
    /// bytes, which is left as the access must leave it. Nothing is said where
    /// the memory is not as long as that of the access which is looked back on.
    pub fn promise(
        &self,
        access: &Access,
        memory: &mut [u8],
    ) -> Result<Option<(Class, CAnswer)>, &'static str> {
        let Some(regime) = self.regime() else {
            let refused = CAnswer {
                tag: REFUSED,
                refusal: 9,
                ..CAnswer::default()
            };
            return Ok(Some((Class::NoRegime, refused)));
        };
        let page = page_of(regime.granule, access.address);
        let mut class = match self.rememberable_at(access.address).next() {
            None => Class::Nothing,
            Some((_, other, _)) if other != page => Class::OtherPage,
            Some(_) => Class::OneAnswer,
        };
        if class == Class::OneAnswer {
            let walked = self.last_walk_at(access.address);
            let earlier = walked.ok_or("second half: remembered, and never walked")?;
            if self.events[earlier].lent != memory.len() {
                return Ok(None);
            }
            let answer = self.one_answer(earlier, access)?;
            if answer.dirtied == 0 {
                return Ok(Some((class, answer)));
            }
            class = Class::DirtyMark;
        }
        let answer = plain_answer(&walk(memory, &regime, access).answer);
        Ok(Some((class, answer)))
    }

    /// What the plain walk gives under the regime of an earlier access and
    /// over the memory as that one left it, the count put to 0.
    fn one_answer(&self, earlier: usize, access: &Access) -> Result<CAnswer, &'static str> {
        let regime = self.history.before(earlier).regime();
        let regime = regime.ok_or("second half: remembered before any regime")?;
        let event = &self.events[earlier];
        let memory = &self.history.left(event)[..event.lent];
        let answer = plain_answer(&look(memory, &regime, access).answer);
        Ok(CAnswer { reads: 0, ..answer })
    }
}

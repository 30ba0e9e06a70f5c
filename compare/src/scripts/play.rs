//! Plays one script to a session under test and to the reference, holds each
//! reply and each byte against the other's, and rule 3 against the list.

use super::calls::Script;
use super::tally::Tally;
use super::Step;
use crate::arena::Arena;
use crate::boundary::{plain_answer, Reply, Spelling, Subject};
use crate::cases::scene::{draw_access_of, Scene};
use crate::geometry::Granule;
use crate::random::Random;
use crate::reference::{Access, Answer, Kind, Regime};
use crate::refusals::row_1;
use crate::rule3::History;
use crate::session::{Call, Session, Way, PLACES};
use std::collections::BTreeSet;
use std::fmt::Write;

/// The bytes that a new access finds after a script.
#[derive(Clone, Copy, Debug, PartialEq, Eq, PartialOrd, Ord)]
pub enum Bytes {
    Current,
    Zeros,
    Noise,
}

impl Bytes {
    pub const ALL: [Bytes; 3] = [Bytes::Current, Bytes::Zeros, Bytes::Noise];

    /// A memory of the same length; noise may look like tables.
    pub fn fill(self, random: &mut Random, current: &[u8], regime: &Regime) -> Vec<u8> {
        let mut scene = Scene {
            memory: current.to_vec(),
            regime: *regime,
            either_way: false,
        };
        match self {
            Bytes::Current => {}
            Bytes::Zeros => scene.memory.fill(0),
            Bytes::Noise if random.coin() => scene.fill_random(random),
            Bytes::Noise => scene.fill_likely(random),
        }
        scene.memory
    }
}

/// For each so many bytes of memory, fewer pages are asked for after a script.
const LONG_MEMORY: usize = 1 << 16;

/// The maps of a call: the reference's, and that of the one under test. They are
/// empty where the call has none.
pub(super) struct Maps {
    pub wanted: Vec<u8>,
    arena: Arena,
}

impl Maps {
    pub fn new(call: &Call, shift: usize) -> Self {
        let wanted = call.map();
        let arena = Arena::new(&wanted, shift);
        Maps { wanted, arena }
    }

    pub fn lend(&mut self) -> &mut [u8] {
        self.arena.lend(self.wanted.len())
    }

    fn left(&self) -> &[u8] {
        self.arena.memory()
    }

    pub fn differences(&self) -> Vec<String> {
        self.arena.differences("map", &self.wanted)
    }
}

pub struct Play<'a, S> {
    number: u64,
    trace: bool,
    subject: S,
    arena: Arena,
    session: Session,
    memory: Vec<u8>,
    history: History,
    tally: &'a mut Tally,
}

impl<'a, S: Subject> Play<'a, S> {
    pub fn new(number: u64, trace: bool, subject: S, memory: &[u8], tally: &'a mut Tally) -> Self {
        Play {
            number,
            trace,
            subject,
            arena: Arena::new(memory, (number % 16) as usize),
            session: Session::FRESH,
            memory: memory.to_vec(),
            history: History::new(memory),
            tally,
        }
    }

    /// All calls, then the look at every page that was used.
    pub fn run(&mut self, script: &mut Script) -> Result<(), Vec<String>> {
        for _ in 0..script.calls() {
            let step = script.next(&self.session, &self.memory);
            self.play(&step)?;
        }
        if script.is_brief() {
            return Ok(());
        }
        self.probe(script)
    }

    fn trace(&self, what: &str, step: &Step) {
        if self.trace {
            let number = self.number;
            eprintln!("script {number}, {what}: {step:x?}");
        }
    }

    fn play(&mut self, step: &Step) -> Result<(), Vec<String>> {
        let at = self.history.events().len();
        self.trace(&format!("call {}", at + 1), step);
        let before = self.session.clone();
        let mut maps = Maps::new(&step.call, self.arena.shift());
        let lent = &mut self.memory[..step.lent];
        let (wanted, seen) = ask(&mut self.session, lent, &mut maps.wanted, &step.call);
        let lent = self.arena.lend(step.lent);
        let got = self
            .subject
            .call(lent, maps.lend(), &step.call, step.spelling);
        let after = self.arena.memory();
        self.history
            .record(step.call, got, step.lent, after, maps.left());

        let mut why = differences(&wanted, &got, &self.memory, &self.arena);
        why.extend(maps.differences());
        why.extend(self.subject.wrong_bytes(&step.call, &got));
        why.extend(self.subject.wrong_session(&self.session));
        match self.history.check(at) {
            Ok(checked) if why.is_empty() => {
                self.tally
                    .note(&self.history, &before, seen.as_ref(), &checked);
                self.tally.note_spelling(step, &got);
                return Ok(());
            }
            Ok(_) => {}
            Err(broken) => why.extend(broken),
        }
        Err(why)
    }

    /// Asks for each page that was used, and for one beside it, in every
    /// kind and over three memories; each time from where the script ended.
    fn probe(&mut self, script: &mut Script) -> Result<(), Vec<String>> {
        let home = script.world.regimes[0];
        let granule = self.session.regime.unwrap_or(home).granule;
        let pages = self.pages_to_probe(script, granule);
        let lent = match self.session.regime {
            Some(regime) if row_1(script.world.length, &regime) => self.memory.len(),
            _ => script.world.length,
        };
        for bytes in Bytes::ALL {
            let memory = bytes.fill(&mut script.random, &self.memory, &home);
            let mut scratch = Scratch::new(&memory, self.arena.shift());
            for &page in &pages {
                for kind in Kind::ALL {
                    let access = draw_access_of(&mut script.random, granule, page, kind);
                    let step = Step {
                        call: Call::Access(access),
                        lent,
                        spelling: Spelling::draw(&mut script.random),
                    };
                    self.trace(&format!("probe over {bytes:?}"), &step);
                    self.probe_once(&mut scratch, bytes, &step, &access)?;
                }
            }
        }
        Ok(())
    }

    /// The pages that were used, and one beside each; in a long memory a part
    /// of them.
    fn pages_to_probe(&self, script: &mut Script, granule: Granule) -> BTreeSet<u64> {
        let used = self.history.events().iter().filter_map(|e| match e.call {
            Call::Access(access) => Some(granule.floor(access.address)),
            _ => None,
        });
        let mut pages: BTreeSet<u64> = used.collect();
        for page in pages.clone() {
            let lowest = u64::from(granule.page_bits());
            let far = 1 << script.random.between(lowest, 63);
            let near = PLACES as u64 * granule.bytes();
            pages.insert(page ^ script.random.pick(&[near, far]));
        }
        let share = 1 + (self.memory.len() / LONG_MEMORY) as u64;
        pages.retain(|_| script.random.once_in(share));
        pages
    }

    /// One access on copies of both sessions.
    fn probe_once(
        &mut self,
        scratch: &mut Scratch,
        bytes: Bytes,
        step: &Step,
        access: &Access,
    ) -> Result<(), Vec<String>> {
        let mut session = self.session.clone();
        let mut subject = self.subject.clone();
        let lent = &mut scratch.memory[..step.lent];
        let (wanted, _) = ask(&mut session, lent, &mut [], &step.call);
        let lent = scratch.arena.lend(step.lent);
        let got = subject.call(lent, &mut [], &step.call, step.spelling);
        let mut why = differences(&wanted, &got, &scratch.memory, &scratch.arena);
        why.extend(subject.wrong_bytes(&step.call, &got));
        why.extend(subject.wrong_session(&session));

        let promised = &mut scratch.promised[..step.lent];
        match self.history.whole().promise(access, promised) {
            Ok(Some((class, answer))) => {
                if got != Reply::Answered(answer) {
                    why.push(format!(
                        "rule 3: second half, {class:?}: promised was {answer:x?}"
                    ));
                }
                // Without a mark both are as they were, and so is the first.
                let marks = makes_marks(&wanted) || makes_marks(&Reply::Answered(answer));
                if marks && scratch.memory != scratch.promised {
                    why.push(format!("rule 3: second half, {class:?}: the bytes"));
                }
                self.tally.note_probe(class, bytes, &answer);
            }
            Ok(None) => {}
            Err(words) => why.push(format!("rule 3: {words}")),
        }
        if !why.is_empty() {
            why.push(format!("a new access after the script, over {bytes:?}:"));
            why.push(format!("{step:x?}"));
            why.push(format!("reference: {wanted:x?}"));
            why.push(format!("library: {got:x?}"));
            return Err(why);
        }
        // Bytes change where a mark was made, and nowhere else.
        if makes_marks(&wanted) {
            scratch.restore();
        }
        Ok(())
    }

    /// Everything there is to know about a script that failed.
    pub fn tell(&self, seed: u64, family: &str, why: &[String]) -> String {
        let mut text = format!("DIFFERENCE in script {} of seed {seed}\n", self.number);
        for line in why {
            let _ = writeln!(text, "  {line}");
        }
        let bytes = self.memory.len();
        let _ = writeln!(text, "family: {family}, memory: {bytes} bytes");
        let _ = writeln!(text, "calls and replies, numbers in hexadecimal:");
        for (at, event) in self.history.events().iter().enumerate() {
            let _ = writeln!(text, "call {}: {} bytes lent", at + 1, event.lent);
            let _ = writeln!(text, "  {:x?}", event.call);
            let _ = writeln!(text, "  {:x?}", event.reply);
        }
        let pairs = self.memory.iter().zip(self.arena.memory());
        match pairs.clone().position(|(want, got)| want != got) {
            Some(offset) => {
                let (want, got) = (self.memory[offset], self.arena.memory()[offset]);
                let _ = writeln!(
                    text,
                    "first differing byte: offset {offset:#x}, reference {want:#04x}, library {got:#04x}"
                );
            }
            None => text.push_str("first differing byte: none\n"),
        }
        text
    }
}

/// What the probes write to: a memory for each of the two sessions and for
/// rule 3, put back where one changed them.
struct Scratch {
    base: Vec<u8>,
    arena: Arena,
    memory: Vec<u8>,
    promised: Vec<u8>,
}

impl Scratch {
    fn new(base: &[u8], shift: usize) -> Self {
        Scratch {
            base: base.to_vec(),
            arena: Arena::new(base, shift),
            memory: base.to_vec(),
            promised: base.to_vec(),
        }
    }

    fn restore(&mut self) {
        let length = self.base.len();
        self.arena.lend(length).copy_from_slice(&self.base);
        self.memory.copy_from_slice(&self.base);
        self.promised.copy_from_slice(&self.base);
    }
}

/// Whether a reply tells of a mark.
fn makes_marks(reply: &Reply) -> bool {
    matches!(reply, Reply::Answered(answer) if answer.accessed != 0 || answer.dirtied != 0)
}

/// A call to the reference, its reply in the library's form.
pub(super) fn ask(
    session: &mut Session,
    memory: &mut [u8],
    map: &mut [u8],
    call: &Call,
) -> (Reply, Option<(Answer, Way)>) {
    match call {
        Call::SetRegime(regime) => {
            let refusal = session.set_regime(memory.len(), regime);
            (Reply::Changed(refusal.unwrap_or(0)), None)
        }
        Call::Access(access) => {
            let seen = session.access(memory, access);
            (Reply::Answered(plain_answer(&seen.0)), Some(seen))
        }
        Call::Store { address, value } => {
            let refusal = session.store(memory, *address, *value);
            (Reply::Changed(refusal.unwrap_or(0)), None)
        }
        Call::DropAll => {
            session.drop_all();
            (Reply::Dropped, None)
        }
        Call::Harvest(asked) => {
            let refusal = session.harvest(memory, asked, map);
            (Reply::Changed(refusal.unwrap_or(0)), None)
        }
    }
}

pub(super) fn differences(
    wanted: &Reply,
    got: &Reply,
    memory: &[u8],
    arena: &Arena,
) -> Vec<String> {
    let mut why = Vec::new();
    if got != wanted {
        why.push(format!(
            "the replies differ: the reference's is {wanted:x?}, the other {got:x?}"
        ));
    }
    why.extend(arena.differences("memory", memory));
    why
}

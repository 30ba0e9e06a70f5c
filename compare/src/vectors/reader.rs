//! From the lines of a file to its cases.
//!
//! What can be read stands in tables: the kinds of case in `KINDS`, the calls
//! of a session in `CALLS`, the settings in `settings.rs`.

use super::settings;
use super::text::{Line, Lines, Problem, NOTE};
use crate::boundary::{plain_answer, CAnswer, Reply, FAULT, SUCCESS};
use crate::harvest::{Fill, Harvest};
use crate::reference::{Access, Answer, Kind, Regime, MEMORY_LIMIT};
use crate::session::Call;
use crate::stepwise::Update;

/// The longest memory or map that a case may have: 64 MiB, well above what may
/// be lent.
pub const LONGEST_MEMORY: usize = 1 << 26;

const _: () = assert!(LONGEST_MEMORY > MEMORY_LIMIT);

const END: &str = "end";
const HARVEST: &str = "harvest";

pub struct Case {
    pub line: usize,
    pub number: u64,
    pub note: Option<String>,
    /// There may be none where nothing is lent.
    pub memory: Option<Vec<u8>>,
    pub calls: Calls,
}

impl Case {
    /// The memory that is lent.
    pub fn lent(&self) -> &[u8] {
        self.memory.as_deref().unwrap_or_default()
    }
}

/// The calls of a case, by its kind.
pub enum Calls {
    /// Plain walks, each over the memory of the case.
    Walk(Regime, Vec<Step<Access>>),
    /// From the fresh session, each over the memory that the last one left.
    Session(Vec<Step<Call>>),
    /// A walk a descriptor at a time.
    Stepwise(Offers),
    /// A plain harvest.
    Harvest(Regime, Step<Harvest>),
}

impl Calls {
    pub fn count(&self) -> usize {
        match self {
            Calls::Walk(_, steps) => steps.len(),
            Calls::Session(steps) => steps.len(),
            Calls::Stepwise(offers) => 1 + offers.asked.len() + offers.late.len(),
            Calls::Harvest(..) => 1,
        }
    }
}

/// A walk a descriptor at a time, what is offered to it, and what should come
/// of it. An offer without a value is "not reachable".
pub struct Offers {
    pub line: usize,
    pub regime: Regime,
    pub access: Access,
    /// Each address that is named, and what is offered then.
    pub asked: Vec<(u64, Option<u64>)>,
    pub answer: CAnswer,
    pub update: Option<Update>,
    /// What is offered after the end.
    pub late: Vec<Option<u64>>,
}

/// A call and what should come of it.
pub struct Step<C> {
    pub line: usize,
    pub call: C,
    pub reply: Reply,
    /// The descriptor addresses in order, where the case tells them.
    pub visited: Option<Vec<u64>>,
    /// What is new in the map, where the call has one.
    pub map: Vec<Run>,
    pub changes: Vec<Run>,
}

/// A run of bytes of the memory, or of the map.
pub struct Run {
    pub offset: usize,
    pub bytes: Vec<u8>,
}

impl Run {
    pub fn write(&self, memory: &mut [u8]) {
        memory[self.offset..][..self.bytes.len()].copy_from_slice(&self.bytes);
    }

    fn end(&self) -> usize {
        self.offset + self.bytes.len()
    }

    fn overlaps(&self, other: &Run) -> bool {
        self.offset < other.end() && other.offset < self.end()
    }
}

/// Reads the rest of a case, whose memory has so many bytes.
type ReadCalls = fn(&mut Lines, usize) -> Result<Calls, Problem>;

/// Whether a case must have a memory.
#[derive(Clone, Copy)]
enum Memory {
    Due,
    MayBeMissing,
}

const KINDS: &[(&str, (Memory, ReadCalls))] = &[
    ("walk", (Memory::Due, walk)),
    ("session", (Memory::Due, session)),
    ("stepwise", (Memory::MayBeMissing, stepwise)),
    ("harvest", (Memory::Due, harvest)),
];

/// Reads a call, whose first line is given.
type ReadCall = fn(&mut Lines, &Line) -> Result<Call, Problem>;

const CALLS: &[(&str, ReadCall)] = &[
    ("set", set),
    ("access", |_, line| access(line).map(Call::Access)),
    ("store", |_, line| store(line)),
    ("drop", |_, line| line.words().map(|[]| Call::DropAll)),
    (HARVEST, |_, line| asked(line).map(Call::Harvest)),
];

const ACCESSES: &[(&str, Kind)] = &[
    ("read", Kind::Read),
    ("write", Kind::Write),
    ("update", Kind::Update),
    ("fetch", Kind::Fetch),
    ("probe-read", Kind::ProbeRead),
    ("probe-write", Kind::ProbeWrite),
];

/// The row of a table with a name.
fn find<T: Copy>(table: &[(&str, T)], name: &str) -> Option<T> {
    table.iter().find(|row| row.0 == name).map(|row| row.1)
}

/// All cases of a file, of which there is at least one.
///
/// # Errors
///
/// The first line that cannot be read.
pub fn read(file: &[u8]) -> Result<Vec<Case>, Problem> {
    let mut lines = Lines::new(file)?;
    let mut cases = Vec::new();
    while !lines.at_end() {
        cases.push(case(&mut lines)?);
    }
    if cases.is_empty() {
        return Err(lines.ended("there is no case"));
    }
    Ok(cases)
}

fn case(lines: &mut Lines) -> Result<Case, Problem> {
    let line = lines.take(&["case"])?;
    let [number, kind] = line.words()?;
    let number = line.read(number)?;
    let unknown = || line.problem(format!("unknown kind of case `{kind}`"));
    let (due, calls) = find(KINDS, kind).ok_or_else(unknown)?;
    let note = lines.take_if(NOTE).map(|line| line.words());
    let note = note.transpose()?.map(|[text]| text.to_string());
    let first = match due {
        Memory::Due => Some(lines.take(&["memory"])?),
        Memory::MayBeMissing => lines.take_if("memory"),
    };
    let memory = first.map(|line| memory(lines, &line)).transpose()?;
    let calls = calls(lines, memory.as_ref().map_or(0, Vec::len))?;
    Ok(Case {
        line: line.number,
        number,
        note,
        memory,
        calls,
    })
}

fn memory(lines: &mut Lines, line: &Line) -> Result<Vec<u8>, Problem> {
    let [length, fill] = line.words()?;
    let length: usize = line.read(length)?;
    limited(line, length, "memory")?;
    let mut memory = vec![line.read(fill)?; length];
    while let Some(line) = lines.take_if("bytes") {
        run(&line, length, "memory")?.write(&mut memory);
    }
    Ok(memory)
}

/// That a memory or a map is not too long.
fn limited(line: &Line, length: usize, what: &str) -> Result<(), Problem> {
    if length > LONGEST_MEMORY {
        return Err(line.problem(format!("a {what} of more than {LONGEST_MEMORY} bytes")));
    }
    Ok(())
}

/// The bytes of a line, which must lie in a memory or a map of so many bytes.
fn run(line: &Line, length: usize, of: &str) -> Result<Run, Problem> {
    let [offset, bytes] = line.words()?;
    let (offset, bytes): (usize, Vec<u8>) = (line.read(offset)?, line.read(bytes)?);
    if offset > length || bytes.len() > length - offset {
        return Err(line.problem(format!("bytes outside the {of}")));
    }
    Ok(Run { offset, bytes })
}

fn walk(lines: &mut Lines, length: usize) -> Result<Calls, Problem> {
    let regime = regime(&lines.take(&["regime"])?)?;
    let steps = steps(lines, &["access"], |lines, line| {
        let access = access(line)?;
        let reply = reply(lines, &Call::Access(access))?;
        Ok(Step {
            line: line.number,
            call: access,
            reply,
            visited: Some(visited(&lines.take(&["visited"])?)?),
            map: Vec::new(),
            changes: changes(lines, length)?,
        })
    })?;
    Ok(Calls::Walk(regime, steps))
}

fn session(lines: &mut Lines, length: usize) -> Result<Calls, Problem> {
    let names: Vec<&str> = CALLS.iter().map(|row| row.0).collect();
    let steps = steps(lines, &names, |lines, line| {
        let read = find(CALLS, line.first()).expect("a call is due");
        let call = read(lines, line)?;
        Ok(Step {
            line: line.number,
            call,
            reply: reply(lines, &call)?,
            visited: None,
            map: match call {
                Call::Harvest(asked) => runs(lines, "map", asked.room, "map")?,
                _ => Vec::new(),
            },
            changes: changes(lines, length)?,
        })
    })?;
    Ok(Calls::Session(steps))
}

fn harvest(lines: &mut Lines, length: usize) -> Result<Calls, Problem> {
    let regime = regime(&lines.take(&["regime"])?)?;
    let line = lines.take(&[HARVEST])?;
    let asked = asked(&line)?;
    let step = Step {
        line: line.number,
        call: asked,
        reply: reply(lines, &Call::Harvest(asked))?,
        visited: None,
        map: runs(lines, "map", asked.room, "map")?,
        changes: changes(lines, length)?,
    };
    let [] = lines.take(&[END])?.words()?;
    Ok(Calls::Harvest(regime, step))
}

/// What is asked of a harvest, and the map for it.
fn asked(line: &Line) -> Result<Harvest, Problem> {
    let [first, count, room, fill] = line.words()?;
    let asked = Harvest {
        first: line.read(first)?,
        count: line.read(count)?,
        room: line.read(room)?,
        fill: Fill::Byte(line.read(fill)?),
    };
    limited(line, asked.room, "map")?;
    Ok(asked)
}

fn stepwise(lines: &mut Lines, _: usize) -> Result<Calls, Problem> {
    let regime = regime(&lines.take(&["regime"])?)?;
    let line = lines.take(&["access"])?;
    let access = access(&line)?;
    let mut asked = Vec::new();
    while let Some(ask) = lines.take_if("ask") {
        let [address] = ask.words()?;
        asked.push((ask.read(address)?, offer(&lines.take(&["feed"])?)?));
    }
    let answer = answer(lines)?;
    let update = lines.take_if("update").map(|line| update(&line));
    let update = update.transpose()?;
    let mut late = vec![offer(&lines.take(&["late"])?)?];
    while let Some(line) = lines.take_if("late") {
        late.push(offer(&line)?);
    }
    let [] = lines.take(&[END])?.words()?;
    Ok(Calls::Stepwise(Offers {
        line: line.number,
        regime,
        access,
        asked,
        answer,
        update,
        late,
    }))
}

fn offer(line: &Line) -> Result<Option<u64>, Problem> {
    let [offered] = line.words()?;
    line.read(offered)
}

fn update(line: &Line) -> Result<Update, Problem> {
    let [address, expected, value] = line.words()?;
    Ok(Update {
        address: line.read(address)?,
        expected: line.read(expected)?,
        value: line.read(value)?,
    })
}

/// The steps up to the end of the case; a step begins with one of the names.
fn steps<C>(
    lines: &mut Lines,
    names: &[&str],
    step: impl Fn(&mut Lines, &Line) -> Result<Step<C>, Problem>,
) -> Result<Vec<Step<C>>, Problem> {
    let due = [names, &[END]].concat();
    let mut steps = Vec::new();
    let end = loop {
        let line = lines.take(&due)?;
        if line.first() == END {
            break line;
        }
        steps.push(step(lines, &line)?);
    };
    let [] = end.words()?;
    if steps.is_empty() {
        return Err(end.problem("a case without a call"));
    }
    Ok(steps)
}

fn regime(line: &Line) -> Result<Regime, Problem> {
    settings::read(settings::REGIME, settings::NO_REGIME, line, line.rest())
}

fn set(lines: &mut Lines, line: &Line) -> Result<Call, Problem> {
    let [] = line.words()?;
    regime(&lines.take(&["regime"])?).map(Call::SetRegime)
}

fn access(line: &Line) -> Result<Access, Problem> {
    let [address, size, el, what] = line.words()?;
    let unknown = || line.problem(format!("unknown kind of access `{what}`"));
    let el1: bool = line.read(el)?;
    Ok(Access {
        address: line.read(address)?,
        size: line.read(size)?,
        el0: !el1,
        kind: find(ACCESSES, what).ok_or_else(unknown)?,
    })
}

fn store(line: &Line) -> Result<Call, Problem> {
    let [address, value] = line.words()?;
    Ok(Call::Store {
        address: line.read(address)?,
        value: line.read(value)?,
    })
}

/// What is replied to a call, in the library's form.
fn reply(lines: &mut Lines, call: &Call) -> Result<Reply, Problem> {
    if let Call::Access(_) = call {
        return answer(lines).map(Reply::Answered);
    }
    let (line, sort) = sort(lines)?;
    match (sort, call) {
        ("accepted", Call::DropAll) => line.words::<1>().map(|_| Reply::Dropped),
        (_, Call::DropAll) => Err(no_answer(&line, sort)),
        ("refused", _) => refusal(&line).map(Reply::Changed),
        ("accepted", _) => line.words::<1>().map(|_| Reply::Changed(0)),
        _ => Err(no_answer(&line, sort)),
    }
}

/// The answer to an access, in the library's form.
fn answer(lines: &mut Lines) -> Result<CAnswer, Problem> {
    let (line, sort) = sort(lines)?;
    let answered = |table, tag| {
        let to = CAnswer {
            tag,
            ..CAnswer::default()
        };
        settings::read(table, to, &line, &line.rest()[1..])
    };
    match sort {
        "ok" => answered(settings::OK, SUCCESS),
        "fault" => answered(settings::FAULT, FAULT),
        "refused" => Ok(plain_answer(&Answer::Refused(refusal(&line)?))),
        _ => Err(no_answer(&line, sort)),
    }
}

/// The line of an answer, and its first word.
fn sort<'a>(lines: &mut Lines<'a>) -> Result<(Line<'a>, &'a str), Problem> {
    let line = lines.take(&["answer"])?;
    match line.rest().first() {
        Some(&sort) => Ok((line, sort)),
        None => Err(line.miscounted("one or more")),
    }
}

fn no_answer(line: &Line, sort: &str) -> Problem {
    line.problem(format!("`{sort}` is no answer to this call"))
}

/// The number of a refusal; 0 is none.
fn refusal(line: &Line) -> Result<u8, Problem> {
    let [_, number] = line.words()?;
    match line.read(number)? {
        0 => Err(line.problem("no refusal has the number 0")),
        number => Ok(number),
    }
}

fn visited(line: &Line) -> Result<Vec<u64>, Problem> {
    let Some((count, addresses)) = line.rest().split_first() else {
        return Err(line.miscounted("one or more"));
    };
    let count: usize = line.read(count)?;
    if count != addresses.len() {
        let told = addresses.len();
        return Err(line.problem(format!("{told} addresses, not {count}")));
    }
    addresses.iter().map(|word| line.read(word)).collect()
}

/// The bytes of the memory that a call leaves new.
fn changes(lines: &mut Lines, length: usize) -> Result<Vec<Run>, Problem> {
    runs(lines, "change", length, "memory")
}

/// The runs of lines with a name, in a memory or a map of so many bytes; no two
/// overlap.
fn runs(lines: &mut Lines, name: &str, length: usize, of: &str) -> Result<Vec<Run>, Problem> {
    let mut runs: Vec<Run> = Vec::new();
    while let Some(line) = lines.take_if(name) {
        let next = run(&line, length, of)?;
        if runs.iter().any(|other| other.overlaps(&next)) {
            return Err(line.problem(format!("a byte of another {name} of this call")));
        }
        runs.push(next);
    }
    Ok(runs)
}

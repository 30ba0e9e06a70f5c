//! What the cases met. Everything that can occur must be met, and nothing
//! else may be.

use crate::boundary::{CAnswer, FAULT, REFUSED, SUCCESS};
use crate::cases::Case;
use crate::counts::{report_families, Countable, Counts};
use crate::decisions::{decided, succeeds, Decision};
use crate::geometry::{Granule, LAST_LEVEL, PHYSICAL_LIMIT};
use crate::granules::{self, Granular};
use crate::limits::{self, longest_pool, Limit, Octave};
use crate::orders::{self, with_each_order, Ordered, Turn};
use crate::reference::{
    bit, is_device, leaf_address, offset_in_memory, output_limit, read_descriptor, writable_clean,
    Access, Answer, FaultKind, Found, Kind, Leaf, Pool, Regime, Walk, AP_TABLE_1, MEMORY_LIMIT,
    POOL_LIMIT, TAKING, TAKING_FIELD,
};
use crate::refusals::{all_of_walk, pairs, WALK};
use std::collections::{BTreeMap, BTreeSet};
use std::fmt;

/// How a walk ended.
#[derive(Clone, Copy, Debug, PartialEq, Eq, PartialOrd, Ord)]
pub enum End {
    Success,
    Fault(FaultKind),
}

/// An address that is held against the output size.
#[derive(Clone, Copy, Debug, PartialEq, Eq, PartialOrd, Ord)]
pub enum Held {
    Root,
    Table,
    Leaf,
}

/// Places that a slip would miss.
#[derive(Clone, Copy, Debug, PartialEq, Eq, PartialOrd, Ord)]
pub enum Place {
    /// The leaf is the pool's first descriptor.
    FirstOfPool,
    /// The leaf is the pool's last descriptor.
    LastOfPool,
    /// Abort at the first descriptor behind the pool, where memory goes on
    /// with one that looks valid.
    BehindPool,
    /// The same at the last descriptor before the pool.
    BeforePool,
    /// One descriptor read at two levels, and a leaf reached.
    ReadTwice,
    /// Success with a range 1 address of all ones.
    AllOnes,
    /// Success in a pool at address 0.
    PoolAtZero,
    /// Success in a pool that ends at 2^48.
    PoolAtTop,
    /// Walked in a memory of one granule.
    ShortestMemory,
    /// Success where truth is spelled with a byte other than 1.
    OddTruth,
    /// A dirty mark where update is spelled with a number above 5.
    OddKind,
    /// HPD that decides, spelled with a byte other than 1.
    OddHpd,
    /// Success with EE spelled with a byte other than 1, and without EE a fault.
    OddEe,
    /// A leaf below tables with bit 63 alone of bits 63..59.
    Bit63,
    /// Bits 62..59 of a leaf, which would decide if they were a table's.
    OwnBits,
    /// The same where the leaf stands in a table that another level reads too.
    OwnBitsInTable,
    /// A leaf that is a table on the way too, and a bit that decides.
    LeafAndTable,
}

impl Place {
    const ALL: [Place; 17] = [
        Place::FirstOfPool,
        Place::LastOfPool,
        Place::BehindPool,
        Place::BeforePool,
        Place::ReadTwice,
        Place::AllOnes,
        Place::PoolAtZero,
        Place::PoolAtTop,
        Place::ShortestMemory,
        Place::OddTruth,
        Place::OddKind,
        Place::OddHpd,
        Place::OddEe,
        Place::Bit63,
        Place::OwnBits,
        Place::OwnBitsInTable,
        Place::LeafAndTable,
    ];
}

/// Which range has HPD on.
#[derive(Clone, Copy, Debug, PartialEq, Eq, PartialOrd, Ord)]
pub enum Hpd {
    /// That of the address: bits do not count, and would decide.
    Own,
    /// The other one alone: a bit decides.
    Other,
}

/// One thing to meet.
#[derive(Clone, Copy, Debug, PartialEq, Eq, PartialOrd, Ord)]
pub enum Feature {
    Tag(u8),
    Refusal(u8),
    /// A refusal, and a later row that applies too.
    FirstRow(u8, u8),
    Code(u16),
    /// A fault of RULES 6.1, which reads nothing.
    AtOnce(FaultKind),
    Reads(u8, u8),
    Marks(Kind, bool, bool),
    Rememberable(End, bool),
    /// Kind and EL0 or EL1, for the ends that depend on them.
    Asked(End, Kind, bool),
    OutputCode(End, u8),
    /// Table read or output page just below the output size's end.
    Below(Granule, Held, u8),
    /// Address size fault just at it.
    At(Granule, Held, u8),
    /// Success by attribute index; true for Device.
    Attribute(u8, bool),
    Shareability(u8),
    NonGlobal(bool),
    /// Success by the pool's length in granules.
    Granules(Granule, u64),
    /// A table descriptor on the way to a success, by its place in the pool.
    Table(Octave),
    /// A marked leaf, by its place in the pool.
    Marked(Octave),
    /// The same by its place in the memory.
    MarkedInMemory(Octave),
    Limit(Granule, Limit),
    Decided(Decision),
    /// First level, and level of the one table that has a bit which decides.
    OneTable(Granule, u8, u8, u32),
    /// Tables that have a bit which no other on the way has.
    AddUp(usize),
    Hpd(Granule, usize, Hpd),
    /// A leaf that would be writable-clean but for bit 62 of a table.
    CleanTaken(Kind, bool),
    /// Under a regime with EE or without.
    Ordered(bool, Ordered),
    /// Under a regime of a granule.
    Granular(Granule, Granular),
    /// Success by the byte that says the granule.
    Byte(u8),
    Place(Granule, Place),
}

use Feature as F;

impl Countable for Feature {
    fn heading(&self) -> &'static str {
        match self {
            F::Tag(_) => "answers",
            F::Refusal(_) => "refusals",
            F::FirstRow(..) => "refusals before another row that applies",
            F::Code(_) => "fault codes",
            F::AtOnce(_) => "faults before any read",
            F::Reads(..) => "reads",
            F::Marks(..) => "marks",
            F::Rememberable(..) => "may be remembered",
            F::Asked(..) => "ends by access",
            F::OutputCode(..) => "ends by output code",
            F::Below(..) => "last granule within the output size, by code",
            F::At(..) => "first granule beyond the output size, by code",
            F::Attribute(..) => "successes by attribute index",
            F::Shareability(_) => "successes by shareability",
            F::NonGlobal(_) => "successes by nG",
            F::Granules(..) => "successes by granules in the pool",
            F::Table(_) => "tables followed, by 4 KiB of the pool",
            F::Marked(_) => "leaves marked, by 4 KiB of the pool",
            F::MarkedInMemory(_) => "leaves marked, by 4 KiB of the memory",
            F::Limit(..) => "limits of memory and pool",
            F::Decided(_) => "ends that a bit of a table decides",
            F::OneTable(..) => "the same where one table has it, by first level > level",
            F::AddUp(_) => "sums by how many tables they need",
            F::Hpd(..) => "HPD by range",
            F::CleanTaken(..) => "writes to clean leaves under bit 62",
            F::Ordered(true, _) => "with EE",
            F::Ordered(false, _) => "without EE",
            F::Granular(granule, _) => under(*granule),
            F::Byte(_) => "successes by the granule's byte",
            F::Place(..) => "places",
        }
    }

    fn possible() -> BTreeSet<Self> {
        possible()
    }

    fn least(&self) -> u64 {
        match self {
            F::Ordered(..) => orders::LEAST,
            F::Granular(..) => granules::LEAST,
            _ => 1,
        }
    }
}

/// The heading of what is met under a granule.
pub fn under(granule: Granule) -> &'static str {
    match granule {
        Granule::Kib4 => "with 4 KiB",
        Granule::Kib16 => "with 16 KiB",
        Granule::Kib64 => "with 64 KiB",
    }
}

impl fmt::Display for End {
    fn fmt(&self, out: &mut fmt::Formatter) -> fmt::Result {
        match self {
            End::Success => write!(out, "Success"),
            End::Fault(kind) => write!(out, "{kind:?}"),
        }
    }
}

pub fn level_name(el0: bool) -> &'static str {
    if el0 {
        "EL0"
    } else {
        "EL1"
    }
}

pub fn marks_name(accessed: bool, dirtied: bool) -> &'static str {
    match (accessed, dirtied) {
        (false, false) => "none",
        (true, false) => "AF",
        (false, true) => "dirty",
        (true, true) => "AF+dirty",
    }
}

fn tag_name(tag: u8) -> &'static str {
    match tag {
        SUCCESS => "success",
        FAULT => "fault",
        _ => "refused",
    }
}

impl fmt::Display for Feature {
    fn fmt(&self, out: &mut fmt::Formatter) -> fmt::Result {
        match *self {
            F::Tag(tag) => write!(out, "{}", tag_name(tag)),
            F::Refusal(number) => write!(out, "no. {number}"),
            F::FirstRow(number, other) => write!(out, "{number} before {other}"),
            F::Code(code) => write!(out, "code {code}"),
            F::AtOnce(kind) => write!(out, "{kind:?}"),
            F::Reads(tag, count) => write!(out, "{} {count}", tag_name(tag)),
            F::Marks(kind, accessed, dirtied) => {
                write!(out, "{kind:?} {}", marks_name(accessed, dirtied))
            }
            F::Rememberable(end, yes) => write!(out, "{end} {}", if yes { "yes" } else { "no" }),
            F::Asked(end, kind, el0) => write!(out, "{end} {} {kind:?}", level_name(el0)),
            F::OutputCode(end, code) => write!(out, "{end} {code}"),
            F::Below(granule, held, code) | F::At(granule, held, code) => {
                write!(out, "{granule} {held:?} {code}")
            }
            F::Attribute(index, device) => {
                write!(out, "{index} {}", if device { "Device" } else { "Normal" })
            }
            F::Shareability(value) => write!(out, "{value}"),
            F::NonGlobal(value) => write!(out, "{}", u8::from(value)),
            F::Granules(granule, count) => write!(out, "{granule} {count}"),
            F::Table(octave) | F::Marked(octave) | F::MarkedInMemory(octave) => {
                write!(out, "{octave}")
            }
            F::Limit(granule, limit) => write!(out, "{granule} {limit:?}"),
            F::Decided(decision) => write!(out, "{decision}"),
            F::OneTable(granule, first, level, bit) => {
                write!(out, "{granule} {bit} {first}>{level}")
            }
            F::AddUp(count) => write!(out, "{count}"),
            F::Hpd(granule, range, which) => write!(out, "{granule} {range} {which:?}"),
            F::CleanTaken(kind, el0) => write!(out, "{} {kind:?}", level_name(el0)),
            F::Ordered(_, what) => write!(out, "{what}"),
            F::Granular(_, what) => write!(out, "{what}"),
            F::Byte(byte) => write!(out, "{byte}"),
            F::Place(granule, place) => write!(out, "{granule} {place:?}"),
        }
    }
}

/// Everything that RULES lets occur.
fn possible() -> BTreeSet<Feature> {
    let mut all = BTreeSet::new();
    all.extend([SUCCESS, FAULT, REFUSED].map(F::Tag));
    all.extend(WALK.iter().copied().map(F::Refusal));
    all.extend(pairs(WALK).map(|(row, other)| F::FirstRow(row, other)));
    faults(&mut all);
    accesses(&mut all);
    rememberable(&mut all);
    outputs(&mut all);
    for index in 0..8 {
        all.insert(F::Attribute(index, false));
        all.insert(F::Attribute(index, true));
    }
    all.extend((0..4).map(F::Shareability));
    all.extend([false, true].map(F::NonGlobal));
    lengths(&mut all);
    tables(&mut all);
    all.extend(with_each_order(Ordered::all()).map(|(ee, what)| F::Ordered(ee, what)));
    all.extend((0..=0xFF).map(F::Byte));
    for granule in Granule::ALL {
        let granular = Granular::all(granule).into_iter();
        all.extend(granular.map(|what| F::Granular(granule, what)));
        all.extend(Place::ALL.map(|place| F::Place(granule, place)));
    }
    all
}

/// Codes, and counts of reads.
fn faults(all: &mut BTreeSet<Feature>) {
    // Two faults come before any read; leaves are at levels 1 to 3 only.
    all.insert(F::AtOnce(FaultKind::Translation));
    all.insert(F::AtOnce(FaultKind::AddressSize));
    all.insert(F::Code(33));
    all.insert(F::Reads(FAULT, 0));
    for level in 0..=u16::from(LAST_LEVEL) {
        all.extend([0, 4, 20].map(|base| F::Code(base + level)));
        if level > 0 {
            all.extend([8, 12].map(|base| F::Code(base + level)));
        }
        let reads = level as u8 + 1;
        all.extend([SUCCESS, FAULT].map(|tag| F::Reads(tag, reads)));
    }
}

/// What depends on the kind of an access.
fn accesses(all: &mut BTreeSet<Feature>) {
    for kind in Kind::ALL {
        all.insert(F::Marks(kind, false, false));
        if !kind.is_probe() {
            all.insert(F::Marks(kind, true, false));
        }
        if kind.changes_data() {
            all.insert(F::Marks(kind, false, true));
            all.insert(F::Marks(kind, true, true));
        }
        for el0 in [false, true] {
            all.insert(F::Asked(End::Success, kind, el0));
            // No read from EL1 is ever denied.
            if el0 || !matches!(kind, Kind::Read | Kind::ProbeRead) {
                all.insert(F::Asked(End::Fault(FaultKind::Permission), kind, el0));
            }
            if kind.moves_data() {
                all.insert(F::Asked(End::Fault(FaultKind::Alignment), kind, el0));
            }
            all.insert(F::Asked(End::Fault(FaultKind::AccessFlag), kind, el0));
        }
    }
}

/// What may be remembered, and what not.
fn rememberable(all: &mut BTreeSet<Feature>) {
    // A probe can succeed and leave AF 0.
    for end in [
        End::Success,
        End::Fault(FaultKind::Permission),
        End::Fault(FaultKind::Alignment),
    ] {
        all.insert(F::Rememberable(end, true));
        all.insert(F::Rememberable(end, false));
    }
    for kind in [
        FaultKind::AddressSize,
        FaultKind::Translation,
        FaultKind::AccessFlag,
        FaultKind::WalkAbort,
    ] {
        all.insert(F::Rememberable(End::Fault(kind), false));
    }
}

/// What depends on the output size.
fn outputs(all: &mut BTreeSet<Feature>) {
    let held = [Held::Root, Held::Table, Held::Leaf];
    for code in 0..=5 {
        all.insert(F::OutputCode(End::Success, code));
        for granule in Granule::ALL {
            all.extend(held.map(|held| F::Below(granule, held, code)));
            // No address passes 48 bits.
            if code < 5 {
                all.extend(held.map(|held| F::At(granule, held, code)));
            }
        }
        if code < 5 {
            let end = End::Fault(FaultKind::AddressSize);
            all.insert(F::OutputCode(end, code));
        }
    }
}

/// What has to do with the bits of the tables on the way.
fn tables(all: &mut BTreeSet<Feature>) {
    all.extend(Decision::all().map(F::Decided));
    all.extend([2, 3].map(F::AddUp));
    for granule in Granule::ALL {
        for &(first, ..) in granule.first_levels() {
            for level in first..LAST_LEVEL {
                all.extend(TAKING.map(|bit| F::OneTable(granule, first, level, bit)));
            }
        }
        for range in 0..2 {
            all.extend([Hpd::Own, Hpd::Other].map(|which| F::Hpd(granule, range, which)));
        }
    }
    for el0 in [false, true] {
        let writes = [Kind::Write, Kind::Update, Kind::ProbeWrite];
        all.extend(writes.map(|kind| F::CleanTaken(kind, el0)));
    }
}

/// What has to do with the lengths of memory and pool.
fn lengths(all: &mut BTreeSet<Feature>) {
    all.extend(Octave::all(POOL_LIMIT).map(F::Table));
    all.extend(Octave::all(POOL_LIMIT).map(F::Marked));
    all.extend(Octave::all(MEMORY_LIMIT).map(F::MarkedInMemory));
    for granule in Granule::ALL {
        all.extend((1..=longest_pool(granule)).map(|count| F::Granules(granule, count)));
        all.extend(Limit::all().map(|limit| F::Limit(granule, limit)));
    }
}

#[derive(Default)]
pub struct Tally {
    met: Counts<Feature>,
    families: BTreeMap<&'static str, u64>,
}

impl Tally {
    fn meet(&mut self, feature: Feature) {
        self.met.meet(feature);
    }

    /// Counts one case: the library's answer, and the way the reference
    /// took through the memory as it was before.
    pub fn note(&mut self, case: &Case, before: &[u8], walk: &Walk, answer: &CAnswer) {
        let (regime, access) = (case.regime, case.access);
        self.note_case(case, before, walk);
        self.meet(F::Tag(answer.tag));
        if answer.tag == REFUSED {
            return self.note_refusal(before.len(), regime, access, answer.refusal);
        }
        if answer.tag == FAULT {
            self.meet(F::Code(answer.code));
        }
        let granule = regime.granule;
        self.meet(F::Reads(answer.tag, answer.reads));
        if before.len() == granule.length() {
            self.meet(F::Place(granule, Place::ShortestMemory));
        }
        for limit in limits::kept(before.len(), &regime.pool) {
            self.meet(F::Limit(granule, limit));
        }

        let end = match walk.answer {
            Answer::Fault(fault) => End::Fault(fault.stop.kind),
            _ => End::Success,
        };
        self.meet(F::Rememberable(end, answer.cacheable != 0));
        if let Some((leaf, _)) = walk.leaf {
            self.meet(F::Asked(end, access.kind, access.el0));
            self.note_tables(case, before, walk, &leaf);
        }
        match end {
            End::Success => {
                self.note_success(regime, access, walk, answer);
                self.note_spelling(case, answer);
            }
            End::Fault(kind) => {
                let range = usize::from(bit(access.address, 55));
                self.note_fault(regime, range, before, walk, kind);
            }
        }
    }

    /// How the numbers of a success are spelled.
    fn note_spelling(&mut self, case: &Case, answer: &CAnswer) {
        let (regime, spelling) = (case.regime, case.spelling);
        self.meet(F::Byte(spelling.regime(regime).granule));
        if spelling.truth != 1 {
            self.meet(F::Place(regime.granule, Place::OddTruth));
        }
        let odd = case.access.kind == Kind::Update && spelling.update > 5;
        if odd && answer.dirtied != 0 {
            self.meet(F::Place(regime.granule, Place::OddKind));
        }
    }

    /// Its family, and what it meets with EE or without, and with its granule.
    fn note_case(&mut self, case: &Case, before: &[u8], walk: &Walk) {
        *self.families.entry(case.family).or_default() += 1;
        let granule = case.regime.granule;
        let odd = case.regime.ee && case.spelling.truth != 1;
        for what in Ordered::of(before, case.regime, case.access, walk) {
            self.meet(F::Ordered(case.regime.ee, what));
            if odd && what == Ordered::Turn(Turn::ThisAlone) {
                self.meet(F::Place(granule, Place::OddEe));
            }
        }
        for what in Granular::of(before, case.regime, case.access, walk) {
            self.meet(F::Granular(granule, what));
        }
    }

    fn note_refusal(&mut self, length: usize, regime: &Regime, access: &Access, number: u8) {
        self.meet(F::Refusal(number));
        if let (1, Some(limit)) = (number, limits::passed(length, regime)) {
            self.meet(F::Limit(regime.granule, limit));
        }
        for other in all_of_walk(length, regime, access).skip(1) {
            self.meet(F::FirstRow(number, other));
        }
    }

    fn note_success(&mut self, regime: &Regime, access: &Access, walk: &Walk, answer: &CAnswer) {
        let (code, granule) = (regime.output_code, regime.granule);
        self.meet(F::Marks(
            access.kind,
            answer.accessed != 0,
            answer.dirtied != 0,
        ));
        self.meet(F::OutputCode(End::Success, code));
        self.meet(F::Shareability(answer.shareability));
        self.meet(F::NonGlobal(answer.nonglobal != 0));
        self.meet(F::Granules(
            granule,
            regime.pool.length as u64 / granule.bytes(),
        ));
        self.note_reach(regime, walk, answer);
        self.note_below(regime, walk);
        if let Some((leaf, _)) = walk.leaf {
            let index = (leaf.descriptor >> 2 & 7) as u8;
            self.meet(F::Attribute(index, is_device(answer.attribute)));
        }
        for place in places(&regime.pool, access, walk) {
            self.meet(F::Place(granule, place));
        }
    }

    /// Tables and leaves that are the last ones within the output size.
    fn note_below(&mut self, regime: &Regime, walk: &Walk) {
        let (code, granule) = (regime.output_code, regime.granule);
        let limit = output_limit(code);
        if let Some((leaf, _)) = walk.leaf {
            // The last leaf of its size.
            if leaf_address(granule, &leaf) + granule.span_mask(leaf.level) == limit - 1 {
                self.meet(F::Below(granule, Held::Leaf, code));
            }
        }
        for (step, entry) in walk.visited.iter().enumerate() {
            if granule.floor(*entry) == limit - granule.bytes() {
                let held = if step == 0 { Held::Root } else { Held::Table };
                self.meet(F::Below(granule, held, code));
            }
        }
    }

    /// How far up a success has read and marked.
    fn note_reach(&mut self, regime: &Regime, walk: &Walk, answer: &CAnswer) {
        let pool = &regime.pool;
        let Some((&leaf, tables)) = walk.visited.split_last() else {
            return;
        };
        let offset = |entry: u64| (entry - pool.address) as usize;
        for &table in tables {
            self.meet(F::Table(Octave::of(offset(table))));
        }
        if answer.accessed != 0 || answer.dirtied != 0 {
            self.meet(F::Marked(Octave::of(offset(leaf))));
            self.meet(F::MarkedInMemory(Octave::of(pool.start + offset(leaf))));
            if limits::is_last(pool, leaf) {
                self.meet(F::Limit(regime.granule, Limit::LastOfPool));
            }
        }
    }

    /// What the tables on the way to a leaf take away, and what they do not.
    fn note_tables(&mut self, case: &Case, before: &[u8], walk: &Walk, leaf: &Leaf) {
        let (regime, access) = (case.regime, case.access);
        let granule = regime.granule;
        let range = usize::from(bit(access.address, 55));
        let tables = tables_of(before, regime, walk);
        let all = tables.iter().fold(0, |sum, table| sum | table);
        let decides = |taken| {
            let without = succeeds(regime, access, leaf, taken);
            without != succeeds(regime, access, leaf, leaf.taken)
        };
        if regime.ranges[range].hpd {
            if decides(all & TAKING_FIELD) {
                self.meet(F::Hpd(granule, range, Hpd::Own));
                if case.spelling.truth != 1 {
                    self.meet(F::Place(granule, Place::OddHpd));
                }
            }
        } else {
            self.note_sum(regime, access, walk, leaf, &tables);
        }
        if bit(all, 63) && all & TAKING_FIELD == 0 {
            self.meet(F::Place(granule, Place::Bit63));
        }
        if decides(leaf.taken | leaf.descriptor & TAKING_FIELD) {
            self.meet(F::Place(granule, Place::OwnBits));
            let table = |entry: &u64| granule.floor(*entry);
            let mut tables = walk.visited.iter().rev().map(table);
            let own = tables.next();
            if tables.any(|other| Some(other) == own) {
                self.meet(F::Place(granule, Place::OwnBitsInTable));
            }
        }
    }

    /// A sum that counts, and what it decides.
    fn note_sum(
        &mut self,
        regime: &Regime,
        access: &Access,
        walk: &Walk,
        leaf: &Leaf,
        tables: &[u64],
    ) {
        let range = usize::from(bit(access.address, 55));
        let granule = regime.granule;
        let first = granule.first_level(regime.ranges[range].t);
        let only_table = |place| only_table(first, tables, place);
        for decision in decided(regime, access, leaf) {
            self.meet(F::Decided(decision));
            if let Some(level) = only_table(decision.bit) {
                self.meet(F::OneTable(granule, first, level, decision.bit));
            }
            if regime.ranges[1 - range].hpd {
                self.meet(F::Hpd(granule, range, Hpd::Other));
            }
            if let Some((last, others)) = walk.visited.split_last() {
                if others.contains(last) {
                    self.meet(F::Place(granule, Place::LeafAndTable));
                }
            }
        }
        let levels: BTreeSet<u8> = TAKING.into_iter().filter_map(only_table).collect();
        if levels.len() > 1 {
            self.meet(F::AddUp(levels.len()));
        }
        let own = Leaf { taken: 0, ..*leaf };
        let writes = access.kind.changes_data() || access.kind == Kind::ProbeWrite;
        if writes && bit(leaf.taken, AP_TABLE_1) && writable_clean(regime, &own) {
            self.meet(F::CleanTaken(access.kind, access.el0));
        }
    }

    fn note_fault(
        &mut self,
        regime: &Regime,
        range: usize,
        before: &[u8],
        walk: &Walk,
        kind: FaultKind,
    ) {
        if walk.visited.is_empty() {
            self.meet(F::AtOnce(kind));
        }
        match kind {
            FaultKind::AddressSize => {
                let code = regime.output_code;
                self.meet(F::OutputCode(End::Fault(kind), code));
                let (held, address) = address_beyond(regime, range, before, walk);
                if address == output_limit(code) {
                    self.meet(F::At(regime.granule, held, code));
                }
            }
            FaultKind::WalkAbort => self.note_abort(regime, before, walk),
            _ => {}
        }
    }

    /// An abort: does the memory around the pool look valid there?
    fn note_abort(&mut self, regime: &Regime, before: &[u8], walk: &Walk) {
        let Some(&entry) = walk.visited.last() else {
            return;
        };
        let (pool, granule) = (&regime.pool, regime.granule);
        let looks_valid = |offset: usize| {
            offset + 8 <= before.len() && read_descriptor(before, offset, regime.ee) & 1 == 1
        };
        let behind = pool.start + pool.length;
        if entry == pool.address + pool.length as u64 && looks_valid(behind) {
            self.meet(F::Place(granule, Place::BehindPool));
            if limits::is_behind(pool, entry) {
                self.meet(F::Limit(granule, Limit::BehindPool));
            }
        }
        if entry.checked_add(8) == Some(pool.address)
            && pool.start >= 8
            && looks_valid(pool.start - 8)
        {
            self.meet(F::Place(granule, Place::BeforePool));
        }
    }

    /// All counts. True if nothing is missing and nothing strange.
    pub fn report(&self) -> bool {
        report_families("families", &self.families);
        self.met.report()
    }

    pub fn missing(&self) -> Vec<Feature> {
        self.met.missing()
    }

    pub fn strangers(&self) -> Vec<Feature> {
        self.met.strangers()
    }
}

/// The places that a success is at.
fn places(pool: &Pool, access: &Access, walk: &Walk) -> impl Iterator<Item = Place> {
    let pool_end = pool.address + pool.length as u64;
    let leaf = walk.visited.last().copied();
    let different: BTreeSet<u64> = walk.visited.iter().copied().collect();
    let at = [
        (Place::FirstOfPool, leaf == Some(pool.address)),
        (
            Place::LastOfPool,
            leaf.map(|leaf| leaf + 8) == Some(pool_end),
        ),
        (Place::ReadTwice, different.len() < walk.visited.len()),
        (Place::AllOnes, access.address == u64::MAX),
        (Place::PoolAtZero, pool.address == 0),
        (Place::PoolAtTop, pool_end == PHYSICAL_LIMIT),
    ];
    at.into_iter().filter_map(|(place, at)| at.then_some(place))
}

/// The table descriptors on the way to a leaf.
fn tables_of(before: &[u8], regime: &Regime, walk: &Walk) -> Vec<u64> {
    let visited = walk.visited.iter().take(walk.visited.len() - 1);
    let offsets = visited.filter_map(|&entry| offset_in_memory(&regime.pool, entry));
    offsets
        .map(|offset| read_descriptor(before, offset, regime.ee))
        .collect()
}

/// The level of the table that has a bit, where it is one alone; the first of
/// them is at the first level.
fn only_table(first: u8, tables: &[u64], place: u32) -> Option<u8> {
    let mut having = (first..)
        .zip(tables)
        .filter(|(_, table)| bit(**table, place));
    match (having.next(), having.next()) {
        (Some((level, _)), None) => Some(level),
        _ => None,
    }
}

/// The address that lay beyond the output size, and what it was.
fn address_beyond(regime: &Regime, range: usize, before: &[u8], walk: &Walk) -> (Held, u64) {
    let offset = walk
        .visited
        .last()
        .and_then(|&entry| offset_in_memory(&regime.pool, entry));
    let Some(offset) = offset else {
        return (Held::Root, regime.ranges[range].root);
    };
    let descriptor = read_descriptor(before, offset, regime.ee);
    let first = regime.granule.first_level(regime.ranges[range].t);
    let level = first + walk.visited.len() as u8 - 1;
    match Found::of(regime.granule, level, descriptor) {
        Found::Table(address) => (Held::Table, address),
        Found::Leaf(address) => (Held::Leaf, address),
        Found::Nothing => panic!("no address in {descriptor:#x}"),
    }
}

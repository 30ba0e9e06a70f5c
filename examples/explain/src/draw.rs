//! The drawing of one walk, level by level, as the library makes it.

use vmsa::{
    AccessKind, Answer, Ended, ExceptionLevel, Fault, FaultKind, LeafUpdate, Problem, Range,
    Refusal, Step, StepwiseWalk, Stop, TablesSum, Translation,
};

use crate::fields::{self, bits, has, span, Level, Shape};
use crate::parse::Description;
use crate::why::{self, Last};

#[cfg(test)]
mod tests;

/// Draws the walk of a description. The update is shown, and not made.
pub fn draw(description: &Description) -> String {
    let mut drawing = Drawing::new(description);
    drawing.head();
    drawing.address();
    let mut step = StepwiseWalk::start(&description.regime, &description.access);
    loop {
        step = match step {
            Step::Wants(walk) => drawing.level(walk),
            Step::Ended(ended) => {
                drawing.end(&ended);
                return drawing.text;
            }
        };
    }
}

/// The answer that an end would give.
fn answer(ended: &Ended) -> Answer {
    ended.clone().settle(|_| true).expect("it counts as made")
}

struct Drawing<'a> {
    of: &'a Description,
    /// The range of the address, and its number.
    range: Range,
    number: u8,
    text: String,
    last: Option<Last>,
}

impl<'a> Drawing<'a> {
    fn new(of: &'a Description) -> Self {
        let number = u8::from(has(of.access.address.0, 55));
        let range = match number {
            0 => of.regime.range0,
            _ => of.regime.range1,
        };
        Self {
            of,
            range,
            number,
            text: String::new(),
            last: None,
        }
    }

    fn line(&mut self, line: &str) {
        self.text.push_str(line.trim_end());
        self.text.push('\n');
    }

    /// A line with a label before it.
    fn part(&mut self, label: &str, line: &str) {
        self.line(&format!("  {label:<11}{line}"));
    }

    /// A line of a level, beside the arrow to what comes next.
    fn beside(&mut self, line: &str) {
        self.line(&format!("     |       {line}"));
    }

    /// Something of the answer or of the update, by its name.
    fn item(&mut self, name: &str, text: &str) {
        for (number, line) in wrapped(text, 66).iter().enumerate() {
            let name = if number == 0 { name } else { "" };
            self.part("", &format!("  {name:<19}{line}"));
        }
    }

    fn head(&mut self) {
        let Description {
            title,
            regime,
            access,
            ..
        } = self.of;
        if let Some(title) = title {
            self.line(title);
            self.line("");
        }
        let (kind, from) = (kind(access.kind), level_name(access.el));
        let plural = if access.size == 1 { "" } else { "s" };
        let (size, address) = (access.size, access.address);
        self.part(
            "access",
            &format!("{kind} of {size} byte{plural} at {address}, from {from}"),
        );
        let granule = regime.granule.bytes() >> 10;
        let output = regime.output.bits();
        let [ha, hd, wxn] = [regime.ha, regime.hd, regime.wxn].map(switch);
        self.part(
            "regime",
            &format!("granule {granule} KiB, output {output} bits, HA {ha}, HD {hd}, WXN {wxn}"),
        );
        let mair = u64::from_le_bytes(regime.attributes);
        self.part("", &format!("MAIR_EL1 {mair:#018x}"));
        self.range();
    }

    fn range(&mut self) {
        let (n, range) = (self.number, self.range);
        let [epd, hpd] = [range.disabled, range.hpd].map(switch);
        let size = match range.tsz {
            0..=64 => format!("{} ({} address bits)", range.tsz, 64 - range.tsz),
            _ => range.tsz.to_string(),
        };
        self.part(
            &format!("range {n}"),
            &format!(
                "TTBR{n}_EL1 {}, T{n}SZ {size}, EPD{n} {epd}, HPD{n} {hpd}",
                range.root
            ),
        );
        self.line("");
    }

    /// The levels of the range, where its T is not refused.
    fn levels(&self) -> Vec<Level> {
        match self.range.tsz {
            16..=39 => fields::levels(self.of.regime.granule, self.range.tsz),
            _ => Vec::new(),
        }
    }

    /// The address, cut into the bits of the levels.
    fn address(&mut self) {
        let levels = self.levels();
        if levels.is_empty() {
            return;
        }
        let address = self.of.access.address.0;
        let top = 64 - u32::from(self.range.tsz);
        let page = self.of.regime.granule.page_bits();
        let mut cuts = vec![(63, top, "range".to_string())];
        cuts.extend(levels.iter().map(|level| {
            let name = format!("level {}", level.number);
            (level.high, level.low, name)
        }));
        cuts.push((page - 1, 0, "in page".to_string()));
        let mut rows: [String; 4] = Default::default();
        for (high, low, name) in cuts {
            let (span, value) = (span(high, low), format!("{:#x}", bits(address, high, low)));
            let width = span.len().max(value.len()).max(name.len());
            rows[0] += &format!("  {span:<width$} ");
            rows[1] += &format!("+{:-<1$}", "", width + 2);
            rows[2] += &format!("| {value:<width$} ");
            rows[3] += &format!("  {name:<width$} ");
        }
        let [spans, rule, values, names] = rows;
        self.part("address", &format!("{address:#018x}"));
        self.line("");
        self.part("", &spans);
        self.part("", &format!("{rule}+"));
        self.part("", &format!("{values}|"));
        self.part("", &format!("{rule}+"));
        self.part("", &names);
        self.line("");
    }

    /// A descriptor that is wanted: where it stands, what it is, and the walk
    /// behind it.
    fn level(&mut self, walk: StepwiseWalk) -> Step {
        let last = Last {
            address: walk.address(),
            descriptor: self.of.tables.read(walk.address()),
            level: walk.level(),
            tables: walk.tables(),
        };
        self.last = Some(last);
        self.entry(&last);
        let Some(value) = last.descriptor else {
            self.beside(&format!("{}: not reachable", last.address));
            self.line("     v");
            return walk.unreachable();
        };
        let next = walk.value(value);
        let shape = Shape::of(self.of.regime.granule, last.level, value);
        let decided = self.decided(shape, &last, &next);
        self.beside(&format!("{}: {value:#018x}   {decided}", last.address));
        match shape {
            Shape::Table => self.table(value, &next),
            Shape::Block | Shape::Page => self.leaf(value, &last),
            Shape::Invalid | Shape::NoBlock => {}
        }
        self.line("     v");
        next
    }

    /// The table of a descriptor, and its index there.
    fn entry(&mut self, last: &Last) {
        let Last { address, level, .. } = *last;
        let within = self.of.regime.granule.bytes() - 1;
        let (table, index) = (address.0 & !within, (address.0 & within) / 8);
        let mut levels = self.levels().into_iter();
        let by = levels
            .find(|of| of.number == level)
            .expect("it has a level");
        self.part(
            &format!("level {level}"),
            &format!(
                "table {table:#x}, index {index:#x} (address {} {})",
                if by.high == by.low { "bit" } else { "bits" },
                span(by.high, by.low)
            ),
        );
    }

    /// What a descriptor decides.
    fn decided(&self, shape: Shape, last: &Last, next: &Step) -> String {
        let fault = match next {
            Step::Wants(_) => None,
            Step::Ended(ended) => answer(ended).err().and_then(Stop::fault),
        };
        let size = 1 << fields::lowest_bit(self.of.regime.granule, last.level);
        match (fault.map(|fault| fault.kind), shape) {
            (Some(FaultKind::Translation | FaultKind::AddressSize), _) => "fault".to_string(),
            (_, Shape::Table) => "table".to_string(),
            (_, Shape::Page) => format!("page of {}", bytes(size)),
            _ => format!("block of {}", bytes(size)),
        }
    }

    fn table(&mut self, value: u64, next: &Step) {
        let own = table_bits([62, 61, 60, 59].map(|bit| has(value, bit)));
        let table = fields::next_table(self.of.regime.granule, value);
        self.beside(&format!("  this table  {own}  next table {table:#x}"));
        let Step::Wants(walk) = next else {
            return;
        };
        let TablesSum {
            no_write,
            no_el0,
            no_el0_fetch,
            no_el1_fetch,
        } = walk.tables();
        let sum = match self.range.hpd {
            true => format!("no say: HPD{} is on", self.number),
            false => table_bits([no_write, no_el0, no_el0_fetch, no_el1_fetch]),
        };
        self.beside(&format!("  so far      {sum}"));
    }

    fn leaf(&mut self, value: u64, last: &Last) {
        for field in fields::of_leaf(&self.of.regime, last.level, value, last.tables) {
            let mut columns = format!("  {:<8}{:<16}{:<6}", field.bits, field.name, field.value);
            for line in wrapped(&field.meaning, 55) {
                self.beside(&format!("{columns}{line}"));
                columns = " ".repeat(columns.len());
            }
        }
    }

    fn end(&mut self, ended: &Ended) {
        match answer(ended) {
            Ok(found) => self.success(&found),
            Err(Stop::Fault(fault)) => self.fault(&fault),
            Err(Stop::Refused(refusal)) => return self.refused(refusal),
        }
        match ended.update() {
            Some(update) => self.update(&update),
            None => self.part("update", "none is due"),
        }
    }

    fn success(&mut self, found: &Translation) {
        self.part(
            "answer",
            &format!("success, {}", place(found.level, found.reads)),
        );
        self.item("output address", &found.output.to_string());
        let (byte, memory) = (found.attribute, fields::memory(found.attribute));
        self.item("attribute byte", &format!("{byte:#04x}: {memory}"));
        let nonglobal = u8::from(found.nonglobal);
        let shareability = fields::shareability_of(found.shareability);
        self.item("shareability", &format!("{shareability}, nG {nonglobal}"));
        self.item("may be remembered", yes(found.cacheable));
    }

    fn fault(&mut self, fault: &Fault) {
        let Description { regime, access, .. } = self.of;
        let place = place(fault.level, fault.reads);
        self.part("answer", &format!("{}, {place}", fault.kind));
        self.item(
            "fault code",
            &format!("{} (0b{:06b})", fault.code, fault.code),
        );
        let reasons = why::fault(regime, access, fault, self.last);
        for (number, reason) in reasons.iter().enumerate() {
            self.item(if number == 0 { "because" } else { "" }, reason);
        }
        self.item("may be remembered", yes(fault.cacheable));
    }

    fn refused(&mut self, refusal: Refusal) {
        let Description { regime, access, .. } = self.of;
        self.part("answer", &refusal.to_string());
        let checked = regime.check_stepwise();
        let checked = checked.and_then(|()| access.check(regime.granule));
        if let Err(problem) = checked {
            self.item("because", &words(&problem));
        }
    }

    fn update(&mut self, update: &LeafUpdate) {
        let LeafUpdate {
            address,
            expected,
            new,
        } = *update;
        self.part(
            "update",
            "due before the answer is used, by compare-and-swap",
        );
        self.item("at", &address.to_string());
        self.item("expected", &format!("{expected:#018x}"));
        self.item("new", &format!("{new:#018x}"));
        for (bit, name, told) in [
            (10, "AF (bit 10)", "the page is accessed"),
            (7, "AP[2] (bit 7)", "the page is dirty"),
        ] {
            let [before, after] = [expected, new].map(|value| bits(value, bit, bit));
            if before != after {
                self.item(name, &format!("{before} -> {after}: {told}"));
            }
        }
    }
}

/// A text in lines of at most so many columns, where no word is longer.
fn wrapped(text: &str, width: usize) -> Vec<String> {
    let mut lines = vec![String::new()];
    for word in text.split(' ') {
        let last = lines.len() - 1;
        if lines[last].is_empty() {
            lines[last] = word.to_string();
        } else if lines[last].len() + 1 + word.len() <= width {
            lines[last] += " ";
            lines[last] += word;
        } else {
            lines.push(word.to_string());
        }
    }
    lines
}

/// A problem's words, without the number of the refusal.
fn words(problem: &Problem) -> String {
    let whole = problem.to_string();
    match whole.split_once(": ") {
        Some((_, words)) => words.to_string(),
        None => whole,
    }
}

/// Bits 62 to 59 of a table.
fn table_bits(bits: [bool; 4]) -> String {
    let [ap1, ap0, uxn, pxn] = bits.map(u8::from);
    format!("APTable {ap1}{ap0}  UXNTable {uxn}  PXNTable {pxn}")
}

fn place(level: u8, reads: u8) -> String {
    match reads {
        1 => format!("level {level}, 1 read"),
        _ => format!("level {level}, {reads} reads"),
    }
}

/// A power of two as a size.
fn bytes(size: u64) -> String {
    match size.trailing_zeros() {
        30.. => format!("{} GiB", size >> 30),
        20.. => format!("{} MiB", size >> 20),
        _ => format!("{} KiB", size >> 10),
    }
}

fn yes(flag: bool) -> &'static str {
    if flag {
        "yes"
    } else {
        "no"
    }
}

fn switch(on: bool) -> &'static str {
    if on {
        "on"
    } else {
        "off"
    }
}

fn level_name(level: ExceptionLevel) -> &'static str {
    match level {
        ExceptionLevel::El0 => "EL0",
        ExceptionLevel::El1 => "EL1",
    }
}

fn kind(kind: AccessKind) -> &'static str {
    match kind {
        AccessKind::Read => "read",
        AccessKind::Write => "write",
        AccessKind::Update => "update (atomic read and write)",
        AccessKind::Fetch => "fetch",
        AccessKind::ProbeRead => "probe for a read",
        AccessKind::ProbeWrite => "probe for a write",
    }
}

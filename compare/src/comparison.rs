//! Puts each case to both walkers and holds their answers and memories
//! against each other. The first difference ends the run with status 1.

use compare::boundary::{plain_answer, CAnswer, Library, LibraryStepwise};
use compare::cases::{Case, Runner};
use compare::reference::{
    self, offset_in_memory, read_descriptor, write_descriptor, Regime, Walk, MEMORY_LIMIT,
};
use compare::stepwise::{self, Trial};
use compare::tally::Tally;
use compare::{bare, promises, reversed};

/// Bytes kept on both sides of the lent memory; nobody may touch them.
const MARGIN: usize = 64;
const MARGIN_BYTE: u8 = 0xA5;

pub struct Comparison {
    library: Library,
    seed: u64,
    trace: bool,
    pub number: u64,
    pub tally: Tally,
    pub stepwise: Trial<LibraryStepwise>,
    expected: Vec<u8>,
    arena: Vec<u8>,
}

impl Comparison {
    pub fn new(library: Library, stepwise: LibraryStepwise, seed: u64, trace: bool) -> Self {
        Comparison {
            library,
            seed,
            trace,
            number: 0,
            tally: Tally::default(),
            stepwise: Trial::new(stepwise, seed),
            expected: Vec::with_capacity(MEMORY_LIMIT + 1),
            arena: vec![MARGIN_BYTE; MEMORY_LIMIT + 1 + 3 * MARGIN],
        }
    }

    /// Walks once more without the tables' bits, over the memory as it was
    /// before; what is wrong with that.
    fn wrong_bare(
        &mut self,
        case: &Case,
        start: usize,
        before: &[u8],
        walk: &Walk,
        answer: &CAnswer,
    ) -> Option<String> {
        let lent = &mut self.arena[start..start + before.len()];
        if let Some((leaf, at)) = walk.leaf {
            write_descriptor(lent, at, leaf.descriptor, case.regime.ee);
        }
        let (regime, access) = (case.regime, case.access);
        let again = |lent: &mut [u8]| self.library.walk(lent, regime, access, case.spelling);
        let other_bytes = || Some("without the tables' bits other bytes change".to_string());
        match bare::check(regime, access, walk, answer, lent, again) {
            Err(words) => Some(words),
            Ok(true) if lent != before => other_bytes(),
            Ok(true) if !self.margins_stand(start, before.len()) => other_bytes(),
            Ok(_) => None,
        }
    }

    /// Walks once more in the other byte order, where that is due, over the
    /// memory as it was before; what is wrong with that.
    fn wrong_reversed(
        &mut self,
        case: &Case,
        start: usize,
        length: usize,
        answer: &CAnswer,
    ) -> Option<String> {
        if !reversed::is_due(self.number) {
            return None;
        }
        let lent = &mut self.arena[start..start + length];
        let again = |lent: &mut [u8], other: &Regime| {
            self.library.walk(lent, other, case.access, case.spelling)
        };
        match reversed::check(case.regime, answer, &self.expected, lent, again) {
            Err(words) => Some(words),
            Ok(true) if !self.margins_stand(start, length) => {
                Some("in the other byte order bytes beside the memory were written".to_string())
            }
            Ok(_) => None,
        }
    }

    /// Walks once more a descriptor at a time, where that is due; what is wrong
    /// with that.
    fn wrong_stepwise(&mut self, case: &Case, before: &mut [u8], walk: &Walk) -> Option<String> {
        if !stepwise::is_due(self.number) {
            return None;
        }
        let held = self.stepwise.case(case, before, &self.expected, walk);
        held.err()
            .map(|why| format!("a descriptor at a time: {why}"))
    }

    /// Whether nobody has written beside the memory.
    fn margins_stand(&self, start: usize, length: usize) -> bool {
        let before = &self.arena[start - MARGIN..start];
        let behind = &self.arena[start + length..][..MARGIN];
        before.iter().chain(behind).all(|&b| b == MARGIN_BYTE)
    }

    /// Everything there is to know about a case, and the end of the run.
    fn fail(
        &self,
        case: &Case,
        before: &[u8],
        after: &[u8],
        walk: &Walk,
        answer: &CAnswer,
        why: &[String],
    ) -> ! {
        println!("DIFFERENCE in case {} of seed {}", self.number, self.seed);
        for line in why {
            println!("  {line}");
        }
        println!("family: {}, expected: {:?}", case.family, case.expect);
        println!("memory: {} bytes", before.len());
        println!("regime: {:#x?}", case.spelling.regime(case.regime));
        println!("access: {:#x?}", case.spelling.access(case.access));
        for &entry in &walk.visited {
            match offset_in_memory(&case.regime.pool, entry) {
                Some(offset) => {
                    let descriptor = read_descriptor(before, offset, case.regime.ee);
                    println!("descriptor at {entry:#x}: {descriptor:#018x}");
                }
                None => println!("descriptor at {entry:#x}: not in the pool"),
            }
        }
        println!("reference: {:#x?}", plain_answer(&walk.answer));
        println!("library: {answer:#x?}");
        let pairs = self.expected.iter().zip(after);
        match pairs.clone().position(|(want, got)| want != got) {
            Some(at) => println!(
                "first differing byte: offset {at:#x}, before {:#04x}, reference {:#04x}, library {:#04x}",
                before[at], self.expected[at], after[at]
            ),
            None => println!("first differing byte: none"),
        }
        std::process::exit(1);
    }
}

impl Runner for Comparison {
    fn run(&mut self, memory: &mut Vec<u8>, case: &Case) {
        self.number += 1;
        if self.trace {
            eprintln!(
                "case {}: {} bytes, {:x?}, {:x?}",
                self.number,
                memory.len(),
                case.spelling.regime(case.regime),
                case.spelling.access(case.access)
            );
        }

        self.expected.clear();
        self.expected.extend_from_slice(memory);
        let walk = reference::walk(&mut self.expected, case.regime, case.access);

        // The lent memory starts at any byte, aligned or not.
        let start = MARGIN + (self.number % 16) as usize;
        let end = start + memory.len();
        self.arena[start - MARGIN..start].fill(MARGIN_BYTE);
        self.arena[start..end].copy_from_slice(memory);
        self.arena[end..end + MARGIN].fill(MARGIN_BYTE);
        let lent = &mut self.arena[start..end];
        let answer = self
            .library
            .walk(lent, case.regime, case.access, case.spelling);

        let after = &self.arena[start..end];
        let mut why = Vec::new();
        if answer != plain_answer(&walk.answer) {
            why.push("the answers differ".to_string());
        }
        if after != &self.expected[..] {
            why.push("the memories differ".to_string());
        }
        if !self.margins_stand(start, memory.len()) {
            why.push("bytes beside the memory were written".to_string());
        }
        if let Err(broken) = promises::check(
            case.regime,
            case.access,
            &answer,
            memory,
            after,
            &walk,
            case.expect,
        ) {
            why.push(format!("promise broken: {broken}"));
        }
        if !why.is_empty() {
            self.fail(case, memory, after, &walk, &answer, &why);
        }
        let bare = self.wrong_bare(case, start, memory, &walk, &answer);
        let wrong = bare
            .or_else(|| self.wrong_reversed(case, start, memory.len(), &answer))
            .or_else(|| self.wrong_stepwise(case, memory, &walk));
        if let Some(words) = wrong {
            let after = &self.arena[start..end];
            self.fail(case, memory, after, &walk, &answer, &[words]);
        }

        self.tally.note(case, memory, &walk, &answer);
        std::mem::swap(memory, &mut self.expected);
    }
}

//! Compares the library with a second program.
//!
//! `compare [seed] [--trace]`: its walk over many made cases, and a descriptor
//! at a time over some of them, over readers that are no pools and from any
//! bytes; its harvest over many others; then its session over many made
//! scripts, and from any bytes. The seed is decimal or 0x hexadecimal. With
//! `--trace` each case and each call is told on standard error before the
//! library is called, so that a crash can be placed.
//!
//! `compare vectors FILE..`: library and second program on the cases of files,
//! which also say what should come of them (`vectors/README.md`).
//!
//! The status is 0, or 1 where there is a difference, or 2 where the arguments
//! or a file cannot be used.

mod comparison;

use compare::boundary::{
    CAccess, CAnswer, CRegime, CSession, CStepwise, Harvester, Library, LibraryHarvest,
    LibrarySession, LibraryStepwise, SessionFunctions, Spelling, Stepper, StepwiseFunctions,
};
use compare::reference::{Access, Regime};
use compare::stepwise::Trial;
use compare::vectors::{File, Party};
use compare::{cases, harvest, scripts};
use comparison::Comparison;
use std::process::ExitCode;

const DEFAULT_SEED: u64 = 0x0148_7D1E_5CA1_AB1E;

// The statuses other than 0.
const DIFFERENT: u8 = 1;
const UNUSABLE: u8 = 2;

extern "C" {
    fn vmsa_walk(
        memory: *mut u8,
        length: usize,
        regime: *const CRegime,
        access: *const CAccess,
        answer: *mut CAnswer,
    );
    fn vmsa_session_empty(session: *mut CSession);
    fn vmsa_session_set_regime(
        session: *mut CSession,
        memory: *const u8,
        length: usize,
        regime: *const CRegime,
    ) -> u8;
    fn vmsa_session_access(
        session: *mut CSession,
        memory: *mut u8,
        length: usize,
        access: *const CAccess,
        answer: *mut CAnswer,
    );
    fn vmsa_session_store(
        session: *mut CSession,
        memory: *mut u8,
        length: usize,
        address: u64,
        value: u64,
    ) -> u8;
    fn vmsa_session_invalidate_all(session: *mut CSession);
    fn vmsa_session_harvest(
        session: *mut CSession,
        memory: *mut u8,
        length: usize,
        first: u64,
        count: u64,
        map: *mut u8,
        map_length: usize,
    ) -> u8;
    fn vmsa_harvest(
        memory: *mut u8,
        length: usize,
        regime: *const CRegime,
        first: u64,
        count: u64,
        map: *mut u8,
        map_length: usize,
    ) -> u8;
    fn vmsa_stepwise_start(regime: *const CRegime, access: *const CAccess, walk: *mut CStepwise);
    fn vmsa_stepwise_value(walk: *mut CStepwise, value: u64) -> u8;
    fn vmsa_stepwise_unreachable(walk: *mut CStepwise) -> u8;
}

const SESSION: SessionFunctions = SessionFunctions {
    empty: vmsa_session_empty,
    set_regime: vmsa_session_set_regime,
    access: vmsa_session_access,
    store: vmsa_session_store,
    invalidate_all: vmsa_session_invalidate_all,
    harvest: vmsa_session_harvest,
};

const STEPWISE: StepwiseFunctions = StepwiseFunctions {
    start: vmsa_stepwise_start,
    value: vmsa_stepwise_value,
    unreachable: vmsa_stepwise_unreachable,
};

/// The library's walk a descriptor at a time.
fn stepwise() -> LibraryStepwise {
    // SAFETY: these are the functions under test; that they keep to the
    // structs they are lent is what they promise.
    unsafe { LibraryStepwise::new(STEPWISE) }
}

/// The library's plain harvest.
fn harvester() -> LibraryHarvest {
    // SAFETY: as above, and the margins look after memory and map.
    unsafe { LibraryHarvest::new(vmsa_harvest) }
}

fn parse_seed(text: &str) -> Option<u64> {
    match text.strip_prefix("0x") {
        Some(digits) => u64::from_str_radix(digits, 16).ok(),
        None => text.parse().ok(),
    }
}

/// The walk; a difference ends the run at once.
fn compare_walks(seed: u64, trace: bool) -> bool {
    // SAFETY: this is the function under test; that it keeps to its lent
    // memory is what it promises, and the margins look after that.
    let library = unsafe { Library::new(vmsa_walk) };
    let mut comparison = Comparison::new(library, stepwise(), seed, trace);
    cases::run_all(seed, &mut comparison);
    if !comparison.tally.report() {
        return false;
    }
    println!("compared {} cases, 0 differences", comparison.number);
    compare_stepwise(seed, trace, comparison.stepwise)
}

/// The walk a descriptor at a time, which the cases have begun with.
fn compare_stepwise(seed: u64, trace: bool, mut trial: Trial<LibraryStepwise>) -> bool {
    if let Err(difference) = trial.run_all(trace) {
        println!("with seed {seed}: {difference}");
        return false;
    }
    if !trial.tally.report() {
        return false;
    }
    let (walks, foreign) = (trial.tally.walks(), trial.tally.foreign());
    println!("compared {walks} stepwise walks and {foreign} of any bytes, 0 differences");
    true
}

/// The plain harvest.
fn compare_harvests(seed: u64, trace: bool) -> bool {
    let mut trial = harvest::Trial::new(harvester(), seed, trace);
    if let Err(difference) = trial.run_all() {
        println!("with seed {seed}: {difference}");
        return false;
    }
    if !trial.tally.report() {
        return false;
    }
    let (harvests, pages) = (trial.tally.harvests(), trial.tally.pages());
    println!("compared {harvests} harvests, {pages} pages, 0 differences");
    true
}

/// The session.
fn compare_scripts(seed: u64, trace: bool) -> bool {
    // SAFETY: as above.
    let fresh = |noise| unsafe { LibrarySession::fresh(SESSION, noise) };
    let mut tally = scripts::Tally::default();
    if let Err(difference) = scripts::run_all(seed, trace, fresh, &mut tally) {
        println!("{difference}");
        return false;
    }
    if !tally.report() {
        return false;
    }
    let (scripts, calls) = (tally.scripts(), tally.calls());
    println!("compared {scripts} scripts, {calls} calls, 0 differences");
    true
}

/// The library as linked, for the vectors.
struct Linked;

impl Party for Linked {
    const NAME: &'static str = "library";
    type Session = LibrarySession;

    fn walk(
        &self,
        memory: &mut [u8],
        regime: &Regime,
        access: &Access,
        spelling: Spelling,
    ) -> (CAnswer, Option<Vec<u64>>) {
        // SAFETY: as above.
        let library = unsafe { Library::new(vmsa_walk) };
        (library.walk(memory, regime, access, spelling), None)
    }

    fn fresh(&self, noise: u64) -> Result<LibrarySession, String> {
        // SAFETY: as above.
        unsafe { LibrarySession::fresh(SESSION, noise) }
    }

    fn stepper(&self) -> impl Stepper {
        stepwise()
    }

    fn harvester(&self) -> impl Harvester {
        harvester()
    }
}

/// The vectors of some files, once all of them are read.
fn hold_vectors(names: &[String]) -> ExitCode {
    let files: Result<Vec<File>, String> = names.iter().map(|name| File::open(name)).collect();
    let files = match files {
        Ok(files) => files,
        Err(problem) => {
            eprintln!("{problem}");
            return ExitCode::from(UNUSABLE);
        }
    };
    let mut all_same = true;
    for file in &files {
        let report = file.hold(&Linked);
        println!("{report}");
        all_same &= report.differences.is_empty();
    }
    verdict(all_same)
}

/// The made cases and scripts.
fn compare_made(arguments: &[String]) -> ExitCode {
    let mut seed = DEFAULT_SEED;
    let mut trace = false;
    for argument in arguments {
        match parse_seed(argument) {
            Some(number) => seed = number,
            None if argument == "--trace" => trace = true,
            None => return usage(),
        }
    }
    println!("seed {seed}");
    let all_same = compare_walks(seed, trace) && compare_harvests(seed, trace);
    verdict(all_same && compare_scripts(seed, trace))
}

fn verdict(all_same: bool) -> ExitCode {
    if all_same {
        ExitCode::SUCCESS
    } else {
        ExitCode::from(DIFFERENT)
    }
}

fn usage() -> ExitCode {
    eprintln!("usage: compare [seed] [--trace]");
    eprintln!("       compare vectors FILE..");
    ExitCode::from(UNUSABLE)
}

fn main() -> ExitCode {
    let arguments: Vec<String> = std::env::args().skip(1).collect();
    match arguments.split_first() {
        Some((first, [])) if first == "vectors" => usage(),
        Some((first, names)) if first == "vectors" => hold_vectors(names),
        _ => compare_made(&arguments),
    }
}

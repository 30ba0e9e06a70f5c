//! The library's speed as a ratio to a plain Rust version of the same rules,
//! both measured in one run.
//!
//! `bench [CALLS]` checks that both give the same answers and prints one line
//! for each kernel, `bench time KERNEL` for one alone; `bench check` does no
//! more than the check. `bench count KERNEL SIDE CALLS` runs one side of a
//! kernel, for a tool that counts instructions; `bench kernels` lists the
//! kernels.

mod boundary;
mod check;
mod kernels;
mod plain;
mod steps;

use std::env;
use std::hint::black_box;
use std::process::ExitCode;
use std::time::Instant;

use kernels::{Bed, Kernel, Side};

const CALLS: u64 = 10_000_000;
const ROUNDS: u64 = 7;

fn main() -> ExitCode {
    let arguments: Vec<String> = env::args().skip(1).collect();
    let arguments: Vec<&str> = arguments.iter().map(String::as_str).collect();
    match arguments[..] {
        [] => measure(&Kernel::all(), CALLS),
        ["check"] => check(),
        ["kernels"] => {
            for kernel in Kernel::all() {
                println!("{}", kernel.name());
            }
        }
        ["time", kernel] => match Kernel::named(kernel) {
            Some(kernel) => measure(&[kernel], CALLS),
            None => return usage(),
        },
        ["count", kernel, side, calls] => {
            let (Some(kernel), Some(side), Ok(calls)) =
                (Kernel::named(kernel), Side::named(side), calls.parse())
            else {
                return usage();
            };
            black_box(Bed::new(kernel).run(kernel, side, calls));
        }
        [calls] => match calls.parse() {
            Ok(calls) if calls >= ROUNDS => measure(&Kernel::all(), calls),
            _ => return usage(),
        },
        _ => return usage(),
    }
    ExitCode::SUCCESS
}

fn usage() -> ExitCode {
    eprintln!("bench [CALLS, at least {ROUNDS}]");
    eprintln!("bench check");
    eprintln!("bench kernels");
    eprintln!("bench time KERNEL");
    eprintln!("bench count KERNEL ours|plain|loop CALLS");
    ExitCode::FAILURE
}

fn check() {
    let compared = check::same_answers();
    println!("{compared} random calls: all answers and all bytes the same on both sides");
}

fn measure(kernels: &[Kernel], calls: u64) {
    check();
    let calls = calls / ROUNDS;
    println!(
        "{ROUNDS} rounds of {calls} calls for each side in turn (of a harvest, fewer); median; \
         call against call (no plain function is inlined)"
    );
    for &kernel in kernels {
        let [ours, plain] = times(kernel, (calls / kernel.weight()).max(1)).map(median);
        println!(
            "{:<21} ours {ours:10.2} ns  plain {plain:10.2} ns  ratio {:6.2}",
            kernel.name(),
            ours / plain,
        );
    }
}

/// The time of one call in each round, on our side and on the plain one.
fn times(kernel: Kernel, calls: u64) -> [Vec<f64>; 2] {
    let mut bed = Bed::new(kernel);
    let mut times = [Vec::new(), Vec::new()];
    for round in 0..ROUNDS {
        let mut sums = [0; 2];
        let first = round as usize % 2;
        let around = if kernel.prepares() {
            run(&mut bed, kernel, Side::Loop, calls).1
        } else {
            0.0
        };
        for side in [first, 1 - first] {
            let (sum, time) = run(&mut bed, kernel, [Side::Ours, Side::Plain][side], calls);
            sums[side] = sum;
            times[side].push(time - around);
        }
        assert_eq!(sums[0], sums[1], "{}: other answers", kernel.name());
    }
    assert!(bed.same_bytes(), "{}: other bytes", kernel.name());
    times
}

/// The checksum of so many calls, and the time of one.
fn run(bed: &mut Bed, kernel: Kernel, side: Side, calls: u64) -> (u64, f64) {
    let start = Instant::now();
    let sum = bed.run(kernel, side, calls);
    (sum, start.elapsed().as_secs_f64() / calls as f64 * 1e9)
}

fn median(mut times: Vec<f64>) -> f64 {
    times.sort_by(f64::total_cmp);
    times[times.len() / 2]
}

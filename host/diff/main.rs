//! Compares the library with the model on random calls.
//!
//!   diff [CALLS] [SEED]   CALLS random calls, 1 or more (200000), from SEED (1)
//!   diff directed         the cases of directed.rs, against the library and against the model
//!
//! The status is 0 if all is equal and, from 200000 calls on, every answer on the list of tally.rs was met.

mod chance;
mod demand;
mod directed;
mod drives;
mod fragments;
mod random;
mod service;
mod tally;

use std::process::ExitCode;
use std::sync::atomic::Ordering;
use std::time::Instant;

const GATE_CALLS: u64 = 200_000;

extern "C" {
    fn signal(number: i32, handler: extern "C" fn(i32)) -> usize;
    fn _exit(status: i32) -> !;
}

const SIGSEGV: i32 = 11;
const SIGBUS: i32 = 7;

/// The machine stopped a call at memory that was not lent to it.
extern "C" fn stopped(_: i32) {
    let (seed, call) = (random::SEED.load(Ordering::Relaxed), random::CALL.load(Ordering::Relaxed));
    match directed::doing() {
        Some(case) => eprintln!("directed: {case} FAILED: the library touched memory that it must not touch"),
        None => eprintln!("diff: seed {seed}, call {call}: the library touched memory that was not lent to it"),
    }
    unsafe { _exit(1) }
}

fn main() -> ExitCode {
    unsafe {
        signal(SIGSEGV, stopped);
        signal(SIGBUS, stopped);
    }
    let arguments: Vec<String> = std::env::args().skip(1).collect();
    if arguments.first().is_some_and(|first| first == "directed") {
        return directed::run();
    }
    let number = |at: usize, otherwise: u64| arguments.get(at).map_or(Ok(otherwise), |text| text.parse());
    let (Ok(calls), Ok(seed)) = (number(0, GATE_CALLS), number(1, 1)) else {
        eprintln!("usage: diff [CALLS] [SEED] | diff directed");
        return ExitCode::from(2);
    };
    if calls == 0 {
        eprintln!("diff: no calls, so nothing would be compared: CALLS is 1 or more");
        return ExitCode::from(2);
    }
    println!("diff: {calls} calls, seed {seed}");
    let begun = Instant::now();
    match random::Run::new(seed, calls).run() {
        Err(what) => {
            println!("diff: DIFFERENCE\n{what}");
            ExitCode::FAILURE
        }
        Ok(tally) => {
            tally.print();
            let missing = tally.missing();
            if calls >= GATE_CALLS && !missing.is_empty() {
                println!("diff: never met: {}", missing.join("; "));
                return ExitCode::FAILURE;
            }
            println!("diff: {calls} calls, seed {seed}: all equal, {:.1} s", begun.elapsed().as_secs_f64());
            ExitCode::SUCCESS
        }
    }
}

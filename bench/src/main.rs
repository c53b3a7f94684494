//! Times this library against the upstream crate, two of its peers and loops by hand, on the same work in one run.
//!
//! It prints a table: a row a case, a column a contestant, with the median time of a call.

mod asn1_certificates;
mod by_hand;
mod certificates;
mod inputs;
mod measure;
mod messages;
mod options;
mod port;
mod raw;
mod reading;
mod sets;
mod strings;
mod times;
mod writing;

use measure::Case;
use std::env;
use std::process::{Command, ExitCode};

// The word before the name of a case that this process is to time.
const ONLY: &str = "only";

fn main() -> ExitCode {
    let mut words = env::args().skip(1);
    let first = words.next().unwrap_or_default();
    let agree = match words.next() {
        Some(name) if first == ONLY => time_only(&name),
        _ => time_each(&first),
    };
    if agree {
        ExitCode::SUCCESS
    } else {
        ExitCode::FAILURE
    }
}

fn cases() -> impl Iterator<Item = Case> {
    reading::cases()
        .into_iter()
        .chain(writing::cases())
        .chain(sets::cases())
        .chain(raw::cases())
        .chain(strings::cases())
        .chain(times::cases())
        .chain(messages::cases())
        .chain(options::cases())
}

// Times each case whose name holds this, and returns whether the contestants agree. Each has a process of its own: what the
// contestants of one leave on the heap moves the times of another by up to a tenth.
fn time_each(wanted: &str) -> bool {
    let Ok(program) = env::current_exe() else {
        return false;
    };
    let mut agree = true;
    measure::print_head();
    for case in cases().filter(|case| case.name.contains(wanted)) {
        let timed = Command::new(&program).args([ONLY, case.name]).status();
        agree &= timed.is_ok_and(|status| status.success());
    }
    agree
}

// Times the case of this name in this process. `bench/count` has one contestant work alone, a call a round.
fn time_only(name: &str) -> bool {
    let rounds = env::var("ROUNDS")
        .ok()
        .and_then(|rounds| rounds.parse().ok())
        .unwrap_or(31);
    let alone = env::var("ALONE").ok();
    cases()
        .filter(|case| case.name == name)
        .map(|case| match &alone {
            Some(title) => case.of(title).by_one_call(),
            None => case,
        })
        .all(|case| measure::print_row(case, rounds))
}

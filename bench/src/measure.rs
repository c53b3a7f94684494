//! Cases, and how they are timed.

use std::hint::black_box;

/// Who does the work.
#[derive(Clone, Copy, PartialEq)]
pub enum Contestant {
    Port,
    Upstream,
    Asn1,
    Bcder,
    ByHand,
}

use Contestant::{Asn1, Bcder, ByHand, Port, Upstream};

impl Contestant {
    /// What is over its column.
    fn title(self) -> &'static str {
        match self {
            Port => "here",
            Upstream => "upstream",
            Asn1 => "asn1",
            Bcder => "bcder",
            ByHand => "by hand",
        }
    }
}

const COLUMNS: [Contestant; 5] = [Port, Upstream, Asn1, Bcder, ByHand];

type Work = Box<dyn FnMut() -> u64>;

/// One piece of work, which each contestant does and returns by the same number.
pub struct Case {
    pub name: &'static str,
    /// How many calls make one measurement.
    calls: usize,
    /// What a call's time is divided by.
    parts: usize,
    works: Vec<(Contestant, Work)>,
}

impl Case {
    pub fn new(name: &'static str, calls: usize) -> Case {
        Case {
            name,
            calls,
            parts: 1,
            works: Vec::new(),
        }
    }

    /// The time is told for each of so many parts.
    pub fn by_parts(mut self, parts: usize) -> Case {
        self.parts = parts;
        self
    }

    pub fn with(mut self, contestant: Contestant, work: impl FnMut() -> u64 + 'static) -> Case {
        self.works.push((contestant, Box::new(work)));
        self
    }

    /// One call makes a measurement.
    pub fn by_one_call(mut self) -> Case {
        self.calls = 1;
        self
    }

    /// Of the contestants only the one with this title works.
    pub fn of(mut self, title: &str) -> Case {
        self.works.retain(|(who, _)| who.title() == title);
        self
    }
}

pub fn print_head() {
    let titles = COLUMNS.map(Contestant::title).join(" | ");
    println!("| Case | {titles} | here / upstream |");
    println!("|---|---|---|---|---|---|---|");
}

/// Times a case, its contestants in turn, and prints its row. Returns whether all returned the same number.
pub fn print_row(mut case: Case, rounds: usize) -> bool {
    let answers: Vec<u64> = case.works.iter_mut().map(|(_, work)| work()).collect();
    let mut times: Vec<Vec<f64>> = vec![Vec::new(); case.works.len()];
    for _ in 0..rounds {
        for ((_, work), times) in case.works.iter_mut().zip(&mut times) {
            let start = processor_time();
            for _ in 0..case.calls {
                black_box(work());
            }
            times.push((processor_time() - start) / (case.calls * case.parts) as f64);
        }
    }
    let median_of = |contestant| {
        let place = case.works.iter().position(|(who, _)| *who == contestant)?;
        Some(median(times[place].clone()))
    };
    let cells: Vec<String> = COLUMNS
        .iter()
        .map(|who| median_of(*who).map_or("".into(), shown))
        .collect();
    let ratio = match (median_of(Port), median_of(Upstream)) {
        (Some(port), Some(upstream)) => format!("{:.2}", port / upstream),
        _ => String::new(),
    };
    println!("| {} | {} | {ratio} |", case.name, cells.join(" | "));
    let agree = answers.iter().all(|answer| *answer == answers[0]);
    if !agree {
        println!("the answers differ: {answers:?}");
    }
    agree
}

fn median(mut times: Vec<f64>) -> f64 {
    times.sort_by(f64::total_cmp);
    times[times.len() / 2]
}

// A time in nanoseconds, as text.
fn shown(nanoseconds: f64) -> String {
    match nanoseconds {
        t if t < 1e4 => format!("{t:.1} ns"),
        t if t < 1e7 => format!("{:.1} µs", t / 1e3),
        t => format!("{:.1} ms", t / 1e6),
    }
}

// Nanoseconds that this thread has run.
fn processor_time() -> f64 {
    let mut time = libc::timespec {
        tv_sec: 0,
        tv_nsec: 0,
    };
    // SAFETY: the call writes to `time` alone.
    unsafe { libc::clock_gettime(libc::CLOCK_THREAD_CPUTIME_ID, &mut time) };
    time.tv_sec as f64 * 1e9 + time.tv_nsec as f64
}

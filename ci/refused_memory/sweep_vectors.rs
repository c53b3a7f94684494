//! Refuses each request for memory of the vectors once, in a run of its own.
//!
//!     sweep_vectors PROGRAM ALLOCATOR VECTORS ROWS FOLDER JOBS
//!
//! PROGRAM runs vectors in its mode `memory` (`crates/yasna_vectors/src/memory.rt`), after ALLOCATOR (`allocator.rs`), which
//! refuses one request of a run. Some vectors go into each run, and the run is made for its first request, its second, and
//! so on, until none was refused. Each refusal is one of these, and anything else is printed, and counted as failed:
//!
//! - before the vectors the program has no memory for its arguments or its input, or does without;
//! - one vector returns `OutOfMemory`;
//! - one vector returns nothing: there was no memory for its argument, or for the text of its answer;
//! - each vector returns what it says: a writer does without the memory of a mark, where an element with parts begins. One
//!   that writes such an element is there, from the vector of the request before to that of the request after;
//! - after the vectors the program has no memory for its report.
//!
//! Vectors that answer `OutOfMemory` in any case are omitted, and two that make a million requests each (`vector.rs`). Each
//! row of ROWS is to be the call of one that isn't. JOBS runs go on side by side, and FOLDER is for the files that they read.

mod outcome;
mod program;
mod vector;
mod walk;

use outcome::Outcome;
use program::{exit_code, Program};
use std::error::Error;
use std::path::{Path, PathBuf};
use std::process::ExitCode;
use std::sync::atomic::{AtomicUsize, Ordering};
use std::{env, fs, io, iter, panic, thread};
use vector::{missing_rows, vectors_of, Vector};
use walk::{Counts, Walk};

const USAGE: &str = "usage: sweep_vectors PROGRAM ALLOCATOR VECTORS ROWS FOLDER JOBS";
/// How many vectors go into a run.
const GROUP: usize = 10;

fn main() -> ExitCode {
    exit_code(run())
}

/// Sweeps all vectors, prints what came of it, and says whether nothing failed.
fn run() -> Result<bool, Box<dyn Error>> {
    let words: Vec<String> = env::args().skip(1).collect();
    let [program, allocator, vectors, rows, folder, jobs] = words.as_slice() else {
        return Err(USAGE.into());
    };
    let program = Program {
        path: program.into(),
        allocator: allocator.into(),
    };
    let text = fs::read_to_string(vectors)?;
    let vectors = vectors_of(&text)?;
    let missing = missing_rows(&fs::read_to_string(rows)?, &vectors);
    let groups = groups_of(&vectors, Path::new(folder))?;
    let counts = sweep(&program, &groups, jobs.parse()?)?;
    Ok(report(vectors.len(), missing, &counts))
}

/// Prints what the requests came to, and says whether nothing failed.
fn report(vectors: usize, missing: usize, counts: &Counts) -> bool {
    let Counts {
        refused,
        silent,
        without,
        failed,
    } = counts;
    let passed = refused + silent + without;
    let failed = failed + missing + usize::from(*refused == 0);
    if *refused == 0 {
        eprintln!("no request was refused");
    }
    println!(
        "{vectors} vectors, {passed} requests refused: {refused} answered OutOfMemory, \
         {silent} found no memory for a text or a value, {without} did without"
    );
    println!("refusals: {passed} passed, {failed} failed");
    failed == 0
}

/// The vectors of a run, and the file that holds them.
struct Group<'a> {
    vectors: Vec<&'a Vector<'a>>,
    input: PathBuf,
}

/// Deals the vectors to the groups in turn: those that take long are beside each other, and go into groups of their own.
fn groups_of<'a>(vectors: &'a [Vector<'a>], folder: &Path) -> io::Result<Vec<Group<'a>>> {
    let count = vectors.len().div_ceil(GROUP);
    let deal = |number: usize| {
        let vectors: Vec<_> = vectors.iter().skip(number).step_by(count).collect();
        let lines = vectors.iter().flat_map(|vector| [vector.line, "\n"]);
        let input = folder.join(number.to_string());
        fs::write(&input, lines.collect::<String>())?;
        Ok(Group { vectors, input })
    };
    (0..count).map(deal).collect()
}

/// Sweeps the groups, as many side by side as there are jobs.
fn sweep(program: &Program, groups: &[Group], jobs: usize) -> io::Result<Counts> {
    let next = AtomicUsize::new(0);
    let job = || {
        let mine = || groups.get(next.fetch_add(1, Ordering::Relaxed));
        iter::from_fn(mine)
            .map(|group| sweep_group(program, group))
            .sum::<io::Result<Counts>>()
    };
    thread::scope(|scope| {
        let threads: Vec<_> = (0..jobs.max(1)).map(|_| scope.spawn(job)).collect();
        threads
            .into_iter()
            .map(|thread| {
                thread
                    .join()
                    .unwrap_or_else(|why| panic::resume_unwind(why))
            })
            .sum()
    })
}

/// Sweeps a group.
fn sweep_group(program: &Program, group: &Group) -> io::Result<Counts> {
    let mut walk = Walk::new(&group.vectors);
    let end = program.sweep(&["memory"], &group.input, |request, run| {
        walk.take(request, Outcome::of(run, group.vectors.len()));
    })?;
    Ok(walk.end(end))
}

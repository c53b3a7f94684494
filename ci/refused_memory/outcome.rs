//! What a run of the program returned.

use crate::program::Run;

/// What the program says where it has no memory itself, and its status then.
const NO_MEMORY: &str = "out of memory\n";
const NO_MEMORY_STATUS: i32 = 4;

/// What a run came to.
pub enum Outcome {
    /// No request was refused, and each vector returned what it says.
    Ample,
    /// A request was refused, and each vector returned what it says.
    Unchanged,
    /// The vector at this place, counted from 1, returned `OutOfMemory`, and each other one what it says.
    Refused(usize),
    /// So with no answer: there was no memory for the vector's argument, or for the text of its answer.
    Silent(usize),
    /// There was no memory for what the program does before all vectors, or after them.
    NoMemory,
    /// Anything else, and what it was.
    Wrong(String),
}

impl Outcome {
    /// The outcome of a run of so many vectors.
    pub fn of(run: &Run, vectors: usize) -> Outcome {
        let said = String::from_utf8_lossy(&run.output);
        let errors = run.errors.as_str();
        let status = run.status.code();
        match (status, run.is_refused, errors, tally(&said, vectors)) {
            (Some(0), false, "", Some([0, 0, 0])) => Outcome::Ample,
            (Some(0), true, "", Some([0, 0, 0])) => Outcome::Unchanged,
            (Some(0), true, "", Some([1, 0, place])) => Outcome::Refused(place),
            (Some(0), true, "", Some([0, 1, place])) => Outcome::Silent(place),
            (Some(NO_MEMORY_STATUS), true, NO_MEMORY, _) if said.is_empty() => Outcome::NoMemory,
            _ => Outcome::Wrong(format!("{}\n{said}{errors}", run.status)),
        }
    }
}

/// How many vectors returned `OutOfMemory` and how many nothing, and the place of the last of these. None where the
/// program said anything else, or that it ran another number of vectors, or that one failed.
fn tally(said: &str, vectors: usize) -> Option<[usize; 3]> {
    let numbers = said.split(|digit: char| !digit.is_ascii_digit());
    let numbers: Vec<usize> = numbers.filter_map(|number| number.parse().ok()).collect();
    let &[_, refused, silent, _, place] = numbers.as_slice() else {
        return None;
    };
    let right =
        format!("{vectors} lines, {refused} refused, {silent} silent, 0 failed, place {place}\n");
    let has_place = (1..=vectors).contains(&place);
    (said == right && has_place == (refused + silent > 0)).then_some([refused, silent, place])
}

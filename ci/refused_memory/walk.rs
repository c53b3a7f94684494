//! What the requests of a run came to, one after the other.

use crate::outcome::Outcome;
use crate::vector::Vector;
use std::iter::Sum;
use std::mem;
use std::ops::Add;

/// What became of refused requests.
#[derive(Clone, Copy, Default)]
pub struct Counts {
    /// The vector returned `OutOfMemory`.
    pub refused: usize,
    /// There was no memory for an argument or a text.
    pub silent: usize,
    /// All vectors returned what they say.
    pub without: usize,
    pub failed: usize,
}

impl Add for Counts {
    type Output = Counts;

    fn add(self, other: Counts) -> Counts {
        Counts {
            refused: self.refused + other.refused,
            silent: self.silent + other.silent,
            without: self.without + other.without,
            failed: self.failed + other.failed,
        }
    }
}

impl Sum for Counts {
    fn sum<I: Iterator<Item = Counts>>(counts: I) -> Counts {
        counts.fold(Counts::default(), Add::add)
    }
}

/// The way through the requests of a run.
pub struct Walk<'a> {
    vectors: &'a [&'a Vector<'a>],
    counts: Counts,
    /// How many requests the program makes before the vectors, and after them.
    front: usize,
    behind: usize,
    /// The last vector that ran out of memory, counted from 1.
    place: usize,
    /// The requests since then that all vectors did without.
    unsettled: Vec<usize>,
}

impl<'a> Walk<'a> {
    pub fn new(vectors: &'a [&'a Vector<'a>]) -> Self {
        Walk {
            vectors,
            counts: Counts::default(),
            front: 0,
            behind: 0,
            place: 0,
            unsettled: Vec::new(),
        }
    }

    /// Takes what came of the next request.
    pub fn take(&mut self, request: usize, outcome: Outcome) {
        match outcome {
            Outcome::Refused(place) | Outcome::Silent(place) if self.is_past(place) => {
                self.fail(request, "it was of a vector whose requests were past");
            }
            Outcome::Refused(place) => {
                self.go_to(request, place);
                self.counts.refused += 1;
            }
            Outcome::Silent(place) => {
                self.go_to(request, place);
                self.counts.silent += 1;
            }
            Outcome::NoMemory if self.place == 0 => {
                // what was done without before was before the vectors too
                self.front += self.unsettled.len() + 1;
                self.unsettled.clear();
            }
            Outcome::NoMemory => {
                self.settle(self.vectors.len());
                self.behind += 1;
            }
            Outcome::Unchanged if self.behind == 0 => self.unsettled.push(request),
            Outcome::Unchanged => self.fail(request, "nothing lacked it behind the vectors"),
            Outcome::Ample => (),
            Outcome::Wrong(what) => self.fail(request, &what),
        }
    }

    /// Whether no more requests of the vector at this place are to come.
    fn is_past(&self, place: usize) -> bool {
        place < self.place || self.behind > 0
    }

    /// Goes on to the vector at this place, which ran out of memory.
    fn go_to(&mut self, request: usize, place: usize) {
        self.settle(place);
        self.pass_over(request, place);
        self.place = place;
    }

    /// Settles the requests that all vectors did without: one from the last place to this one writes an element with parts.
    fn settle(&mut self, place: usize) {
        let first = self.place.saturating_sub(1);
        let between = self.vectors.get(first..place).unwrap_or_default();
        let unsettled = mem::take(&mut self.unsettled);
        if between.iter().any(|vector| vector.writes_parts()) {
            self.counts.without += unsettled.len();
            return;
        }
        for request in unsettled {
            self.fail(request, "no vector lacked it, and none near does without");
        }
    }

    /// Notes the vectors before this place that never ran out of memory.
    fn pass_over(&mut self, request: usize, place: usize) {
        for vector in self.vectors.get(self.place..place - 1).unwrap_or_default() {
            self.fail(request, &format!("none before it was of {}", vector.line));
        }
    }

    /// Ends the way at a request that the program didn't make, and says what became of those before.
    pub fn end(mut self, request: usize) -> Counts {
        self.settle(0);
        self.pass_over(request, self.vectors.len() + 1);
        if self.front == 0 || self.behind == 0 {
            self.fail(request, "none was in front of the vectors, or none behind");
        }
        self.counts
    }

    /// Notes a request of which came what may not come.
    fn fail(&mut self, request: usize, what: &str) {
        let line = |place: usize| self.vectors.get(place).map_or("", |vector| vector.line);
        let first = line(0);
        let last = line(self.place.saturating_sub(1));
        eprintln!("at or behind {last}\n    request {request} of the run from {first}: {what}");
        self.counts.failed += 1;
    }
}

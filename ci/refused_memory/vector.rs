//! The vectors, as lines of text.

use std::collections::HashSet;

/// Calls that ask for memory a million times each, and are omitted.
const LEFT_OUT: [&str; 2] = ["ber cut 1048576/1", "der cut 1048576/1"];
/// Families of calls that write, also where the answer doesn't show what.
const WRITING: [&str; 5] = ["w", "tw", "refused", "own", "seqof_many"];

/// A line `MODE CALL ARGUMENT => ANSWER`.
pub struct Vector<'a> {
    pub line: &'a str,
    /// The line without its answer.
    case: &'a str,
    call: &'a str,
    answer: &'a str,
}

impl<'a> Vector<'a> {
    fn parse(line: &'a str) -> Option<Self> {
        let (case, answer) = line.split_once(" => ")?;
        let call = case.split(' ').nth(1)?;
        Some(Vector {
            line,
            case,
            call,
            answer,
        })
    }

    /// Whether its requests are to be refused: not where it returns `OutOfMemory` anyway.
    fn is_taken(&self) -> bool {
        !LEFT_OUT.contains(&self.case) && !self.answer.starts_with("err OutOfMemory")
    }

    /// Whether it writes an element with parts, or may do so. The last word of an answer `ok` is the encoding that was written, but
    /// for one call.
    pub fn writes_parts(&self) -> bool {
        let family = self.call.split(':').next().unwrap_or(self.call);
        match self.answer.strip_prefix("ok ") {
            Some(shown) if family != "seqof_many" => {
                shown.split(' ').next_back().is_some_and(has_parts)
            }
            _ => WRITING.contains(&family),
        }
    }
}

/// Whether this is an element in hexadecimal whose identifier says that it has parts. Pieces are between
/// `+`, and after a `*` how often one is there.
fn has_parts(form: &str) -> bool {
    let form = form.trim_start_matches('+');
    let form = form.split(['+', '*']).next().unwrap_or(form);
    form.len() % 2 == 0
        && form.bytes().all(|digit| digit.is_ascii_hexdigit())
        && form.starts_with(['2', '3', '6', '7', 'a', 'b', 'e', 'f'])
}

/// The vectors that are taken.
pub fn vectors_of(text: &str) -> Result<Vec<Vector<'_>>, String> {
    let mut vectors = Vec::new();
    for line in text.lines().filter(|line| says_something(line)) {
        let vector = Vector::parse(line).ok_or_else(|| format!("no vector: {line}"))?;
        if vector.is_taken() {
            vectors.push(vector);
        }
    }
    Ok(vectors)
}

/// Prints the rows that aren't the call of a vector, and counts them.
pub fn missing_rows(rows: &str, vectors: &[Vector]) -> usize {
    let cases: HashSet<&str> = vectors.iter().map(|vector| vector.case).collect();
    rows.lines()
        .filter(|row| says_something(row) && !cases.contains(row))
        .inspect(|row| eprintln!("no vector: {row}"))
        .count()
}

/// Whether a line is neither blank nor a comment.
fn says_something(line: &str) -> bool {
    !line.is_empty() && !line.starts_with('#')
}

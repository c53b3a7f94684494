//! What the sweeps share: a program after the allocator, which refuses one request for memory of a run.

use std::error::Error;
use std::fs::File;
use std::io;
use std::path::{Path, PathBuf};
use std::process::{Command, ExitCode, ExitStatus};

/// What the allocator writes where it refuses.
const MARK: &str = "a request for memory was refused\n";

/// A program, and the allocator before it.
pub struct Program {
    pub path: PathBuf,
    pub allocator: PathBuf,
}

/// What came of a run.
pub struct Run {
    pub status: ExitStatus,
    /// What the program wrote to standard output.
    pub output: Vec<u8>,
    /// What it wrote to standard error, without the allocator's mark.
    pub errors: String,
    /// Whether a request was refused: not where the program made fewer.
    pub is_refused: bool,
}

impl Program {
    /// Runs the program on a file for its first request, which is refused then, its second, and so on, up to the run in which
    /// none was refused. Hands on each request and its run, and returns the request that wasn't made.
    pub fn sweep(
        &self,
        arguments: &[&str],
        input: &Path,
        mut take: impl FnMut(usize, &Run),
    ) -> io::Result<usize> {
        let mut request = 1;
        loop {
            let run = self.run(arguments, input, request)?;
            take(request, &run);
            if !run.is_refused {
                return Ok(request);
            }
            request += 1;
        }
    }

    /// Runs the program on a file, and refuses this request.
    fn run(&self, arguments: &[&str], input: &Path, request: usize) -> io::Result<Run> {
        let output = Command::new(&self.path)
            .args(arguments)
            .env_clear()
            .env("LD_PRELOAD", &self.allocator)
            .env("REFUSED_REQUEST", request.to_string())
            .stdin(File::open(input)?)
            .output()?;
        let errors = String::from_utf8_lossy(&output.stderr);
        let unmarked = errors.strip_prefix(MARK);
        Ok(Run {
            status: output.status,
            output: output.stdout,
            is_refused: unmarked.is_some(),
            errors: unmarked.unwrap_or(&errors).to_owned(),
        })
    }
}

/// How a sweep ends that says whether nothing failed.
pub fn exit_code(swept: Result<bool, Box<dyn Error>>) -> ExitCode {
    match swept {
        Ok(true) => ExitCode::SUCCESS,
        Ok(false) => ExitCode::FAILURE,
        Err(error) => {
            eprintln!("sweep: {error}");
            ExitCode::from(2)
        }
    }
}

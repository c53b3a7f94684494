//! Refuses each request for memory of the program `yasna_tool` once, in a run of its own.
//!
//!     sweep_tool PROGRAM ALLOCATOR FOLDER
//!
//! PROGRAM takes a value of each kind in each mode, after ALLOCATOR (`allocator.rs`), which refuses one request of a run: its
//! first, its second, and so on, until none was refused. Each refusal is one of these, and anything else is printed, and
//! counted as failed:
//!
//! | Status | Standard output | Standard error | The request |
//! |---|---|---|---|
//! | 3 | nothing | `io` | is made while the arguments are read, before all those of the value |
//! | 1 | nothing | `ASN1Error { kind: OutOfMemory }` | is of the value |
//! | 0 | the DER encoding | nothing | is one that the program does without |
//!
//! FOLDER is for the files that the runs read.

mod program;

use program::{exit_code, Program, Run};
use std::error::Error;
use std::ops::AddAssign;
use std::path::Path;
use std::process::ExitCode;
use std::{env, fs, io};

const USAGE: &str = "usage: sweep_tool PROGRAM ALLOCATOR FOLDER";
/// What the program says where it has no memory for a value, and where it has none for its arguments.
const OUT_OF_MEMORY: &str = "ASN1Error { kind: OutOfMemory }\n";
const DEVICE: &str = "io\n";

/// A kind that the program knows, an encoding of such a value in BER, and its encodings in DER and in CER.
struct Kind {
    name: &'static str,
    ber: &'static [u8],
    der: &'static [u8],
    cer: &'static [u8],
}

const KINDS: [Kind; 10] = [
    Kind {
        name: "pair",
        ber: b"\x30\x80\x02\x01\x0a\x01\x01\x01\x00\x00",
        der: b"\x30\x06\x02\x01\x0a\x01\x01\xff",
        cer: b"\x30\x80\x02\x01\x0a\x01\x01\xff\x00\x00",
    },
    Kind {
        name: "int",
        ber: b"\x02\x81\x02\xff\x7f",
        der: b"\x02\x02\xff\x7f",
        cer: b"\x02\x02\xff\x7f",
    },
    Kind {
        name: "bool",
        ber: b"\x01\x01\x01",
        der: b"\x01\x01\xff",
        cer: b"\x01\x01\xff",
    },
    Kind {
        name: "null",
        ber: b"\x05\x81\x00",
        der: b"\x05\x00",
        cer: b"\x05\x00",
    },
    Kind {
        name: "octets",
        ber: b"\x24\x80\x04\x02He\x04\x04llo!\x00\x00",
        der: b"\x04\x06Hello!",
        cer: b"\x04\x06Hello!",
    },
    Kind {
        name: "text",
        ber: b"\x2c\x06\x04\x01\xc3\x04\x01\xa9",
        der: b"\x0c\x02\xc3\xa9",
        cer: b"\x0c\x02\xc3\xa9",
    },
    Kind {
        name: "oid",
        ber: b"\x06\x81\x04\x2a\x81\x80\x00",
        der: b"\x06\x04\x2a\x81\x80\x00",
        cer: b"\x06\x04\x2a\x81\x80\x00",
    },
    Kind {
        name: "utime",
        ber: b"\x17\x0f8201020700-0500",
        der: b"\x17\x0d820102120000Z",
        cer: b"\x17\x0d820102120000Z",
    },
    Kind {
        name: "gtime",
        ber: b"\x18\x111985110621.14159Z",
        der: b"\x18\x1319851106210829.724Z",
        cer: b"\x18\x1319851106210829.724Z",
    },
    Kind {
        name: "ints",
        ber: b"\x30\x80\x02\x01\x0a\x02\x02\xff\x7f\x00\x00",
        der: b"\x30\x07\x02\x01\x0a\x02\x02\xff\x7f",
        cer: b"\x30\x80\x02\x01\x0a\x02\x02\xff\x7f\x00\x00",
    },
];

fn main() -> ExitCode {
    exit_code(run())
}

/// Sweeps all kinds in all modes, prints what came of it, and says whether nothing failed.
fn run() -> Result<bool, Box<dyn Error>> {
    let words: Vec<String> = env::args().skip(1).collect();
    let [program, allocator, folder] = words.as_slice() else {
        return Err(USAGE.into());
    };
    let program = Program {
        path: program.into(),
        allocator: allocator.into(),
    };
    let input = Path::new(folder).join("input");
    let mut counts = Counts::default();
    for kind in &KINDS {
        let modes = [("ber", kind.ber), ("der", kind.der), ("cer", kind.cer)];
        for (mode, encoding) in modes {
            fs::write(&input, encoding)?;
            counts += sweep(&program, mode, kind, &input)?;
        }
    }
    Ok(report(&counts))
}

/// Prints what the requests came to, and says whether nothing failed.
fn report(counts: &Counts) -> bool {
    let Counts {
        arguments,
        refused,
        without,
        failed,
    } = counts;
    let calls = 3 * KINDS.len();
    let passed = arguments + refused + without;
    println!(
        "yasna_tool: {calls} calls, {passed} requests refused: {arguments} of the arguments answered io, \
         {refused} answered OutOfMemory, {without} did without, {failed} failed"
    );
    *failed == 0
}

/// Sweeps the requests of a kind in a mode.
fn sweep(program: &Program, mode: &str, kind: &Kind, input: &Path) -> io::Result<Counts> {
    let mut call = Call {
        mode,
        kind,
        counts: Counts::default(),
    };
    let end = program.sweep(&[mode, kind.name], input, |request, run| {
        call.take(request, run);
    })?;
    Ok(call.end(end))
}

/// What became of refused requests.
#[derive(Default)]
struct Counts {
    /// There was no memory for the arguments.
    arguments: usize,
    /// There was none for the value.
    refused: usize,
    /// The program did without.
    without: usize,
    failed: usize,
}

impl AddAssign for Counts {
    fn add_assign(&mut self, other: Counts) {
        self.arguments += other.arguments;
        self.refused += other.refused;
        self.without += other.without;
        self.failed += other.failed;
    }
}

/// A call of the program, and what its requests came to so far.
struct Call<'a> {
    mode: &'a str,
    kind: &'a Kind,
    counts: Counts,
}

impl Call<'_> {
    /// Takes what came of the next request.
    fn take(&mut self, request: usize, run: &Run) {
        let is_whole = run.output == self.kind.der;
        let is_empty = run.output.is_empty();
        let is_first = self.counts.refused == 0;
        match (run.is_refused, run.status.code(), run.errors.as_str()) {
            (false, Some(0), "") if is_whole => (),
            (true, Some(0), "") if is_whole => self.counts.without += 1,
            (true, Some(1), OUT_OF_MEMORY) if is_empty => self.counts.refused += 1,
            (true, Some(3), DEVICE) if is_empty && is_first => self.counts.arguments += 1,
            _ => self.fail(
                request,
                &format!("{}, {:02x?}\n{}", run.status, run.output, run.errors),
            ),
        }
    }

    /// Ends the call at a request that the program didn't make, and says what became of those before.
    fn end(mut self, request: usize) -> Counts {
        if self.counts.arguments == 0 || self.counts.refused == 0 {
            self.fail(request, "none was of the arguments, or none of the value");
        }
        self.counts
    }

    /// Notes a request of which came what may not come.
    fn fail(&mut self, request: usize, what: &str) {
        let Call { mode, kind, .. } = self;
        eprintln!("{mode} {}, request {request}: {what}", kind.name);
        self.counts.failed += 1;
    }
}

"""What ci/quick.sh runs: `rt try` on each crate with tests and on each program."""

import os
import re
import subprocess
import sys
import time
from concurrent.futures import ThreadPoolExecutor
from dataclasses import dataclass
from pathlib import Path

# A run of the vectors, compiled with checks, takes a minute on a busy machine.
SECONDS = 240
TESTS = re.compile(r"test result: \w+\. (\d+) passed; (\d+) failed")


@dataclass
class Outcome:
    """What the runs of a crate came to, and what to print of them."""

    passed: int
    failed: int
    text: str


def part(crate, name, default=b""):
    """What the file of this name beside src/ holds."""
    file = Path(f"crates/{crate}/{name}")
    return file.read_bytes() if file.exists() else default


def tried(crate, *words, given=b""):
    """Runs `rt try` in the crate's folder."""
    return subprocess.run(["rt", "try", "--seconds", str(SECONDS), *words], cwd=f"crates/{crate}", input=given, capture_output=True)


def run_tests(crate):
    ran = tried(crate, "--test")
    said = (ran.stdout + ran.stderr).decode(errors="replace")
    counts = TESTS.search(said)
    if not counts:
        return Outcome(0, 1, said)
    passed, failed = map(int, counts.groups())
    failed = failed or int(ran.returncode != 0)
    return Outcome(passed, failed, said if failed else "")


def first_difference(wrote, wanted):
    """The first line that a program wrote otherwise than its file stdout has it."""
    for number, (one, other) in enumerate(zip(wrote.split(b"\n"), wanted.split(b"\n")), 1):
        if one != other:
            return f"line {number} is {one!r}, and not {other!r}\n"
    return f"{len(wrote)} bytes, and not {len(wanted)}\n"


def run_program(crate):
    words = part(crate, "args").decode().splitlines()
    data = [word for it in sorted(Path(f"crates/{crate}/data").glob("*")) for word in ("--data", f"{it.name}={it.resolve()}")]
    ran = tried(crate, *data, "--", *words, given=part(crate, "stdin"))
    wanted, status = part(crate, "stdout"), int(part(crate, "status", b"0"))
    if ran.returncode != status:
        return Outcome(0, 1, f"status {ran.returncode}, and not {status}\n{ran.stderr.decode(errors='replace')}")
    if ran.stdout != wanted:
        return Outcome(0, 1, first_difference(ran.stdout, wanted))
    return Outcome(1, 0, "")


def has_tests(crate):
    return any("#[test]" in it.read_text() for it in Path(f"crates/{crate}/src").rglob("*.rt"))


def runs():
    """The crate, and what runs it, those that take longest first."""
    crates = sorted(it.name for it in Path("crates").iterdir() if (it / "src").is_dir())
    found = [(crate, run_tests) for crate in crates if has_tests(crate)]
    found += [(crate, run_program) for crate in crates if Path(f"crates/{crate}/src/main.rt").exists()]
    return sorted(found, key=lambda it: -len(part(it[0], "stdin")))


def timed(run):
    crate, call = run
    begun = time.monotonic()
    outcome = call(crate)
    print(f"{crate}: {outcome.passed} passed, {outcome.failed} failed, {time.monotonic() - begun:.0f} s\n{outcome.text}", end="", flush=True)
    return outcome


def main():
    with ThreadPoolExecutor(len(os.sched_getaffinity(0))) as pool:
        outcomes = list(pool.map(timed, runs()))
    passed, failed = sum(it.passed for it in outcomes), sum(it.failed for it in outcomes)
    print(f"quick: {passed} passed, {failed} failed (nothing was proved)")
    return 1 if failed or not passed else 0


if __name__ == "__main__":
    sys.exit(main())

"""What ci/gate.sh runs: the stages of the gate, each with its seconds, and one count over all of them."""

import os
import re
import shutil
import subprocess
import sys
import tempfile
import time
from contextlib import contextmanager
from dataclasses import dataclass, field
from pathlib import Path

COMMANDS = "rt rustc git awk cat cmp cp date find grep head id mkdir mktemp nproc rm sed sh sort".split()
SCRIPTS = {
    "api": [["ci/api.sh", "check"]],
    "words": [["ci/words.sh"]],
    "guide": [["ci/guide.sh"]],
    "lifetimes": [["ci/lifetimes.sh"]],
    "modules": [["ci/modules.sh"]],
    "memory": [["ci/tool_without_memory.sh"], ["ci/program_ends.sh"], ["ci/refused_memory.sh"]],
}
# What one run of `rt ci` does.
PROVED = ["proofs", "mutants", "tests", "programs"]
STAGES = ["api", "words", "guide", "lifetimes", *PROVED, "modules", "memory"]
USAGE = f"usage: sh ci/gate.sh [{'|'.join(STAGES)} [CRATE ..]]"
# The memory of a check is 1.0 to 2.6 GB, and more than five side by side save nothing.
BYTES_A_CHECK = 3_000_000_000
MOST_CHECKS = 5
# What a line of `rt ci` reports, and whether that passed.
REPORTS = [
    ("proofs", True, re.compile(r"rt: \w+( is kept|: its tests are proved| proved$)")),
    ("proofs", False, re.compile(r"rt: .*NOT PROVED")),
    ("mutants", True, re.compile(r"rt: must-fail \S+: refused")),
    ("mutants", False, re.compile(r"(rt: )?(must-fail )?\S+: (NOT REFUSED|NOT TRIED|BAD EDIT)")),
    ("tests", True, re.compile(r"rt: \w+: its tests passed")),
    ("tests", False, re.compile(r"rt: \w+: its tests FAILED")),
    ("programs", True, re.compile(r"rt: \w+ ran\b")),
]
COUNT = re.compile(r"(\d+) passed, (\d+) failed")


@dataclass
class Tally:
    """What a stage has come to."""

    passed: int = 0
    failed: int = 0
    seconds: float = 0


@dataclass
class Gate:
    """The stages that were run, and what they came to."""

    tallies: dict = field(default_factory=dict)

    def tally(self, stage):
        return self.tallies.setdefault(stage, Tally())

    def passed(self):
        return sum(it.passed for it in self.tallies.values())

    def failed(self):
        return sum(it.failed for it in self.tallies.values())


# What the gate needs


def compiles_allocator():
    """Whether rustc links the allocator that refuses requests, and the loader puts it before a program's own."""
    with tempfile.TemporaryDirectory() as room:
        library = f"{room}/allocator.so"
        words = ["--edition", "2021", "-O", "-C", "panic=abort", "--crate-type", "cdylib", "-o", library]
        made = subprocess.run(["rustc", *words, "ci/refused_memory/allocator.rs"], capture_output=True)
        if made.returncode:
            sys.stderr.write(made.stderr.decode(errors="replace"))
            return False
        given = {**os.environ, "LD_PRELOAD": library, "REFUSED_REQUEST": "1"}
        ran = subprocess.run(["sort", "/dev/null"], env=given, capture_output=True)
        return b"was refused" in ran.stderr


def runs_as_nobody():
    """Whether `rt`, which runs programs as nobody where it is root, can do so."""
    words = ["setpriv", "--reuid=65534", "--regid=65534", "--clear-groups", "--no-new-privs", "true"]
    return os.geteuid() != 0 or shutil.which("setpriv") and subprocess.run(words, capture_output=True).returncode == 0


def missing(stages):
    found = [f"the command {it}" for it in COMMANDS if not shutil.which(it)]
    if not runs_as_nobody():
        found.append("setpriv, by which root runs a program as nobody")
    if not found and "memory" in stages and not compiles_allocator():
        found.append("what rustc compiles and links with, or a loader that takes LD_PRELOAD, as glibc's does")
    return found


def available_memory():
    """The bytes that are free, and no more than the control group allows."""
    found = re.search(r"^MemAvailable:\s+(\d+)", Path("/proc/meminfo").read_text(), re.MULTILINE)
    limit = Path("/sys/fs/cgroup/memory.max")
    most = limit.read_text().strip() if limit.exists() else "max"
    return min(int(found.group(1)) * 1024, int(most) if most.isdigit() else sys.maxsize)


def set_jobs():
    """Says how many checks run side by side, and has `rt` run so many. By itself it counts 3 to 8 GB for a check."""
    if os.environ.get("RT_JOBS"):
        print(f"{os.environ['RT_JOBS']} checks run side by side, as RT_JOBS has it")
        return
    processors = len(os.sched_getaffinity(0))
    room = available_memory() // BYTES_A_CHECK
    jobs = max(1, min(processors, room, MOST_CHECKS))
    os.environ["RT_JOBS"] = str(jobs)
    print(f"{jobs} checks run side by side: {processors} processors, memory for {room}, and at most {MOST_CHECKS}")


# The crates


def crates():
    """The names of the crates, as crates.txt lists them."""
    found = re.findall(r"^(\w+)[^:#\n]*:", Path("crates.txt").read_text(), re.MULTILINE)
    return sorted(found)


def has_tests(crate):
    return any("#[test]" in it.read_text() for it in Path(f"crates/{crate}/src").rglob("*.rt"))


def has_mutants(crate):
    return any(Path(f"crates/{crate}/must-fail").glob("*.edit"))


def is_program(crate):
    return Path(f"crates/{crate}/src/main.rt").exists()


CHOICES = {"proofs": lambda crate: True, "mutants": has_mutants, "tests": has_tests, "programs": is_program}


@contextmanager
def copied(mutated):
    """A copy of the crates, in which only the crates that are named keep their mutants."""
    with tempfile.TemporaryDirectory() as room:
        for name in ("crates.txt", "HANDLES"):
            shutil.copy(name, room)
        for crate in crates():
            left_out = ["out"] if crate in mutated else ["out", "must-fail"]
            shutil.copytree(f"crates/{crate}", f"{room}/crates/{crate}", ignore=shutil.ignore_patterns(*left_out))
        subprocess.run(["git", "init", "-q", room], check=True)
        yield room


# The stages


def read_lines(words, cwd=None, env=None):
    """Runs a command, prints its lines as they come, and yields each; then its status."""
    started = subprocess.Popen(words, cwd=cwd, env=env, stdin=subprocess.DEVNULL, stdout=subprocess.PIPE, stderr=subprocess.STDOUT, errors="replace")
    for line in started.stdout:
        print(line, end="", flush=True)
        yield line.rstrip("\n")
    yield started.wait()


def run_scripts(gate, stage):
    """Runs the scripts of a stage. One that prints no count is one that passed or failed."""
    tally, begun = gate.tally(stage), time.monotonic()
    for script in SCRIPTS[stage]:
        *lines, status = read_lines(["sh", *script])
        counts = [it for it in map(COUNT.search, lines) if it]
        passed, failed = map(int, counts[-1].groups()) if counts else (int(not status), 0)
        tally.passed += passed
        tally.failed += failed or int(status != 0)
    tally.seconds += time.monotonic() - begun


def run_proofs(gate, words, wanted, cwd=None, env=None):
    """Runs `rt ci`, and counts what it reports by stage. The time up to a report is that of the report's stage."""
    tallies, last, status = {it: Tally() for it in PROVED}, time.monotonic(), 1
    for line in read_lines(words, cwd, env):
        if isinstance(line, int):
            status = line
            continue
        for stage, is_passed, pattern in REPORTS:
            if pattern.match(line):
                tally, now = tallies[stage], time.monotonic()
                tally.passed += is_passed
                tally.failed += not is_passed
                tally.seconds += now - last
                last = now
                break
    for stage in wanted:
        gate.tallies[stage] = tallies[stage]
    # what `rt ci` rejected besides, as a program that wrote something else
    if status and not gate.failed():
        gate.tally(wanted[-1]).failed += 1


def run_all(gate):
    for stage in STAGES:
        if stage in SCRIPTS:
            run_scripts(gate, stage)
        elif stage == PROVED[0]:
            run_proofs(gate, ["rt", "ci"], PROVED)


def run_stage(gate, stage, names):
    """Runs a stage alone. What it needs proved is proved, unless an earlier run has."""
    if stage in SCRIPTS:
        run_scripts(gate, stage)
        return
    chosen = [it for it in names or crates() if CHOICES[stage](it)]
    if not chosen:
        print(f"no crate of these has {stage}")
        return
    # `rt ci` takes names only where it isn't the whole gate
    env = {name: value for name, value in os.environ.items() if name != "CI"}
    with copied(chosen if stage == "mutants" else []) as room:
        run_proofs(gate, ["rt", "ci", *chosen], [stage], room, env)


def print_table(gate):
    print(f"{'stage':<10} {'passed':>7} {'failed':>7} {'seconds':>8}")
    for stage, tally in gate.tallies.items():
        print(f"{stage:<10} {tally.passed:>7} {tally.failed:>7} {tally.seconds:>8.0f}")
    print(f"{gate.passed()} passed, {gate.failed()} failed")


def main(stage=None, *names):
    unknown = [it for it in names if it not in crates()]
    if stage and (stage not in STAGES or unknown or names and stage in SCRIPTS):
        sys.exit(USAGE)
    lacking = missing([stage] if stage else STAGES)
    for it in lacking:
        print(f"missing: {it}", file=sys.stderr)
    if lacking:
        print("0 passed, 1 failed")
        return 1
    set_jobs()
    gate = Gate()
    if stage:
        run_stage(gate, stage, names)
    else:
        run_all(gate)
    print_table(gate)
    return 1 if gate.failed() or not gate.passed() else 0


if __name__ == "__main__":
    sys.exit(main(*sys.argv[1:]))

"""What ci/mutants.sh runs: `rt must-fail` over a copy of the crates, whose must-fail/ holds the edits of mutants/."""

import re
import shutil
import subprocess
import sys
import tempfile
from pathlib import Path

# What `rt must-fail` says of an edit.
RESULT = re.compile(r"(?:rt: )?(?:must-fail )?(?P<crate>\w+)/(?P<name>[\w.-]+)\.edit: (?P<said>.*)")
REFUSED = re.compile(r"refused, as it must be(?: \((?P<why>.*?)\))?(?:: (?P<goal>.*))?$")
CUT = 140


def crates_with_mutants():
    return sorted(it.name for it in Path("mutants").iterdir() if it.is_dir())


def copy_to(room, chosen):
    """Copies the crates, each with its mutants in place of its must-fail edits."""
    for name in ("crates.txt", "HANDLES"):
        shutil.copy(name, room)
    for crate in Path("crates").iterdir():
        shutil.copytree(crate, f"{room}/{crate}", ignore=shutil.ignore_patterns("out", "must-fail"))
    for crate in chosen:
        shutil.copytree(f"mutants/{crate}", f"{room}/crates/{crate}/must-fail")
    subprocess.run(["git", "init", "-q", room], check=True)


def only_by(why):
    """What a refusal that says less of the contract comes from."""
    if not why:
        return ""
    return " (only by a limit of the prover)" if "limit" in why else " (only by a name that an answer cites)"


def line_of(found):
    """Whether the mutant was refused, and the line that says so."""
    name = f"{found['crate']}/{found['name']}"
    refused = REFUSED.match(found["said"])
    if not refused:
        return False, f"{name}: {found['said']}"
    goal = re.sub(r"^(\S+?):(\d+):\d+: error: ", r"\1:\2: ", refused["goal"] or "")
    at = f" at {goal[:CUT]}" if goal else ""
    return True, f"{name}: refused{at}{only_by(refused['why'])}"


def main(*names):
    known = crates_with_mutants()
    if any(it not in known for it in names):
        sys.exit(f"usage: sh ci/mutants.sh [{'|'.join(known)} ..]")
    chosen = names or known
    wanted = {f"{crate}/{it.stem}" for crate in chosen for it in Path(f"mutants/{crate}").glob("*.edit")}
    passed, seen = 0, set()
    with tempfile.TemporaryDirectory() as room:
        copy_to(room, chosen)
        words = ["rt", "must-fail", *chosen]
        started = subprocess.Popen(words, cwd=room, stdin=subprocess.DEVNULL, stdout=subprocess.PIPE, stderr=subprocess.STDOUT, errors="replace")
        for line in started.stdout:
            found = RESULT.match(line)
            if found:
                is_refused, text = line_of(found)
                passed += is_refused
                seen.add(f"{found['crate']}/{found['name']}")
                print(text, flush=True)
            else:
                print(line, end="", file=sys.stderr, flush=True)
        started.wait()
    for name in sorted(wanted - seen):
        print(f"{name}: not tried")
    failed = len(wanted) - passed
    print(f"mutants: {passed} passed, {failed} failed")
    return 1 if failed else 0


if __name__ == "__main__":
    sys.exit(main(*sys.argv[1:]))

"""What ci/module_coverage.sh runs: `asn1compile --list` over the module files of packages, and three tables of what it said.

The files of a folder are resolved together, but for files that aren't modules of ASN.1. Beside them are the files whose modules they import from, or
these in turn. Where several files have a module of that name, it is one of the same package before others, then one that is read for the same encoding,
then the first. Only types of the folder's own files are counted.
"""

import re
import subprocess
import sys
from collections import Counter, defaultdict
from concurrent.futures import ThreadPoolExecutor
from dataclasses import dataclass, field
from functools import cache
from pathlib import Path

ENDINGS = (".asn", ".asn1")
SECONDS = 600
# A line of standard error that names a place.
PLACE = re.compile(r"^(?P<file>.*?):(?P<line>\d+):\d+: (?P<why>.*)$", re.MULTILINE)
OTHER = "the other one is here"
# A comment of X.680, 12.6.
COMMENT = re.compile(r"/\*.*?\*/|--.*?(?:--|$)", re.DOTALL | re.MULTILINE)
MODULE = re.compile(r"([A-Z][\w-]*)\s*(?:\{[^{}]*\}\s*)?DEFINITIONS\b")
IMPORTS = re.compile(r"\bIMPORTS\b(.*?);", re.DOTALL)
FROM = re.compile(r"\bFROM\s+([A-Z][\w-]*)")
# What is assigned: a type, or the type of a value.
ASSIGNED = re.compile(r"([A-Z][\w-]*)\s*(?:\{[^{}]*\}\s*)?::=")
# The options of Wireshark's compiler for a folder. `-b` is for BER, and PER goes without.
FLAGS = re.compile(r"A2W_FLAGS\b([^)]*)\)")
# What is before `::=`, and what of that is a type's.
HEAD = re.compile(r"^[ \t]*(\S[^\n]*?)?\s*::=", re.MULTILINE)
TYPE_HEAD = re.compile(r"[A-Z][\w-]*\s*(?:\{[^{}]*\})?")
LISTED = re.compile(r"^(?P<name>[\w-]+).*?: (?:exact|accepts more|rejects additions|rejects large numbers)\b.*$", re.MULTILINE)


@dataclass
class Counts:
    """What was said of the modules of a package."""

    files: int = 0
    parsed: int = 0
    exact: int = 0
    more: int = 0
    closed: int = 0
    reasons: Counter = field(default_factory=Counter)
    values: Counter = field(default_factory=Counter)

    def rejected(self):
        return sum(self.reasons.values())


@cache
def text_of(path):
    """The text of a file without comments."""
    return COMMENT.sub(" ", path.read_text(errors="replace"))


@cache
def heads_of(path):
    """The line where each assignment of a file begins, and whether it assigns a type."""
    text = COMMENT.sub(lambda it: re.sub(r"[^\n]", " ", it[0]), path.read_text(errors="replace"))
    return [(text.count("\n", 0, it.start(1)) + 1, TYPE_HEAD.fullmatch(it[1]) is not None) for it in HEAD.finditer(text) if it[1]]


def is_in_type(path, line):
    """Whether a line of a file is of the assignment of a type, and not of a value."""
    before = [is_type for begin, is_type in heads_of(path) if begin <= line]
    return not before or before[-1]


def names_in(pattern, files):
    return {name for path in files for name in pattern.findall(text_of(path))}


def imported_by(files):
    """The names of the modules that files import from."""
    return {name for path in files for words in IMPORTS.findall(text_of(path)) for name in FROM.findall(words)}


def homes_of(files):
    """The files that have a module of each name."""
    homes = defaultdict(list)
    for path in files:
        for name in names_in(MODULE, [path]):
            homes[name].append(path)
    return homes


def nearest(homes, folder, package):
    """The file among these, which have a module of one name, that a folder of a package imports it from."""
    encoding = encoding_of(folder)
    return min(homes, key=lambda it: (package not in it.parents, encoding_of(it.parent) != encoding, it))


def beside(files, homes, package):
    """The files elsewhere that these import from, and those that they import from in turn."""
    more = []
    folder = files[0].parent
    wanted = imported_by(files) - names_in(MODULE, files)
    while wanted:
        found = sorted({nearest(homes[name], folder, package) for name in wanted if name in homes} - {*files, *more})
        more += found
        wanted = imported_by(found) - names_in(MODULE, [*files, *more])
    return more


@cache
def listed(command, files):
    """What the command prints of these files on its two outputs, or None where it takes too long.

    Folders that import from one another have the same files, and share a run.
    """
    try:
        ran = subprocess.run([*command, "--list", "--use", "x509", *files], capture_output=True, timeout=SECONDS)
    except subprocess.TimeoutExpired:
        return None
    return ran.stdout.decode(errors="replace"), ran.stderr.decode(errors="replace")


def malformed(said):
    """The files that aren't modules of ASN.1. Where there is one, nothing is listed."""
    return {it["file"] for it in PLACE.finditer(said[1]) if it["why"].startswith("expected")}


def resolved(command, files):
    """What the command prints of these files but for those that aren't modules, and which are left."""
    said = listed(command, files)
    rejected = malformed(said) if said else set()
    parsed = tuple(it for it in files if str(it) not in rejected)
    if rejected:
        said = listed(command, parsed) if parsed else ("", "")
    return said, parsed


def own_lines(command, said, own, others):
    """The lines of the types of these files, where the types of the others are listed with them."""
    assigned = names_in(ASSIGNED, own)
    lines = Counter(it[0] for it in LISTED.finditer(said[0]) if it["name"] in assigned)
    if assigned & names_in(ASSIGNED, others):
        alone = listed(command, tuple(others))
        lines -= Counter(it[0] for it in LISTED.finditer(alone[0] if alone else ""))
    return list(lines.elements())


def count_folder(command, counts, files, homes, package):
    """Counts the types of the modules of a folder."""
    counts.files += len(files)
    said, parsed = resolved(command, tuple(sorted(files + beside(files, homes, package))))
    own = [it for it in parsed if it in files]
    counts.parsed += len(own)
    if said is None:
        counts.reasons[f"no end after {SECONDS} seconds"] += 1
        return
    for line in own_lines(command, said, own, [it for it in parsed if it not in files]):
        counts.exact += ": exact" in line
        counts.more += ": accepts more" in line
        counts.closed += ": rejects" in line
    paths = {str(it): it for it in own}
    for it in PLACE.finditer(said[1]):
        if it["why"] != OTHER and it["file"] in paths:
            is_type = is_in_type(paths[it["file"]], int(it["line"]))
            (counts.reasons if is_type else counts.values)[it["why"]] += 1


def count_package(command, package, homes):
    """What is said of the modules below a folder, by their encoding. Standard error has the counts so far, after each folder with modules."""
    found = defaultdict(Counts)
    files = sorted(it for it in package.rglob("*") if is_module_file(it))
    for folder in sorted({it.parent for it in files}):
        counts = found[encoding_of(folder)]
        count_folder(command, counts, [it for it in files if it.parent == folder], homes, package)
        print(f"{folder}: {counts}", file=sys.stderr, flush=True)
    return found


@cache
def encoding_of(folder):
    """The encoding that Wireshark's build reads the folder's modules for, or none where the package doesn't say."""
    build = folder / "CMakeLists.txt"
    flags = FLAGS.search(build.read_text()) if build.exists() else None
    return flags and ("BER" if "-b" in flags[1].split() else "PER")


def is_module_file(path):
    return path.suffix.lower() in ENDINGS and path.is_file()


def main(program, folder, *options):
    command = (program, *options)
    packages = sorted(it for it in Path(folder).iterdir() if it.is_dir())
    homes = homes_of(sorted(it for it in Path(folder).rglob("*") if is_module_file(it)))
    with ThreadPoolExecutor(2) as pool:
        found = list(pool.map(lambda it: count_package(command, it, homes), packages))
    rows = [(package.name, encoding, it) for package, counts in zip(packages, found) for encoding, it in counts.items()]
    print("\n| Package | Encoding | Files | Parsed | Types exact | Types that accept more | Others that reject additions or large numbers | Rejected |\n|---|---|---|---|---|---|---|---|")
    for name, encoding, it in rows:
        print(f"| `{name}` | {encoding or ''} | {it.files} | {it.parsed} | {it.exact} | {it.more} | {it.closed} | {it.rejected()} |")
    for title, is_in in [("all", lambda it: True), ("all but PER", lambda it: it != "PER")]:
        reasons = sum((it.reasons for _, encoding, it in rows if is_in(encoding)), Counter())
        print(f"\n| Why, of {title} | Times |\n|---|---|")
        for why, times in reasons.most_common():
            print(f"| {why} | {times} |")


if __name__ == "__main__":
    main(*sys.argv[1:])

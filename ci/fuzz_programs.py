"""Random input for the programs: what they say of inputs made at random is held against each other.

What has to hold, whatever the input:

| Where | So |
|---|---|
| a program ends | its status is 0 or 1 |
| asn1show lists an input to its end | in JSON its elements lie one after the other up to the end, and those in one fill its contents |
| asn1show says that an input is in DER or in CER | it says so of BER |
| asn1der converts an input | asn1show says that it is in BER |
| it converts one without an ambiguity | asn1show says that what is written is in DER |
| it converts what asn1show says is in DER | what is written are the same bytes |
| it converts what it wrote | what is written are the same bytes |
| asn1check accepts an input that isn't of LDAP | asn1show says that it is in the rules in which it was read |
| asn1check writes what it read in DER | what is written are the same bytes |
| asn1compile reads a module that is changed at random | it lists a type or reports a place |
"""

import json
import os
import re
import subprocess
import sys
import tempfile
from concurrent.futures import ProcessPoolExecutor
from dataclasses import dataclass, field
from pathlib import Path
from random import Random

from fuzz import BLOCK, STRIDE, made_input, vectors

# How many files one run of a program reads.
BATCH = 250
# One input of so many is a module for asn1compile.
MODULES_AMONG = 500
# The types of messages of asn1check, and the rules in which they are read.
KINDS = {
    **dict.fromkeys("certificate crl csr public-key private-key rsa-public-key rsa-private-key ec-private-key cms".split(), "der"),
    **dict.fromkeys("ocsp-request ocsp-response tsp-request tsp-response".split(), "der"),
    **dict.fromkeys("snmp-v1 snmp-v2c ldap".split(), "ber"),
}
# Kinds of messages in BER with elements that are kept as they came. If their length is definite, these aren't opened, as asn1show does.
KEEPING = {"ldap"}
AMBIGUOUS = re.compile(r"offset \d+: it (may|is)\b")
# What asn1show says of characters that asn1der and asn1check don't look at: a surrogate without a partner, and the types that the library doesn't read.
UNREAD_CHARACTERS = re.compile(
    r"(\b(?:BMPString|UniversalString|TIME|DATE|TIME-OF-DAY|DATE-TIME|DURATION|OID-IRI|RELATIVE-OID-IRI) .*) -- not BER: a character that the type hasn't"
)
UNIVERSAL_BITS = 3
NULL = b"\x05\x00"
# A file beside those of a batch, since programs don't name an input that is the only one.
BESIDE = "beside"
# The name of an input that is the only one.
ONLY = "input"
WORD = re.compile(rb"\s+|[A-Za-z][\w-]*|\d+|::=|\.\.\.?|.", re.DOTALL)


@dataclass
class Batch:
    """What the programs said of some inputs."""

    inputs: int = 0
    accepted: int = 0
    errors: list = field(default_factory=list)


def program(name):
    return str(Path(f"crates/{name}/out/{name}").resolve())


class Runs:
    """Runs of the programs in a folder of files, and what went wrong in them."""

    def __init__(self, folder, seeds):
        self.folder, self.seeds, self.errors = folder, seeds, []

    def fail(self, name, what):
        self.errors.append(f"seed {self.seeds.get(name, '?')}: {what}")

    def ended(self, words):
        """A program's run to its end. Its status has to be 0 or 1."""
        ran = subprocess.run([program(words[0]), *words[1:]], cwd=self.folder, stdin=subprocess.DEVNULL, capture_output=True)
        if ran.returncode not in (0, 1):
            self.errors.append(f"seeds {sorted(self.seeds.values())[:1]} ..: {words[:3]} ended with status {ran.returncode}: {ran.stderr[-200:]}")
        return ran

    def run(self, words):
        """What a program writes on its two outputs."""
        ran = self.ended(words)
        return ran.stdout, ran.stderr.decode(errors="replace")


def named(text, names):
    """The files that lines of a text begin with."""
    return {line.partition(":")[0] for line in text.splitlines()} & set(names)


def end_of(element):
    """Where an element of a listing in JSON ends, if what is in it fills its contents."""
    begin = element["offset"] + element["header"]
    children = element["children"]
    if element["length"] is None:
        inside = end_of_all(children, begin)
        return None if inside is None else inside + 2
    end = begin + element["length"]
    if element["constructed"] and end_of_all(children, begin) != end:
        return None
    if children and not element["constructed"]:
        is_bits = element["class"] == "universal" and element["tag"] == UNIVERSAL_BITS
        return end if end_of_all(children, begin + is_bits) == end else None
    return end


def end_of_all(elements, begin):
    """Where elements end that lie one after the other from here on, if they do."""
    place = begin
    for element in elements:
        if element["offset"] != place:
            return None
        place = end_of(element)
        if place is None:
            return None
    return place


def check_json(runs, names, inputs, listed):
    """The listings in JSON, of which those that were listed to their end fill the input."""
    wrote, _ = runs.run(["asn1show", "--bytes", "--json", *names])
    text, place, decoder = wrote.decode(), 0, json.JSONDecoder()
    for name in names:
        try:
            elements, place = decoder.raw_decode(text, place)
        except ValueError:
            runs.fail(name, "what is written isn't JSON")
            return
        while place < len(text) and text[place].isspace():
            place += 1
        if name in listed and end_of_all(elements, 0) != len(inputs[name]):
            runs.fail(name, "the elements don't fill the input")


def in_rules(runs, names, mode):
    """The files of which a check says nothing against these rules, but of characters that aren't read."""
    wrote, said = runs.run(["asn1show", "--bytes", f"--check={mode}", *names])
    rejected, shown = named(said, names), None
    for line in wrote.decode(errors="replace").splitlines():
        first = line.partition(":")[0]
        if first in names:
            shown = first
        elif " -- not " in UNREAD_CHARACTERS.sub(r"\1", line):
            rejected.add(shown)
    return set(names) - rejected


def check_conversion(runs, names, inputs, in_ber, in_der):
    """What asn1der converts, and returns the files."""
    wrote, said = runs.run(["asn1der", "--bytes", *names])
    ambiguous = {line.partition(":")[0] for line in said.splitlines() if AMBIGUOUS.search(line)}
    rejected = named("\n".join(line for line in said.splitlines() if not AMBIGUOUS.search(line)), names)
    converted = [it for it in names if it not in rejected]
    for name in set(converted) - in_ber:
        runs.fail(name, "asn1der converts what isn't BER")
    (runs.folder / ONLY).write_bytes(wrote)
    if wrote and runs.run(["asn1der", "--bytes", ONLY])[0] != wrote:
        runs.fail(names[0], "what asn1der wrote is converted to something else, in this batch")
    same = [it for it in converted if it in in_der and it not in ambiguous]
    if same and runs.run(["asn1der", "--bytes", *same])[0] != b"".join(inputs[it] for it in same):
        runs.fail(same[0], "asn1der changes what is in DER, in this batch")
    plain = [it for it in converted if it not in ambiguous]
    if plain:
        (runs.folder / ONLY).write_bytes(runs.run(["asn1der", "--bytes", *plain])[0])
        if not in_rules(runs, [ONLY], "der"):
            runs.fail(plain[0], "asn1der writes what isn't DER, in this batch")
    return converted


def check_messages(runs, names, inputs, rules, random):
    kind = random.choice(sorted(KINDS))
    mode = KINDS[kind]
    wrote, _ = runs.run(["asn1check", "--bytes", kind, *names])
    passed = {line.partition(": OK")[0] for line in wrote.decode(errors="replace").splitlines() if ": OK" in line}
    accepted = [it for it in names if it in passed]
    for name in set() if kind in KEEPING else set(accepted) - rules[mode]:
        runs.fail(name, f"asn1check accepts a {kind} that isn't in {mode.upper()}")
    if accepted and mode == "der" and runs.run(["asn1check", "--bytes", "--encode", kind, *accepted])[0] != b"".join(inputs[it] for it in accepted):
        runs.fail(accepted[0], f"asn1check writes a {kind} as other bytes, in this batch")


def changed_module(random, sources):
    """A module of which some words are left out, written twice or exchanged."""
    words = WORD.findall(random.choice(sources))
    for _ in range(random.randrange(1, 4)):
        place, other = random.randrange(len(words)), random.randrange(len(words))
        match random.randrange(3):
            case 0:
                words[place] = b""
            case 1:
                words[place] += b" " + words[place]
            case _:
                words[place], words[other] = words[other], words[place]
    return b"".join(words)


def check_module(runs, random, sources):
    (runs.folder / "module.asn1").write_bytes(changed_module(random, sources))
    ran = runs.ended(["asn1compile", "--list", "module.asn1"])
    # (a module without types lists nothing)
    if ran.returncode == 1 and not ran.stderr:
        runs.fail("module.asn1", "asn1compile rejects a module, and doesn't say why")


def check_batch(seeds, known, sources):
    names = {f"{place:04}": seed for place, seed in enumerate(seeds)}
    with tempfile.TemporaryDirectory() as room:
        runs = Runs(Path(room), names)
        # (an input without octets has no elements)
        inputs = {name: made_input(seed, known) or NULL for name, seed in names.items()} | {BESIDE: NULL}
        for name, octets in inputs.items():
            (runs.folder / name).write_bytes(octets)
        rules = {mode: in_rules(runs, list(inputs), mode) for mode in ("ber", "der", "cer")}
        for mode in ("der", "cer"):
            for name in rules[mode] - rules["ber"]:
                runs.fail(name, f"it is in {mode.upper()}, and not in BER")
        _, said = runs.run(["asn1show", "--bytes", "--depth", "0", *inputs])
        check_json(runs, list(inputs), inputs, set(inputs) - named(said, inputs))
        converted = check_conversion(runs, list(inputs), inputs, rules["ber"], rules["der"])
        random = Random(seeds[0])
        check_messages(runs, list(inputs), inputs, rules, random)
        for _ in range(max(1, len(seeds) // MODULES_AMONG)):
            check_module(runs, random, sources)
        return Batch(len(seeds), len(set(converted) - {BESIDE}), runs.errors)


def main(seed, count):
    seed, count, known = int(seed), int(count), vectors()
    sources = [it.read_bytes() for it in sorted(Path("modules").glob("*.asn1"))]
    total = Batch()
    with ProcessPoolExecutor(len(os.sched_getaffinity(0))) as pool:
        for begun in range(0, count, BLOCK):
            ends = min(begun + BLOCK, count)
            seeds = [(seed + place * STRIDE) % 2**64 for place in range(begun, ends)]
            batches = [seeds[at : at + BATCH] for at in range(0, len(seeds), BATCH)]
            for batch in pool.map(check_batch, batches, [known] * len(batches), [sources] * len(batches)):
                total = Batch(total.inputs + batch.inputs, total.accepted + batch.accepted, total.errors + batch.errors)
                for error in batch.errors:
                    print(error, flush=True)
            print(f"{total.inputs} inputs, {total.accepted} converted, {len(total.errors)} failed", flush=True)
    return 1 if total.errors else 0


if __name__ == "__main__":
    sys.exit(main(*sys.argv[1:]))

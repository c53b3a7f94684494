"""Random input for yasna_vectors: makes bytes of a seed, has each call read them in each mode, and holds the answers against each other.

What has to hold of the answers to a call on the same bytes:

| Where it returns | So |
|---|---|
| a value in DER | BER gives the same value, and what is written of it are the bytes that were read |
| a value in CER | BER gives the same value, and what is written of it in CER are the bytes that were read |
| a value in BER | what is written of it is read as the same value, in BER and in DER |
| anything | it is no `OutOfMemory` |

Three kinds of calls differ. What is written is read as another value, though as one that is written the same, where a bit string keeps
unused bits that are set, or where the value shows the bytes that were taken. A BMPString takes half of a pair for U+FFFD, and so other
bytes than it writes. A raw element is written as it was read, so one of BER is read again in BER.
"""

import os
import subprocess
import sys
from concurrent.futures import ProcessPoolExecutor
from dataclasses import dataclass
from pathlib import Path
from random import Random

# The calls of which all of this holds.
PLAIN = """
    bool null enum i64 i32 i16 i8 u64 u32 u16 u8 bigint bytes utf8 numeric printable ia5 visible oid utctime gtime
    seq_ib seq_i seq_sb seq_empty seq_opt seq_def seq_opts seqof_i64 seqof_choice tag3_i64 tag31_null itag3_i64 itag3_bytes
    itag3_utf8 itag31_seq itag3_tag4 itag3_itag4 rec nest2
    d:null d:bool d:int d:i32 d:i16 d:u64 d:u32 d:u16 d:pair d:pairs d:deep d:octets d:text d:oid d:utime d:gtime d:named d:ints
    d:vvi d:vbytes d:vtext d:vpair d:t1n d:t3 tup1 tup3 tup12
""".split()
# Those whose value shows bits or bytes that are written otherwise.
SHOWING = "bits itag3_bits buf buf2 buf3".split()
# That which takes two forms for one value in DER.
LENIENT = ["bmp"]
# Those that read raw elements.
RAW = "der tdv d:tdv d:vtdv".split()
CALLS = [*PLAIN, *SHOWING, *LENIENT, *RAW]
MODES = ["ber", "der", "cer"]
# Calls of the vectors whose argument isn't the bytes that are read.
MADE_BY_THE_CALL = ("whole", "cut", "seqof_many", "thrown:", "refused:")
# How many octets of a vector are taken: enough for a string in three segments in CER.
LONGEST = 2_100
# First octets of identifiers and of lengths, and others at which an encoding turns.
TURNING = [0, 1, 2, 3, 4, 5, 6, 10, 12, 16, 17, 30, 31, 36, 48, 49, 127, 128, 129, 130, 136, 163, 191, 255]
# Identifiers of constructed elements.
AROUND = [48, 49, 36, 35, 44, 160, 163, 164]
# From the seed of an input to that of the next: 2^64 over the golden ratio, whose multiples lie far from each other. So runs of up to a
# billion inputs share no seed where theirs lie within 2^32.
STRIDE = 0x9E37_79B9_7F4A_7C15
# How many inputs one run of the program reads.
BATCH = 500
# After how many inputs the counts are printed.
BLOCK = 100_000


# The inputs


def bytes_of(text):
    """The bytes that the argument of a line represents: pieces with `+` between them, `*` and a number after one that is so many times."""
    pieces = (it.partition("*") for it in text.split("+"))
    return b"".join(bytes.fromhex(digits) * int(times or 1) for digits, _, times in pieces)


def vectors():
    """The bytes of the lines that read no more of them than LONGEST."""
    found = []
    for line in Path("crates/yasna_vectors/stdin").read_text().splitlines():
        if line.startswith("#") or " => " not in line:
            continue
        mode, call, argument = line.split(" => ")[0].split(" ", 2)
        if mode == "x" or call.startswith(MADE_BY_THE_CALL) or len(argument) > 600:
            continue
        read = b"" if argument == "-" else bytes_of(argument)
        if len(read) <= LONGEST:
            found.append(read)
    return found


def any_octet(random):
    """An octet, every other time one at which an encoding turns."""
    return random.choice(TURNING) if random.randrange(2) else random.randrange(256)


def place_in(random, octets):
    return random.randrange(len(octets)) if octets else 0


def with_another(random, octets):
    place = place_in(random, octets)
    return octets[:place] + bytes([any_octet(random)] if octets else []) + octets[place + 1 :]


def with_one_more(random, octets):
    place = place_in(random, octets)
    return octets[:place] + bytes([any_octet(random)]) + octets[place:]


def with_one_less(random, octets):
    place = place_in(random, octets)
    return octets[:place] + octets[place + 1 :]


def cut(random, octets):
    return octets[: place_in(random, octets)]


def nested(random, octets):
    """The octets as the contents of an element of definite length."""
    count = len(octets).to_bytes((len(octets).bit_length() + 7) // 8, "big")
    length = bytes([len(octets)]) if len(octets) < 128 else bytes([128 + len(count)]) + count
    return bytes([random.choice(AROUND)]) + length + octets


def nested_without_length(random, octets):
    return bytes([random.choice(AROUND), 128]) + octets + bytes(2)


def made_input(seed, known):
    """The input of a seed: noise, or a vector, changed up to three times, by the changes above or with another vector after it."""
    random = Random(seed)
    octets = random.randbytes(random.randrange(24)) if random.randrange(8) == 0 else random.choice(known)
    changes = [with_another, cut, with_one_more, with_one_less, nested, nested_without_length]
    for _ in range(random.randrange(4)):
        change = random.randrange(len(changes) + 1)
        octets = changes[change](random, octets) if change < len(changes) else octets + random.choice(known)
    return octets


# The answers


def answers(program, lines):
    """What the program answers to these lines."""
    ran = subprocess.run([program, "answer"], input="\n".join(lines) + "\n", capture_output=True, text=True)
    found = ran.stdout.splitlines()
    if ran.returncode or len(found) != len(lines):
        sys.exit(f"{program} ended with status {ran.returncode} after {len(found)} answers of {len(lines)}: {ran.stderr}")
    return found


def value_and_encoding(answer):
    """The value that an answer shows and what was written of it, if it shows one."""
    if not answer.startswith("ok "):
        return None, None
    value, _, encoding = answer[3:].rpartition(" ")
    return value, encoding


def strict_error(call, mode, answer, is_same, read):
    """What is wrong with what a call returns in DER or CER."""
    _, encoding = value_and_encoding(answer)
    if encoding is None:
        return None
    if not is_same:
        return f"BER answers otherwise than {mode.upper()}"
    if call not in LENIENT and encoding != read:
        return f"{mode.upper()} took what isn't the encoding"
    return None


def first_error(call, read, ber, der, cer):
    """What is wrong with a call's answers on these bytes."""
    if {"unknown", "err OutOfMemory"} & {ber, der, cer}:
        return "an answer that is none"
    in_der = strict_error(call, "der", der, der == ber, read)
    return in_der or strict_error(call, "cer", cer, value_and_encoding(cer)[0] == value_and_encoding(ber)[0], read)


def agree(call, first, second):
    """Whether two answers are of one value, or, where it shows more, of values that are written the same."""
    if call in SHOWING:
        return value_and_encoding(first)[1] == value_and_encoding(second)[1]
    return first == second


@dataclass
class Batch:
    """What the calls on some inputs came to."""

    inputs: int
    accepted: int
    errors: list


def check_again(program, written):
    """Checks that what was written is read as the value that it was written of."""
    asked = [(mode, *it) for it in written for mode in MODES[:2] if mode == "ber" or it[1] not in RAW]
    errors = []
    for (mode, seed, call, read, ber, _), came in zip(asked, answers(program, [f"{it[0]} {it[2]} {it[5]}" for it in asked])):
        if not agree(call, ber, came):
            errors.append(f"seed {seed}: {call} {read}: {mode.upper()} reads the encoding as another value")
    return errors


def check_batch(program, seeds, known):
    inputs = [(seed, made_input(seed, known).hex() or "-") for seed in seeds]
    cases = [(seed, call, read) for seed, read in inputs for call in CALLS]
    came = answers(program, [f"{mode} {call} {read}" for _, call, read in cases for mode in MODES])
    errors, written = [], []
    for place, (seed, call, read) in enumerate(cases):
        ber, der, cer = came[3 * place : 3 * place + 3]
        error = first_error(call, read, ber, der, cer)
        if error:
            errors.append(f"seed {seed}: {call} {read}: {error}")
        elif ber.startswith("ok "):
            written.append((seed, call, read, ber, value_and_encoding(ber)[1]))
    accepted = sum(it.startswith("ok ") for it in came)
    return Batch(len(inputs), accepted, errors + (check_again(program, written) if written else []))


def main(program, seed, count):
    seed, count, known = int(seed), int(count), vectors()
    total = Batch(0, 0, [])
    with ProcessPoolExecutor(len(os.sched_getaffinity(0))) as pool:
        for begun in range(0, count, BLOCK):
            ends = min(begun + BLOCK, count)
            seeds = [(seed + place * STRIDE) % 2**64 for place in range(begun, ends)]
            batches = [seeds[at : at + BATCH] for at in range(0, len(seeds), BATCH)]
            for batch in pool.map(check_batch, [program] * len(batches), batches, [known] * len(batches)):
                total = Batch(total.inputs + batch.inputs, total.accepted + batch.accepted, total.errors + batch.errors)
                for error in batch.errors:
                    print(error, flush=True)
            print(f"{total.inputs} inputs, {total.accepted} values, {len(total.errors)} failed", flush=True)
    return 1 if total.errors else 0


if __name__ == "__main__":
    sys.exit(main(*sys.argv[1:]))

"""What ci/time_programs.sh runs: the programs, `openssl asn1parse` and dumpasn1 on 10 MB and 100 MB of certificates, and a table of time and memory.

The first argument is a folder to work in. The certificates are those of Debian's ca-certificates, one after the other, again and again; for the listers
they are in one SEQUENCE, since dumpasn1 lists one element.
"""

import base64
import os
import re
import subprocess
import sys
from pathlib import Path

BLOCK = re.compile(r"-----BEGIN CERTIFICATE-----(.*?)-----END CERTIFICATE-----", re.DOTALL)
BUNDLE = Path("/etc/ssl/certs/ca-certificates.crt")
SIZES = (10, 100)


def certificates():
    return b"".join(base64.b64decode(it) for it in BLOCK.findall(BUNDLE.read_text()))


def inputs(folder, megabytes):
    """The two files of this size: certificates one after the other, and one SEQUENCE of them. They are written piece by piece, so little memory is used."""
    some = certificates()
    times = max(1, megabytes * 1_000_000 // len(some))
    loose, whole = folder / f"{megabytes}.der", folder / f"{megabytes}.sequence"
    with loose.open("wb") as one, whole.open("wb") as other:
        other.write(b"\x30\x84" + (times * len(some)).to_bytes(4, "big"))
        for _ in range(times):
            one.write(some)
            other.write(some)
    return loose, whole


def measured(words):
    """The seconds of the processor that a command takes, and its most memory in MB. Its output goes nowhere."""
    nowhere = [(os.POSIX_SPAWN_OPEN, place, "/dev/null", os.O_WRONLY, 0) for place in (1, 2)]
    pid = os.posix_spawnp(words[0], words, os.environ, file_actions=nowhere)
    _, status, used = os.wait4(pid, 0)
    if status < 0 or os.WIFSIGNALED(status):
        sys.exit(f"{words[0]} was ended by a signal")
    return used.ru_utime + used.ru_stime, used.ru_maxrss / 1024


def commands(loose, whole):
    show, der, check = (f"crates/{it}/out/{it}" for it in ("asn1show", "asn1der", "asn1check"))
    yield "`asn1show`", [show, str(whole)]
    yield "`asn1show --check`", [show, "--check", str(whole)]
    yield "`openssl asn1parse`", ["openssl", "asn1parse", "-inform", "DER", "-in", str(whole)]
    yield "`dumpasn1`", ["dumpasn1", str(whole)]
    yield "`asn1der`", [der, str(loose)]
    yield "`asn1check certificate`", [check, "certificate", str(loose)]


def main(folder):
    folder = Path(folder)
    rows = {}
    for megabytes in SIZES:
        for name, words in commands(*inputs(folder, megabytes)):
            seconds, memory = measured(words)
            rows.setdefault(name, []).append(f"{seconds:.2f} s, {memory:,.0f} MB")
    print(f"| Program | {' | '.join(f'{it} MB' for it in SIZES)} |\n|---|{'---|' * len(SIZES)}")
    for name, cells in rows.items():
        print(f"| {name} | {' | '.join(cells)} |")


if __name__ == "__main__":
    main(*sys.argv[1:])

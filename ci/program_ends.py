"""What ci/program_ends.sh runs: each program with a closed pipe, an argument that isn't text, and little memory.

Its help, its manual page and its completions name the same options, and its version names the logic of the kit.
"""

import os
import re
import resource
import subprocess
import sys
from pathlib import Path

NOT_TEXT = b"an argument isn't text in UTF-8"
NO_MEMORY = b"out of memory"
# Room for the program itself, but not for an input of MANY octets.
FEW = 64 << 20
MANY = 256 << 20
OPTION = re.compile(r"--[a-z]+")
# Elements for a long listing.
NULLS = b"\x05\x00" * 200_000
# A run of asn1compile that reads its module from standard input.
LISTING = ["--list", "--use", "x509", "-"]

# The words of asn1check and asn1der for a type of a module.
KEY_TYPE = ["--module", "modules/PKCS-1.asn1", "--type", "RSAPublicKey"]
WRONG = b"3006 020105 0101FF"
# A type that names one of a module that isn't given, and a value of it.
WITHOUT_NAMES = ["--module", "modules/PKCS-8.asn1", "--type", "EncryptedPrivateKeyInfo"]
ENCRYPTED = b"3006 3000 04020102"
# What a program says of an input: the case's name, the words, the input, the status and what is on standard error.
REPORTS = {
    "asn1show": [
        ("an element that is in no file", ["--at", "1", "-"], b"0500", 1, b"stdin: no element begins at the offset"),
        ("a page of several files", ["--html", "-", "-"], b"0500", 2, b"asn1show: --html takes one FILE"),
        ("a type that no module gives", [*WITHOUT_NAMES, "-"], ENCRYPTED, 1, None),
        ("any element for it", [*WITHOUT_NAMES, "--incomplete", "-"], ENCRYPTED, 0, b""),
        ("--incomplete without a module", ["--incomplete", "-"], ENCRYPTED, 2, None),
    ],
    "asn1der": [
        ("the place of an error", [], b"3006 020105 0405 41", 1, b"offset 5: Eof"),
        ("the name of one of several files", ["-", "-"], b"3006 020105 0405 41", 1, None),
        (
            "a block that is cut off",
            [],
            b"-----BEGIN A-----\nBQA=\n-----END A-----\n-----BEGIN A-----\nBQEA\n-----END A-----\n",
            1,
            b"block 2: offset 0: Invalid: expected no contents",
        ),
        ("digits that are odd", ["--hex"], b"050", 1, None),
        ("a value of a module", [*KEY_TYPE, "-"], b"3080 020105 020103 0000", 0, b""),
        (
            "a value that isn't of the type of a module",
            [*KEY_TYPE, "-"],
            WRONG,
            1,
            b"offset 5, publicExponent: not in the module",
        ),
        ("any element for a type that no module gives", [*WITHOUT_NAMES, "--incomplete", "-"], ENCRYPTED, 0, b""),
    ],
    "asn1check": [
        ("the place of an error", ["rsa-public-key"], WRONG, 1, b"stdin: message 1: offset 5, at publicExponent: Invalid: not in the module: BOOLEAN"),
        (
            "contents that are cut off",
            ["rsa-public-key"],
            b"3006 020105 0405 41",
            1,
            b"stdin: message 1: offset 5: Eof: expected 5 octets of contents, of which 1 are there",
        ),
        (
            "the count of several messages",
            ["rsa-public-key"],
            b"3006 020105 020103" + WRONG,
            1,
            b"stdin: message 2: offset 13, at publicExponent: Invalid: not in the module: BOOLEAN\nstdin: 1 of 2 messages rejected",
        ),
        (
            "a label of another type",
            ["certificate"],
            b"-----BEGIN PUBLIC KEY-----\nMAA=\n-----END PUBLIC KEY-----\n",
            1,
            b'stdin: message 1: its label is "PUBLIC KEY"',
        ),
        ("a value of a module", [*KEY_TYPE, "-"], b"3006 020105 020103", 0, b""),
        (
            "a value that isn't of the type of a module",
            [*KEY_TYPE, "-"],
            WRONG,
            1,
            b"stdin: message 1: offset 5, publicExponent: not in the module: BOOLEAN",
        ),
        ("a module without a type", ["--module", "modules/PKCS-1.asn1"], b"", 2, None),
        ("any element for a type that no module gives", [*WITHOUT_NAMES, "--incomplete", "-"], ENCRYPTED, 0, b""),
        (
            "a part after it that the type has not",
            [*WITHOUT_NAMES, "--incomplete", "-"],
            b"3005 3000 020100",
            1,
            b"stdin: message 1: offset 4, encryptedData: not in the module: INTEGER",
        ),
        ("no block", ["any"], b"3000", 1, b"stdin: message 1: offset 4: Eof: expected a line that begins a block of PEM"),
        ("a kind that is none", ["x509", "-"], b"", 2, None),
    ]
}


def many_octets():
    """An OCTET STRING of MANY octets."""
    return b"\x04\x84" + MANY.to_bytes(4, "big") + bytes(MANY)


def ends(crate, words, given, closed=False, few=False):
    """Runs a program, and returns its status and what it said on standard error."""
    reader, writer = os.pipe()
    if closed:
        os.close(reader)
    limit = (lambda: resource.setrlimit(resource.RLIMIT_AS, (FEW, FEW))) if few else None
    out = writer if closed else subprocess.DEVNULL
    ran = subprocess.run([f"crates/{crate}/out/{crate}", *words], input=given, stdout=out, stderr=subprocess.PIPE, preexec_fn=limit)
    os.close(writer)
    if not closed:
        os.close(reader)
    return ran.returncode, ran.stderr.strip()


def stored(crate):
    """The words and the input of the run that is stored beside the sources, or of one that reads standard input."""
    if crate == "asn1compile":
        return LISTING, Path("modules/PKCS-10.asn1").read_bytes()
    folder = Path(f"crates/{crate}")
    words = (folder / "args").read_text().split("\n") if (folder / "args").exists() else []
    return [it for it in words if it], (folder / "stdin").read_bytes()


def said(words):
    """What a command prints, and its status."""
    ran = subprocess.run(words, stdin=subprocess.DEVNULL, capture_output=True, text=True)
    return ran.returncode, ran.stdout


def options(text):
    return sorted(set(OPTION.findall(text)))


def manual(crate):
    """The text of its manual page, without the marks of its layout."""
    return Path(f"docs/man/{crate}.1").read_text().replace("\\", "")


def completed(crate):
    """The options that bash completes."""
    ask = f"source ci/completions/asn1.bash; COMP_WORDS=({crate} --); COMP_CWORD=1; _asn1 {crate}; printf '%s\\n' \"${{COMPREPLY[@]}}\""
    return said(["bash", "-c", ask])[1]


def texts(crate):
    """Each text of the program itself: its name, what it says, and what it is to say."""
    status, help_text = said([f"crates/{crate}/out/{crate}", "--help"])
    yield "the help", (status, "--help" in help_text), (0, True)
    logic = re.search(r"logic \w+", said(["rt", "version"])[1])[0]
    yield "the version", said([f"crates/{crate}/out/{crate}", "--version"]), (0, f"{crate} 0.6.0, {logic}\n")
    yield "the options of the manual", options(manual(crate)), options(help_text)
    yield "the options of the completions", options(completed(crate)), options(help_text)


def cases(crate):
    """Each case: its name, how the program ends, and how it is to end."""
    words, given = stored(crate)
    if crate in ("asn1show", "asn1der"):
        given = NULLS
    closed = ends(crate, words, given, closed=True)
    yield "a closed pipe", closed, (3, b"")
    yield "an argument that isn't text", ends(crate, [b"\xff"], given), (2, NOT_TEXT)
    for name, words_of_case, text, status, error in REPORTS.get(crate, []):
        found = ends(crate, words_of_case, text)
        yield name, found, (status, found[1] if error is None else error)
    yield "no memory", ends(crate, words, many_octets(), few=True), (3, NO_MEMORY)


def main(crates):
    passed = failed = 0
    for crate in crates:
        for name, found, wanted in [*cases(crate), *texts(crate)]:
            if found == wanted:
                passed += 1
            else:
                failed += 1
                print(f"{crate}: {name}: {found}, and not {wanted}")
    print(f"ends: {passed} passed, {failed} failed")
    return 1 if failed else 0


if __name__ == "__main__":
    sys.exit(main(sys.argv[1:]))

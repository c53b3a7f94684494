"""What ci/compare_listers.sh runs: the same inputs through asn1show, `openssl asn1parse` and dumpasn1, and a table of what each does with them."""

import re
import subprocess
import tempfile
from pathlib import Path

SHOW = str(Path("crates/asn1show/out/asn1show").resolve())
BLOCK = "-----BEGIN A-----\n{}\n-----END A-----\n"
NUMBER = bytes.fromhex("020105")
MODULE = "M DEFINITIONS ::= BEGIN Pair ::= SEQUENCE { level INTEGER } END"


def run(words, folder):
    """The status of a command, and all that it prints. Its input is a file of the folder."""
    ran = subprocess.run(words, cwd=folder, stdin=subprocess.DEVNULL, capture_output=True, timeout=60)
    return ran.returncode, (ran.stdout + ran.stderr).decode(errors="replace")


def show(*words):
    return [SHOW, *words, "input"]


def openssl(*words):
    return ["openssl", "asn1parse", "-in", "input", *(words or ["-inform", "DER"])]


def dump(*words):
    return ["dumpasn1", *words, "input"]


def says(pattern):
    """Whether the output has a text, and the program ended by itself."""
    return lambda status, text: status >= 0 and bool(re.search(pattern, text))


def fails(status, text):
    return status > 0


def objects(status, text):
    """Whether something is said of the input besides the listing."""
    return status > 0 or bool(re.search(r"\bBAD\b|[Ee]rror:", text))


def ends(status, text):
    """Whether the program ended by itself, and no signal did."""
    return status >= 0


# What isn't DER: a name, and the octets.
ERRORS = [
    ("a length that isn't in the fewest octets", "308103020105"),
    ("TRUE that isn't FF", "010101"),
    ("a padded INTEGER", "02020005"),
    ("a NULL with contents", "050100"),
    ("an OBJECT IDENTIFIER with a padded arc", "0603558004"),
    ("an OBJECT IDENTIFIER without arcs", "0600"),
    ("a UTF8String that isn't UTF-8", "0c02ff41"),
    ("a PrintableString with `*`", "13012a"),
    ("a UTCTime without seconds", "170b323630313330303030305a"),
    ("a BIT STRING with ones in unused bits", "03020781"),
    ("a SET OF out of order", "3106020105020103"),
    ("a string with a segment of another type", "2403020105"),
]


def errors():
    for name, octets in ERRORS:
        yield f"says that {name} isn't DER", bytes.fromhex(octets), (show("--check=der"), objects), (openssl(), objects), (dump(), objects)


def listings():
    """What programs list: a name, the input, and for each program the command and what it has to print."""
    number = says(r"INTEGER\s+:?0?5")
    yield "lists indefinite lengths", bytes.fromhex("30800201050000"), (show(), number), (openssl(), number), (dump(), number)
    cut = bytes.fromhex("3005020105")
    yield "ends with an error status if the input is cut off", cut, (show(), fails), (openssl(), fails), (dump(), fails)
    text = says("example")
    yield "shows text under a context-specific tag", b"\x80\x07example", (show(), text), (openssl(), text), (dump(), text)
    inner = bytes.fromhex("0405300302010f")
    inside = says(r"INTEGER\s+:?0?(15|0F)\b")
    yield "lists the elements in an OCTET STRING", inner, (show(), inside), (openssl(), inside), (dump(), inside)
    name = says("commonName")
    yield "names object identifiers", bytes.fromhex("0603550403"), (show(), name), (openssl(), name), (dump(), name)
    arcs = says(r"\b2[. ]147573952589676412848\b")
    yield "shows arcs above 64 bits", bytes.fromhex("060a90808080808080808000"), (show(), arcs), (openssl(), arcs), (dump(), arcs)
    deep = b"\x30\x80" * 200_000
    yield "ends by itself on 200,000 open elements", deep, (show(), ends), (openssl(), ends), (dump(), ends)


def inputs():
    """What programs read, and what else they do: as `listings`. None where a program has no such option."""
    number = says(r"INTEGER\s+:?0?5")
    two = (BLOCK.format("AgEF") + BLOCK.format("BQA=")).encode()
    null = says("NULL")
    yield "reads PEM", BLOCK.format("AgEF").encode(), (show(), number), (openssl("-inform", "PEM"), number), (dump(), number)
    yield "reads each block of PEM", two, (show(), null), (openssl("-inform", "PEM"), null), (dump(), null)
    yield "reads hexadecimal", b"02 01 05", (show(), number), (openssl(), number), (dump(), number)
    yield "reads several elements", NUMBER + b"\x05\x00", (show(), null), (openssl(), null), (dump(), null)
    yield "lists one element by its offset", b"\x05\x00" + NUMBER, (show("--at", "2"), number), (openssl("-inform", "DER", "-offset", "2"), number), (dump("-2"), number)
    yield "writes JSON", NUMBER, (show("--json"), says(r'"value"')), None, None
    yield "names the parts of a module's type", b"\x30\x03" + NUMBER, (show("--module", "module", "--type", "Pair"), says("level")), None, None


def is_done(case, folder):
    if case is None:
        return False
    words, wanted = case
    return wanted(*run(words, folder))


def main():
    print("| | `asn1show` | `openssl asn1parse` | `dumpasn1` |\n|---|---|---|---|")
    with tempfile.TemporaryDirectory() as room:
        folder = Path(room)
        (folder / "module").write_text(MODULE)
        for rows in listings, inputs, errors:
            for name, octets, *programs in rows():
                (folder / "input").write_bytes(octets)
                done = [is_done(it, folder) for it in programs]
                print(f"| {name} | {' | '.join('yes' if it else 'no' for it in done)} |")


if __name__ == "__main__":
    main()

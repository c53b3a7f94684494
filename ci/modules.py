"""What ci/modules.sh runs: how asn1compile ends, what it prints, and which files it writes, on modules made here. Each name that such files may bring in
is one that no type and no file has.

The arguments are the numbers of cases that passed and failed before.
"""

import re
import shutil
import subprocess
import sys
import tempfile
from pathlib import Path

PROGRAM = Path("crates/asn1compile/out/asn1compile").resolve()
REQUESTS = Path("modules/PKCS-10.asn1").resolve()
REQUEST_TYPES = Path("crates/pkcs10").resolve()
CERTIFICATE_TYPES = Path("crates/x509/exports").resolve()

FIRST = """First DEFINITIONS AUTOMATIC TAGS ::= BEGIN
IMPORTS Flags FROM Second;
Report ::= SEQUENCE { flags Flags, level INTEGER (0..9) }
END
"""
SECOND = """Second DEFINITIONS AUTOMATIC TAGS ::= BEGIN
Flags ::= SEQUENCE OF BOOLEAN
Alone ::= SEQUENCE { contents OCTET STRING }
END
"""
THIRD = """Third DEFINITIONS AUTOMATIC TAGS ::= BEGIN
IMPORTS Report FROM First Flags FROM Second;
Box ::= CHOICE { report Report, flags Flags }
END
"""
# A type that has the name of one that another module imports.
FOURTH = """Fourth DEFINITIONS AUTOMATIC TAGS ::= BEGIN
IMPORTS Flags FROM Second;
Report ::= SEQUENCE { flags Flags }
END
Fifth DEFINITIONS AUTOMATIC TAGS ::= BEGIN
Flags ::= SEQUENCE { flag BOOLEAN }
Holder ::= SEQUENCE { flags Flags }
END
"""
# Types of one name in two crates, and constants of one name.
SIXTH = """Sixth DEFINITIONS AUTOMATIC TAGS ::= BEGIN
IMPORTS Flags FROM Second Flags FROM Seventh;
Both ::= SEQUENCE { first Second.Flags, second Seventh.Flags }
END
"""
SEVENTH = """Seventh DEFINITIONS AUTOMATIC TAGS ::= BEGIN
Flags ::= SEQUENCE { level Level }
Level ::= INTEGER { low(1), high(9) }
level-low INTEGER ::= 2
END
"""
LOOSE = """Loose DEFINITIONS AUTOMATIC TAGS ::= BEGIN
Known ::= SEQUENCE { flag BOOLEAN }
Code ::= SEQUENCE {
    octets OCTET STRING (CONTAINING Known) }
END
"""
MALFORMED = """Malformed DEFINITIONS ::= BEGIN
Code ::= SEQUENCE { first }
END
"""
UNKNOWN = """Unknown DEFINITIONS ::= BEGIN
Known ::= SEQUENCE { flag BOOLEAN }
Code ::= SEQUENCE {
    first Missing }
END
"""
INCOMPLETE = """Incomplete DEFINITIONS IMPLICIT TAGS ::= BEGIN
IMPORTS Other FROM Elsewhere;
Code ::= SEQUENCE { first Missing, second [1] EXPLICIT Other }
Tagged ::= SEQUENCE {
    third [2] Missing }
END
"""
WIDE = """Wide DEFINITIONS ::= BEGIN
Badge ::= SET { number INTEGER, flag BOOLEAN, ... }
Shape ::= CHOICE { size INTEGER, ... }
Box ::= SEQUENCE { shape Shape OPTIONAL, label UTF8String }
Head ::= SEQUENCE { id NULL, ..., ..., name UTF8String }
END
"""
DEFAULTS = """Defaults DEFINITIONS IMPLICIT TAGS ::= BEGIN
id-box OBJECT IDENTIFIER ::= { 2 999 1 }
Label ::= SEQUENCE { kind OBJECT IDENTIFIER DEFAULT id-box, key [0] OCTET STRING DEFAULT '0102'H, text UTF8String DEFAULT "box" }
Open ::= SEQUENCE { size INTEGER, text UTF8String DEFAULT "box", ... }
Rows ::= SEQUENCE OF INTEGER
Lists ::= SEQUENCE { rows Rows DEFAULT {}, texts [0] SET SIZE (0..9) OF UTF8String DEFAULT {}, flags [1] BIT STRING { a(0), b(1) } DEFAULT { b },
    mask [2] BIT STRING DEFAULT '0110'B }
END
"""
# The record of X.690, A.1, and SETs of each kind of part: those of AUTOMATIC TAGS, of COMPONENTS OF, within another type, and a CHOICE.
SETS = """Sets DEFINITIONS ::= BEGIN
PersonnelRecord ::= [APPLICATION 0] IMPLICIT SET {
    name Name, title [0] VisibleString, number EmployeeNumber, dateOfHire [1] Date, nameOfSpouse [2] Name,
    children [3] IMPLICIT SEQUENCE OF ChildInformation DEFAULT {} }
ChildInformation ::= SET { name Name, dateOfBirth [0] Date }
Name ::= [APPLICATION 1] IMPLICIT SEQUENCE { givenName VisibleString, initial VisibleString, familyName VisibleString }
EmployeeNumber ::= [APPLICATION 2] IMPLICIT INTEGER
Date ::= [APPLICATION 3] IMPLICIT VisibleString
Pick ::= CHOICE { first [1] NULL, second [2] BOOLEAN }
Kind ::= ENUMERATED { plain, other }
Mixed ::= SET { pick Pick, kind Kind DEFAULT other, flag BOOLEAN DEFAULT FALSE, level [0] IMPLICIT INTEGER (0..9) OPTIONAL, COMPONENTS OF Extra }
Extra ::= SET { text UTF8String OPTIONAL, octets OCTET STRING }
Inside ::= SEQUENCE { place SET { x [1] INTEGER, y [0] INTEGER } }
Around ::= SET { outer CHOICE { a [0] NULL, b [2] NULL }, inner [1] NULL }
Element ::= SET { element ANY }
END
"""
AUTOMATIC = """Automatic DEFINITIONS AUTOMATIC TAGS ::= BEGIN
Report ::= SET { text UTF8String, flags SET OF BOOLEAN OPTIONAL, choice CHOICE { a NULL, b BOOLEAN } }
END
"""
# What is listed of their types.
FLAGS = "Flags: exact, canonical\n"
ALONE = "Alone: exact, canonical\n"
REPORT = "Report: exact, canonical\n"
BOX = "Box: exact, canonical\n"
KNOWN = "Known: exact, canonical\n"
CODE = "Code: accepts more, canonical\n    `octets`: the contents of a string aren't read\n"
BADGE = "Badge: accepts more\n    the components of a SET with `...` aren't read\n"
CLOSED = "Shape: rejects additions, canonical\nBox: exact, canonical\n"
HEAD = "Head: rejects additions, canonical\n"
LABEL = "Label: exact, canonical\n"
LISTS = "Rows: exact, canonical\nLists: exact\n"
OPEN = "Open: accepts more\n    `text`: a part with a default may be encoded though it is the default\n"
SETS_LISTED = """Name: exact, canonical
ChildInformation: exact, canonical
PersonnelRecord: exact, canonical
Pick: exact, canonical
Kind: exact, canonical
Mixed: exact, canonical
Extra: exact, canonical
Inside.place: exact, canonical
Inside: exact, canonical
Around.outer: exact, canonical
Around: accepts more
    the components of a SET with a CHOICE whose tags are around that of another part aren't read
Element: accepts more
    the components of a SET with a part that may be any element aren't read
"""
INCOMPLETE_CODE = """Code: accepts more
    `first`: a type that no module gives is any element
    `second`: a type that no module gives is any element
"""
INCOMPLETE_LISTED = f"""{INCOMPLETE_CODE}Tagged: accepts more
    `third`: a type that no module gives is any element
"""
REPORT_LISTED = "Report.choice: exact, canonical\nReport: exact, canonical\n"
# The notations of the parts of a SET.
MIXED = """type Parts = (Default<Implicit<Universal<1>, bool>, Unset>, (Implicit<Universal<4>, Vec<u8>>, (Default<Implicit<Universal<10>, Named<Kind>>, \
KindDefault>, (Optional<Implicit<Universal<12>, String>>, MixedParts2))));
"""
MIXED_REST = """type Each = (Optional<Implicit<Context<0>, Bounded<u64, AtMost<9>>>>, (Pick, ()));
"""
REPORT_PARTS = """type Parts = (Implicit<Context<0>, String>, (Optional<Implicit<Context<1>, SetOf<bool>>>, (Explicit<Context<2>, ReportChoice>, ())));
"""
PICKED = """impl SetPart for Pick {
    fn read_chosen(set: &mut BERReaderSet) -> ASN1Result<Option<Pick>> {
        read_part::<Pick>(&[Tag { tag_class: TagClass::ContextSpecific, tag_number: 1 }, \
Tag { tag_class: TagClass::ContextSpecific, tag_number: 2 }], set)
    }
"""
# The parts of a SEQUENCE with such defaults.
PARTS = """type Parts = OrDefault<ObjectIdentifier, TestedIdentifier<KindDefault>, OrDefault<Implicit<Context<0>, Vec<u8>>, \
TestedOctets<KeyDefault>, OrDefault<String, TestedText<TextDefault>, ()>>>;
"""
# The types of two crates, and the constants.
BOTH = """use all::Flags;
use other::Flags as Flags2;
"""
LEVELS = """
/// `low` of `Level`.
pub const LEVEL_LOW: i64 = 1;

/// `high` of `Level`.
pub const LEVEL_HIGH: i64 = 9;

/// `level-low` of the module `Seventh`.
pub const LEVEL_LOW_2: i64 = 2;
"""
# What is said of what is wrong in them.
IS_LOOSE = """loose.asn1:4:26: the contents of a string aren't read
        octets OCTET STRING (CONTAINING Known) }
                             ^
"""
IS_SET = """wide.asn1:2:1: the components of a SET with `...` aren't read
    Badge ::= SET { number INTEGER, flag BOOLEAN, ... }
    ^
"""
IS_UNTESTED = """defaults.asn1:4:35: a part with a default may be encoded though it is the default
    Open ::= SEQUENCE { size INTEGER, text UTF8String DEFAULT "box", ... }
                                      ^
"""
IS_MALFORMED = """malformed.asn1:2:27: expected a type
    Code ::= SEQUENCE { first }
                              ^
"""
IS_UNKNOWN = """unknown.asn1:4:11: this name is neither assigned nor imported
        first Missing }
              ^
"""
IS_INCOMPLETE = """incomplete.asn1:3:27: this name is neither assigned nor imported
    Code ::= SEQUENCE { first Missing, second [1] EXPLICIT Other }
                              ^
"""
IS_TAGGED = """incomplete.asn1:5:15: this name is neither assigned nor imported
        third [2] Missing }
                  ^
"""
IS_ANY = """incomplete.asn1:3:27: a type that no module gives is any element
    Code ::= SEQUENCE { first Missing, second [1] EXPLICIT Other }
                              ^
incomplete.asn1:3:56: a type that no module gives is any element
    Code ::= SEQUENCE { first Missing, second [1] EXPLICIT Other }
                                                           ^
"""
ANY_UNDER = "type Parts = (AnyUnder<Context<2>>, ());\n"
ANY_HEAD = """//! It accepts more than the module says:
//!
//! - `first`: a type that no module gives is any element.
//! - `second`: a type that no module gives is any element.
"""
IS_NO_LIST = "crates/some/exports: it isn't a list of types\n"
EXPORTS = """Second Alone alone Alone U16 canonical
Second Flags flags Flags U16 canonical
First Report report Report U16 canonical
"""
IS_MISSING = "Missing: no type has this name\n"
# What is said of a copy of a crate that differs.
IS_OTHER = """copies/pkcs10/src/attributes.rt:41:40: the modules give <Notated as Notation>::has_tag(tag)
            <Notated as Notation>::has_tag(other)
                                           ^
"""
IS_MORE = """copies/pkcs10/src/attributes.rt:75:1: the modules give nothing more
    fn more() {}
    ^
"""
MODULES = {
    "first": FIRST,
    "second": SECOND,
    "third": THIRD,
    "fourth": FOURTH,
    "sixth": SIXTH,
    "seventh": SEVENTH,
    "loose": LOOSE,
    "malformed": MALFORMED,
    "unknown": UNKNOWN,
    "incomplete": INCOMPLETE,
    "wide": WIDE,
    "defaults": DEFAULTS,
    "sets": SETS,
    "automatic": AUTOMATIC,
}


def run(folder, *words, given=""):
    """Runs the program in a folder: its status, and its two outputs."""
    ran = subprocess.run([PROGRAM, *words], cwd=folder, input=given, capture_output=True, text=True)
    return ran.returncode, ran.stdout, ran.stderr


def written(folder):
    """The files below a folder, or none where it isn't there."""
    return sorted(str(it.relative_to(folder)) for it in folder.rglob("*") if it.is_file())


def ends(folder):
    """Each end of the program: a name, what it does, and what it has to do."""
    yield "two modules", run(folder, "--list", "first.asn1", "second.asn1"), (0, f"{FLAGS}{REPORT}{ALONE}", "")
    yield "standard input", run(folder, "--list", "-", given=SECOND), (0, f"{FLAGS}{ALONE}", "")
    yield "a type that accepts more", run(folder, "--list", "loose.asn1"), (0, f"{KNOWN}{CODE}", "")
    yield "it with --strict", run(folder, "--list", "--strict", "loose.asn1"), (1, f"{KNOWN}{CODE}", IS_LOOSE)
    yield "another type", run(folder, "--list", "--strict", "--type", "Known", "loose.asn1"), (0, KNOWN, "")
    yield "a SET, and additions that are rejected", run(folder, "--list", "wide.asn1"), (0, f"{BADGE}{CLOSED}{HEAD}", "")
    yield "a SET with --strict", run(folder, "--list", "--strict", "wide.asn1"), (1, f"{BADGE}{CLOSED}{HEAD}", IS_SET)
    yield "SETs", run(folder, "--list", "sets.asn1"), (0, SETS_LISTED, "")
    yield "a SET whose parts are tagged automatically", run(folder, "--list", "--strict", "automatic.asn1"), (0, REPORT_LISTED, "")
    yield "additions with --strict", run(folder, "--list", "--strict", "--type", "Box", "--type", "Head", "wide.asn1"), (0, f"{CLOSED}{HEAD}", "")
    yield "defaults", run(folder, "--list", "--strict", "defaults.asn1"), (1, f"{LABEL}{OPEN}{LISTS}", IS_UNTESTED)
    yield "what isn't ASN.1", run(folder, "--list", "malformed.asn1"), (1, "", IS_MALFORMED)
    yield "a name that isn't defined", run(folder, "--list", "unknown.asn1"), (1, KNOWN, IS_UNKNOWN)
    yield "names that aren't defined", run(folder, "--list", "incomplete.asn1"), (1, "", f"{IS_INCOMPLETE}{IS_TAGGED}")
    yield "they as any element", run(folder, "--list", "--incomplete", "incomplete.asn1"), (0, INCOMPLETE_LISTED, "")
    words = ("--list", "--incomplete", "--strict", "--type", "Code", "incomplete.asn1")
    yield "they with --strict", run(folder, *words), (1, INCOMPLETE_CODE, IS_ANY)
    yield "a type that isn't there", run(folder, "--list", "--type", "Missing", "first.asn1", "second.asn1"), (1, "", IS_MISSING)
    yield "a file that isn't there", run(folder, "--list", "missing.asn1")[0], 3
    yield "no file", run(folder, "--list")[0], 2
    yield "two tasks", run(folder, "--list", "--check", "first.asn1")[0], 2


def crates(folder):
    """The crates that are written: a name, what is there, and what has to be."""
    out = folder / "crates"
    yield "a crate", run(folder, "--crate", "all", "first.asn1", "second.asn1")[0], 0
    yield "its files", written(out / "all"), ["exports", "src/alone.rt", "src/flags.rt", "src/lib.rt", "src/report.rt"]
    yield "a type and those that it names", run(folder, "--crate", "some", "--type", "Report", "first.asn1", "second.asn1")[0], 0
    yield "their files", written(out / "some"), ["exports", "src/flags.rt", "src/lib.rt", "src/report.rt"]
    yield "the types that are exported", (out / "all/exports").read_text(), EXPORTS
    yield "types of another crate", run(folder, "--list", "--use", "all", "third.asn1"), (0, BOX, "")
    yield "a type with an imported name", run(folder, "--crate", "two", "--use", "all", "fourth.asn1")[0], 0
    yield "its name", "    pub flags: Flags2,\n" in (out / "two/src/holder.rt").read_text(), True
    yield "the imported name", "    pub flags: Flags,\n" in (out / "two/src/report.rt").read_text(), True
    yield "a crate with constants", run(folder, "--crate", "other", "seventh.asn1")[0], 0
    yield "constants of one name", (out / "other/src/constants.rt").read_text().endswith(LEVELS), True
    yield "types of one name", run(folder, "--crate", "pair", "--use", "all", "--use", "other", "sixth.asn1")[0], 0
    yield "their names", BOTH in (out / "pair/src/both.rt").read_text(), True
    yield "no such crate", run(folder, "--list", "--use", "none", "third.asn1")[0], 3
    (out / "some/exports").write_text("First Report\n")
    yield "a list that is malformed", run(folder, "--list", "--use", "some", "third.asn1"), (1, "", IS_NO_LIST)
    yield "a crate with defaults", run(folder, "--crate", "labels", "--type", "Label", "--strict", "defaults.asn1")[0], 0
    yield "its parts", PARTS in (out / "labels/src/label.rt").read_text(), True
    yield "a crate with SETs", run(folder, "--crate", "sets", "--tests", "sets.asn1", "automatic.asn1")[0], 0
    yield "the parts of a SET", MIXED in (out / "sets/src/mixed.rt").read_text(), True
    yield "those that follow", MIXED_REST in (out / "sets/src/mixed_parts2.rt").read_text(), True
    yield "the parts of one that are tagged automatically", REPORT_PARTS in (out / "sets/src/report.rt").read_text(), True
    yield "a CHOICE in a SET", PICKED in (out / "sets/src/pick.rt").read_text(), True
    yield "a crate with such types", run(folder, "--crate", "open", "--incomplete", "incomplete.asn1")[0], 0
    yield "what it accepts more", ANY_HEAD in (out / "open/src/code.rt").read_text(), True
    yield "one under a tag", ANY_UNDER in (out / "open/src/tagged.rt").read_text(), True
    yield "what is rejected with --strict", run(folder, "--crate", "none", "--strict", "loose.asn1")[0], 1
    yield "no file of it", written(out / "none"), []


def comparisons(folder):
    """The crate of requests for certificates, and copies of it that differ: a name, what is printed of them, and what has to be."""
    words = ("--check", "--out", "copies", "--crate", "pkcs10", "--use", "x509", REQUESTS)
    copy = folder / "copies/pkcs10"
    shutil.copytree(REQUEST_TYPES, copy, ignore=shutil.ignore_patterns("out"))
    (folder / "copies/x509").mkdir()
    shutil.copy(CERTIFICATE_TYPES, folder / "copies/x509")
    yield "the same", run(folder, *words), (0, "", "")
    source = copy / "src/attributes.rt"
    text = source.read_text()
    source.write_text(text.replace("::has_tag(tag)", "::has_tag(other)"))
    yield "another word", run(folder, *words), (1, "", IS_OTHER)
    source.write_text(text + "\nfn more() {}\n")
    yield "a function more", run(folder, *words), (1, "", IS_MORE)
    source.write_text(text.replace("\n    ", "\n\t"))
    yield "another layout", run(folder, *words), (0, "", "")
    source.unlink()
    yield "a file less", run(folder, *words)[0], 1


def names(_folder):
    """The names that sources bring in and that a type may have, and those of laws that are named as those of a type may be."""
    folder = Path("crates/asn1_source/src")
    words, naming, table, types = ((folder / f"{it}.rt").read_text() for it in ("words", "naming", "import_table", "type_imports"))
    before, after = words.split("static TAKEN")
    reserved, taken = (set(re.findall(r'"(\w+)"', it)) for it in (before, after.split("];")[0]))
    kept = reserved | set(re.findall(r'"(\w+)"', naming.split("static LAW_NAMES")[1].split("];")[0]))
    endings = re.findall(r'ending: "(\w+)"', types)
    brought = {re.split("[=>]", it)[-1] for line in re.findall(r"^[\w:.]+: (.+)$", table, re.MULTILINE) for it in line.split()}
    laws = {it.removesuffix(ending) for it in brought for ending in endings if it.endswith(ending)}
    yield "names that sources bring in", len(brought) > 100, True
    yield "those that a type may have", sorted(it for it in brought - taken if it[0].isupper()), []
    yield "those that a law of a type may have", sorted(laws - kept), []


def main(passed, failed):
    with tempfile.TemporaryDirectory() as room:
        folder = Path(room)
        for name, text in MODULES.items():
            (folder / f"{name}.asn1").write_text(text)
        for cases in ends, crates, comparisons, names:
            for name, found, wanted in cases(folder):
                if found == wanted:
                    passed += 1
                else:
                    failed += 1
                    print(f"{name}: {found}, and not {wanted}")
    print(f"modules: {passed} passed, {failed} failed")
    return 1 if failed else 0


if __name__ == "__main__":
    sys.exit(main(*map(int, sys.argv[1:])))

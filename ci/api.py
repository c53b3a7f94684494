"""What ci/api.sh prints and compares. It begins at the public items of the crates that users name, and follows each `pub use` to its item.

The sources are read line by line, as they are formatted: an item's parts are indented under it. `ORDER` gives the headings of the page and the
items under each; a public item that it doesn't list is an error, and so is a name in it that no item has.
"""

import fnmatch
import functools
import itertools
import re
import sys
from dataclasses import dataclass
from pathlib import Path

PAGE = Path("docs/API.md")
PROMISES = Path("docs/PROMISES.md")
TYPES = ("struct", "enum", "type", "trait")
DECLARATIONS = TYPES + ("fn", "const")
INDENT = "    "
INTRODUCTION = """# The calls and types of `yasna` and `yasna_notation`

This page has every public item of these crates, as it is declared, with the first sentence of its comment. The rest of each comment and the
contract are in the sources. [PROMISES.md](PROMISES.md) lists each promise with its contract: a line "Promises" after a block links to the
entries of its calls. `sh ci/api.sh` prints this page from the sources."""

# Of each crate: the headings, and the items under each, in this order. `tags::*` is every item of the module.
ORDER = {
    "yasna": {
        "Whole values": "decode_der encode_der decode_cer encode_cer decode_ber decode_ber_general",
        "Parsing": "parse_der parse_cer parse_ber parse_ber_general try_parse_der try_parse_cer try_parse_ber"
        " parse_der_located parse_cer_located parse_ber_located Located",
        "Constructing": "construct_der construct_cer construct_der_seq try_construct_der try_construct_der_seq",
        "Readers": "BERReader BERReaderSeq BERReaderSet",
        "Writers": "DERWriter DERWriterSeq DERWriterSet PrependBuffer",
        "Lengths of encodings": "bigint_len bitvec_len bytes_len constructed_len generalized_time_len i64_len oid_len primitive_len tagged_der_len text_len u64_len utctime_len",
        "Errors": "ASN1Result ASN1Error ASN1ErrorKind",
        "Tags and modes": "Tag TagClass PCBit BERMode tags::*",
        "Values": "models::ObjectIdentifier models::ParseOidError models::UTCTime models::GeneralizedTime models::TaggedDerValue"
        " models::DateTime models::Offset is_numeric_text is_printable_text is_visible_text",
        "Traits": "BERDecodable DEREncodable DERCanonical DERExact Shaped FromShape EncodeShape TupleParts EncodableParts InSequence",
        "Laws": "one_encoding one_encoding_cer one_der_encoding set_of_is_read set_of_sets_is_read set_of_is_written law_functions::*",
    },
    "yasna_notation": {
        "Your own types": "DefinedType Message Represents Encoded read_as read_parts_as Notation CanonicalNotation",
        "SEQUENCE and SET": "Sequence Parts Optional Default DefaultValue False Number Last SequenceOf SetOf PartsBy CanonicalParts"
        " WithFirst read_parts_with_first",
        "Parts of your own notations": "write_optional prepend_optional optional_len write_unless_default prepend_unless_default unless_default_len"
        " write_items prepend_items items_len",
        "CHOICE": "Choice Alternatives Either CanonicalAlternatives",
        "Explicit and implicit tags": "Explicit Implicit TagName Context Application",
        "Bounds": "Bounded Bound AtMost FromTo Exactly UpTo FromZero Size SizeAtMost NotEmpty",
        "Simple types": "Enumerated BigInteger BitString PrintableString Ia5String NumericString VisibleString",
    },
}
TOPS = tuple(ORDER)

# The anchor of the heading of PROMISES.md under which the promises of a call are, by a pattern of the call's name. The first that fits counts.
ANCHORS = {
    "write_sequence*": "write_sequence",
    "write_tagged": "write_sequence",
    "write_tagged_implicit": "write_sequence",
    "write_set": "write_set",
    "write_set_of": "write_set_of",
    "write_fields": "types-from-a-module",
    "write_optional": "types-from-a-module",
    "write_unless_default": "types-from-a-module",
    "write_items": "types-from-a-module",
    "write_*": "simple-values",
    "decode_*": "decode_der",
    "encode_*": "encode_der",
    "parse_*_located": "located-parses",
    "parse_[bcd]er*": "parse_der",
    "try_parse_*": "try_parse_der",
    "construct_*": "construct_der",
    "try_construct_*": "construct_der",
    "read_optional": "read_optional",
    "read_default": "read_default",
    "read_sequence": "read_sequence",
    "*_sequence_of": "read_sequence_of",
    "collect_rest": "read_sequence_of",
    "read_set": "read_set",
    "*_set_of": "read_set_of",
    "read_tagged": "read_tagged",
    "read_tagged_implicit": "read_tagged_implicit",
    "read_tagged_der": "raw-elements",
    "read_der": "raw-elements",
    "read_with_buffer": "read_with_buffer",
    "read_as": "types-from-a-module",
    "read_parts_as": "types-from-a-module",
    "read_parts_with_first": "types-from-a-module",
    "read_*": "typed-reads",
    "lookahead_tag": "lookahead_tag",
    "is_at_end": "is_at_end",
}


@dataclass
class Item:
    kind: str
    name: str
    comment: list
    attributes: list
    signature: list
    members: list
    place: int

    def is_shown(self):
        """Whether users see it. What belongs to a trait or an enum needs no `pub` for that."""
        is_public = self.kind in ("associated", "variant") or self.signature[0].startswith("pub ")
        return is_public and "#[doc(hidden)]" not in self.attributes


@dataclass
class Module:
    crate: str
    path: tuple
    about: str
    items: list


@dataclass
class Foreign:
    """An item of a crate whose sources aren't here."""

    path: str


# Reading a source


def end_of_item(lines, first):
    """The number of the line after an item's last one."""
    is_open = False
    for number in range(first, len(lines)):
        line = lines[number]
        if is_open:
            if line.startswith("}"):
                return number + 1
        elif line.endswith("{"):
            is_open = True
        elif line.endswith(";") or not line.startswith(" ") and line.endswith((",", "{}")):
            return number + 1
    sys.exit(f"no end of what begins with: {lines[first]}")


def signature_of(lines):
    """An item without its clauses and its body."""
    shown = []
    for line in lines:
        if line.lstrip().startswith(("requires", "ensures")) or line in ("{", "{}"):
            break
        is_last = line.endswith(("{", ";")) or not line.startswith(" ") and line.endswith((",", "{}"))
        shown.append(re.sub(r"( \{\}?|[;,])$", "", line) if is_last else line)
        if is_last:
            break
    return shown


def body_of(lines):
    """The lines between an item's braces, without their indentation."""
    for number, line in enumerate(lines):
        if line.endswith("{"):
            return [inner.removeprefix(INDENT) for inner in lines[number + 1 : -1]]
    return []


def kind_and_name(line, around):
    """The kind and the name of an item that begins with this line, inside one of the kind `around`."""
    if around == "enum":
        return "variant", re.match(r"\w*", line).group()
    if around == "struct" and not line.startswith("ghost "):
        return "field", re.match(r"(?:pub(?:\(crate\))? )?(\w*)", line).group(1)
    found = re.match(r"(?:pub(?:\(crate\))? )?(?:const (?=fn))?(\w+)\b ?(\w*)", line)
    kind, name = found.groups()
    return ("associated" if around == "trait" and kind in DECLARATIONS else kind), name


def make_item(comment, attributes, lines, around, place):
    kind, name = kind_and_name(lines[0], around)
    if kind in ("use", "ghost"):
        return Item(kind, name, comment, attributes, [" ".join(line.strip() for line in lines)], [], place)
    signature = signature_of(lines)
    if kind == "const":
        signature = [signature[0].partition(" = ")[0]]
    members = items_in(body_of(lines), kind) if kind in ("struct", "enum", "trait", "impl") else []
    return Item(kind, name, comment, attributes, signature, members, place)


def items_in(lines, around=None):
    """The items in these lines, one after the other."""
    items, comment, attributes, number = [], [], [], 0
    while number < len(lines):
        line, after = lines[number], number + 1
        if line.startswith("///"):
            comment.append(line)
        elif line.startswith("#["):
            attributes.append(line)
        elif line and not line.startswith(("//", "#!")):
            after = end_of_item(lines, number)
            items.append(make_item(comment, attributes, lines[number:after], around, number))
            comment, attributes = [], []
        number = after
    return items


def first_sentence(comment):
    """The lines of a comment up to the end of its first sentence. A full stop between backquotes ends none."""
    shown = []
    for line in comment:
        found = re.match(r"(?:`[^`]*`|[^`.]|\.(?!\s|$))*\.(?=\s|$)", line)
        if found:
            return shown + [found.group()]
        if not line[3:].strip():
            break
        shown.append(line)
    return shown


# The crates


@functools.cache
def library():
    """The crates whose items users reach."""
    crates = Path("crates.txt").read_text(encoding="utf-8")
    below = [re.search(rf"^{top}: (.*)$", crates, re.MULTILINE).group(1).split() for top in TOPS]
    return list(dict.fromkeys([*TOPS, *itertools.chain.from_iterable(below)]))


@functools.cache
def module(crate, path):
    file = Path("crates", crate, "src", *path).with_suffix(".rt") if path else Path("crates", crate, "src", "lib.rt")
    lines = file.read_text(encoding="utf-8").splitlines()
    about = [line for line in lines if line.startswith("//!")]
    sentence = " ".join(line[3:].strip() for line in first_sentence(about))
    return Module(crate, path, sentence.removesuffix("."), items_in(lines))


@functools.cache
def modules(crate, path=()):
    """A module and all below it, in the order of the source."""
    here = module(crate, path)
    below = [modules(crate, path + (item.name,)) for item in here.items if item.kind == "mod"]
    return [here] + [each for list_of_modules in below for each in list_of_modules]


@functools.cache
def own_traits():
    return {item.name for crate in library() for each in modules(crate) for item in each.items if item.kind == "trait"}


# What a user reaches


def used_paths(item):
    """The paths of a `pub use`."""
    path = item.signature[0].removeprefix("pub use ").removesuffix(";")
    prefix, brace, names = path.partition("{")
    if not brace:
        return [path]
    return [prefix + name.strip() for name in names.removesuffix("}").split(",") if name.strip()]


def follow(here, path):
    """The item, module or foreign item at a path of a module."""
    first, *rest = path.split("::")
    if first in library():
        start = module(first, ())
    elif any(item.kind == "mod" and item.name == first for item in here.items):
        start = module(here.crate, here.path + (first,))
    else:
        return Foreign(path)
    for name in rest[:-1]:
        start = module(start.crate, start.path + (name,))
    return find(start, rest[-1])


def find(here, name):
    """The item of this name in a module, with the module that declares it, or the module of this name."""
    for item in here.items:
        if item.name == name and item.kind in DECLARATIONS:
            return here, item
        if item.name == name and item.kind == "mod":
            return module(here.crate, here.path + (name,))
        if item.kind == "use" and item.is_shown():
            for path in used_paths(item):
                if path.split("::")[-1] == name:
                    return follow(here, path)
    sys.exit(f"crates/{here.crate}: no {'::'.join(here.path + (name,))}")


def reached(here):
    """The names of a module that users reach, each with what `find` returns."""
    for item in here.items:
        if not item.is_shown():
            continue
        if item.kind == "use":
            for path in used_paths(item):
                yield path.split("::")[-1], follow(here, path)
        elif item.kind == "mod" or item.kind in DECLARATIONS:
            yield item.name, find(here, item.name)


def reached_below(here, path=""):
    """The paths that users reach from a module, those of its modules too, in the order of the source."""
    for name, found in reached(here):
        if isinstance(found, Module):
            yield from reached_below(found, f"{path}{name}::")
        else:
            yield path + name, found


# The impls of a type


def implemented(item):
    """The trait of an impl, empty where there is none, and the name of the type."""
    head = " ".join(line.strip() for line in item.signature).removeprefix("impl").replace("->", "")
    depth = 0
    while depth or head.startswith("<"):
        depth += {"<": 1, ">": -1}.get(head[0], 0)
        head = head[1:]
    trait, _, name = head.strip().rpartition(" for ")
    return re.sub(r"<.*", "", trait).split("::")[-1], re.match(r"\W*(\w*)", name).group(1)


def declared_type(item):
    """The name of the type whose calls a user has by this item: if it is an alias, of the type that it names."""
    if item.kind != "type":
        return item.name
    return re.search(r"= (?:&'\w+ mut )?(\w+)", " ".join(item.signature)).group(1)


def impls_of(home, item):
    """The impls on a type with the modules that hold them, its own module first."""
    holders = sorted(modules(home.crate), key=lambda each: each is not home)
    for holder in holders:
        for each in holder.items:
            if each.kind == "impl":
                trait, name = implemented(each)
                if name == declared_type(item):
                    yield holder, trait, each


def anchor_of(call):
    """The anchor in PROMISES.md of what a call promises, if it has one."""
    for pattern, anchor in ANCHORS.items():
        if fnmatch.fnmatchcase(call, pattern):
            return anchor
    return None


# The page


class Page:
    def __init__(self):
        self.lines = INTRODUCTION.split("\n")
        self.lacking = []
        # By what path the page has shown a type first.
        self.names = {}

    def text(self, line):
        self.lines += ["", line]

    def block(self, lines):
        self.lines += ["", "```rust", *lines, "```"]

    def entry(self, item, around=""):
        """An item's comment and how it is declared."""
        if not item.comment:
            self.lacking.append(f"{around}{item.name}")
        return first_sentence(item.comment) + item.signature

    def entry_with_members(self, item, head):
        """These lines, and an item's parts under them."""
        lines = list(head)
        for member in filter(Item.is_shown, item.members):
            if lines[-1] != item.signature[-1] and member.kind in ("fn", "associated"):
                lines.append("")
            lines += [INDENT + line for line in self.entry(member, f"{' '.join(item.signature)}: ")]
        return lines

    def promises(self, calls):
        """A line of links to the promises of these calls, where there are any."""
        by_anchor = {}
        for call in calls:
            by_anchor.setdefault(anchor_of(call), []).append(f"`{call}`")
        by_anchor.pop(None, None)
        links = [f"[{', '.join(names[:4])}{', ..' if len(names) > 4 else ''}]({PROMISES.name}#{anchor})" for anchor, names in by_anchor.items()]
        if links:
            self.text(f"Promises: {'; '.join(links)}.")

    def declared(self, path, home, item):
        """A type or a trait, and what a type has, unless an earlier name of the same type has it already."""
        self.block(self.entry_with_members(item, self.entry(item)))
        shown = self.names.setdefault((home.crate, declared_type(item)), path)
        if shown != path:
            self.text(f"Its calls are those of `{shown}`.")
            return
        implementations = list(impls_of(home, item)) if item.kind != "trait" else []
        self.calls(home, [(holder, each) for holder, trait, each in implementations if not trait])
        self.traits([each for _, trait, each in implementations if trait and trait not in own_traits() | {"Model"}])

    def calls(self, home, implementations):
        """The calls of a type, by the modules that hold them, and where PROMISES.md has their promises."""
        for holder, group in itertools.groupby(implementations, key=lambda pair: pair[0]):
            shown = [each for _, each in group if any(map(Item.is_shown, each.members))]
            if shown and holder is not home:
                self.text(f"{holder.about}.")
            for each in shown:
                self.block(self.entry_with_members(each, each.signature))
            self.promises([member.name for each in shown for member in each.members if member.is_shown()])

    def traits(self, implementations):
        """The traits of std that a type implements, but for those that it derives."""
        if implementations:
            self.block([" ".join(line.strip() for line in each.signature) for each in implementations])

    def functions(self, items):
        self.block(list(itertools.chain.from_iterable([*self.entry(item), ""] for item in items))[:-1])
        self.promises([item.name for item in items])

    def section(self, top):
        """All that users reach by the name of a crate, under its headings."""
        found = dict(reached_below(module(top, ())))
        self.text(f"## `{top}`")
        for heading, paths in listed(top, found).items():
            self.text(f"### {heading}")
            for kind, group in itertools.groupby(paths, key=lambda path: kind_of(found[path])):
                group = list(group)
                if kind == "foreign":
                    self.block([f"pub use {found[path].path}" for path in group])
                elif kind == "type":
                    for path in group:
                        self.text(f"#### `{path}`")
                        self.declared(path, *found[path])
                else:
                    self.functions([found[path][1] for path in group])


def kind_of(found):
    if isinstance(found, Foreign):
        return "foreign"
    return "type" if found[1].kind in TYPES else "function"


def listed(top, found):
    """The headings of a crate with the paths under each. Fails where `ORDER` isn't what users reach."""
    order = {}
    for heading, words in ORDER[top].items():
        order[heading] = [path for word in words.split() for path in (fnmatch.filter(found, word) or [word])]
    paths = list(itertools.chain.from_iterable(order.values()))
    for path in [*found, *paths]:
        if paths.count(path) != 1 or path not in found:
            sys.exit(f"ci/api.py: ORDER has {path} {paths.count(path)} times, and the crate {top} {list(found).count(path)} times")
    return order


def headings(page):
    """The anchors of a page's headings."""
    lines = page.read_text(encoding="utf-8").splitlines()
    return {re.sub(r"[^\w -]", "", line.lstrip("# ")).lower().replace(" ", "-") for line in lines if line.startswith("#")}


def compare(printed):
    """Fails where docs/API.md isn't this text, and prints the first line that differs."""
    current = PAGE.read_text(encoding="utf-8") if PAGE.exists() else ""
    pairs = itertools.zip_longest(current.split("\n"), printed.split("\n"), fillvalue="the end")
    for number, (old, new) in enumerate(pairs, 1):
        if old != new:
            sys.exit(f"{PAGE}:{number}: differs from the sources\n  it has  {old}\n  sources {new}\n`sh ci/api.sh > {PAGE}` prints it again")
    print(f"{PAGE}: {number - 1} lines, as in the sources")


def main(words):
    if words not in ([], ["check"]):
        print("usage: sh ci/api.sh [check]", file=sys.stderr)
        sys.exit(2)
    page = Page()
    for top in TOPS:
        page.section(top)
    if page.lacking:
        sys.exit("no comment for readers (///): " + ", ".join(page.lacking))
    missing = set(ANCHORS.values()) - headings(PROMISES)
    if missing:
        sys.exit(f"{PROMISES}: no heading for: " + ", ".join(sorted(missing)))
    printed = "\n".join(page.lines) + "\n"
    if words:
        compare(printed)
    else:
        sys.stdout.reconfigure(encoding="utf-8")
        sys.stdout.write(printed)


main(sys.argv[1:])

#!/bin/sh
# The lines of asn1show against openssl: on each certificate of a folder, offsets, depths, lengths of headers and contents, and
# tags are those that `openssl asn1parse` prints. Lines of what is in strings are omitted, since openssl shows none.
#
#   sh ci/show_certificates.sh [FOLDER]     certificates in PEM, in files *.crt; Debian's where no folder is named
#
# Where openssl or the folder isn't there, it says so and compares nothing. What runs is asn1show as LLVM builds it, which
# `rt ci` leaves there; it is proved and built first where it isn't there or a source is newer.
set -eu
cd "$(dirname "$0")/.."
folder=${1:-/usr/share/ca-certificates/mozilla}
if ! command -v openssl > /dev/null; then
    echo "skipped: openssl isn't there"
    exit 0
fi
if [ ! -d "$folder" ]; then
    echo "skipped: $folder isn't there"
    exit 0
fi
work=$(mktemp -d)
trap 'rm -rf "$work"' EXIT
. ci/common.sh
build asn1show
python3 - "$program" "$folder" << 'END'
import pathlib, re, subprocess, sys

OPENSSL = re.compile(r' *(\d+):d=(\d+) +hl=(\d+) +l= *(\d+|inf) +(prim|cons): ([^:]*?) *(\[HEX DUMP\])?(:.*)?$')
PROGRAM = re.compile(r' *(\d+) +(\d+)\+(.{7})([ >]) ((?:  )*)(\[[^]]*\]|BIT STRING|OCTET STRING|OBJECT IDENTIFIER|[^ ]+)')
CLASSES = {'cont': '', 'appl': 'APPLICATION ', 'priv': 'PRIVATE '}
NAMES = {'OBJECT': 'OBJECT IDENTIFIER'}


def tag_of(text):
    found = re.fullmatch(r'(cont|appl|priv) \[ (\d+) \]', text)
    if found:
        return f'[{CLASSES[found[1]]}{found[2]}]'
    return NAMES.get(text, text).upper()


def by_openssl(path):
    printed = subprocess.run(['openssl', 'asn1parse', '-inform', 'PEM', '-in', path], check=True, capture_output=True, text=True, errors='replace')
    for line in printed.stdout.splitlines():
        found = OPENSSL.match(line)
        yield (*found.group(1, 2, 3, 4), tag_of(found[6])) if found else line


def by_program(program, path):
    printed = subprocess.run([program, path], check=True, capture_output=True, text=True)
    lines = printed.stdout.splitlines()
    for line in lines[1:-1]:
        found = PROGRAM.match(line)
        if not found:
            yield line
        elif found[4] == ' ':
            yield found[1], str(len(found[5]) // 2), found[2], found[3].rstrip(), found[6].upper()


program, folder = sys.argv[1:]
count = 0
for path in sorted(pathlib.Path(folder).glob('*.crt')):
    wanted, shown = list(by_openssl(path)), list(by_program(program, path))
    if wanted != shown:
        differs = next((pair for pair in zip(wanted, shown) if pair[0] != pair[1]), (len(wanted), len(shown)))
        sys.exit(f'{path}: openssl has {differs[0]}, asn1show {differs[1]}')
    count += len(shown)
print(f'{count} elements: the lines are those of openssl')
END

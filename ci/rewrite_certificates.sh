#!/bin/sh
# Real certificates come back: each certificate of a folder is read in DER as a `Certificate` of x509 and written again, and the bytes are
# the same; with a byte after it, it is rejected.
#
#   sh ci/rewrite_certificates.sh [FOLDER]     certificates in PEM, in files *.crt; Debian's where no folder is named
#
# Where the folder isn't there, it says so and compares nothing. What runs is asn1check as LLVM builds it, which `rt ci` leaves
# there; it is proved and built first where it isn't there or a source is newer.
set -eu
cd "$(dirname "$0")/.."
folder=${1:-/usr/share/ca-certificates/mozilla}
if [ ! -d "$folder" ]; then
    echo "skipped: $folder isn't there"
    exit 0
fi
work=$(mktemp -d)
trap 'rm -rf "$work"' EXIT
. ci/common.sh
build asn1check
python3 - "$program" "$folder" << 'END'
import base64, pathlib, re, subprocess, sys

BLOCK = re.compile(r'-----BEGIN CERTIFICATE-----(.*?)-----END CERTIFICATE-----', re.DOTALL)


def rewritten(program, der):
    return subprocess.run([program, '--encode', 'certificate'], input=der, capture_output=True)


program, folder = sys.argv[1:]
count = 0
for path in sorted(pathlib.Path(folder).glob('*.crt')):
    for block in BLOCK.findall(path.read_text()):
        der = base64.b64decode(block)
        ran = rewritten(program, der)
        if ran.returncode != 0 or ran.stdout != der:
            sys.exit(f'{path}: status {ran.returncode}, {len(ran.stdout)} bytes of {len(der)}: {ran.stderr.decode()}')
        if rewritten(program, der + b'\0').returncode != 1:
            sys.exit(f'{path}: taken with a byte behind it')
        count += 1
print(f'{count} certificates: each came back as it was')
END

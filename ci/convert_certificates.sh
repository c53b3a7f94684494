#!/bin/sh
# Real certificates and revocation lists are DER without ambiguity: `asn1der --strict` writes each one of a folder as it is.
#
#   sh ci/convert_certificates.sh [FOLDER]     in PEM, in files *.crt and *.crl; Debian's where no folder is named
#
# Where the folder isn't there, it says so and compares nothing. What runs is asn1der as LLVM builds it, which `rt ci` leaves
# there; it is proved and built first where it isn't there or a source is newer.
set -eu
cd "$(dirname "$0")/.."
folder=${1:-/usr/share/ca-certificates/mozilla}
if [ ! -d "$folder" ]; then
    echo "skipped: $folder isn't there"
    exit 0
fi
work=$(mktemp -d)
trap 'rm -rf "$work"' EXIT
. ci/common.sh
build asn1der
python3 - "$program" "$folder" << 'END'
import base64, pathlib, re, subprocess, sys

BLOCK = re.compile(r'-----BEGIN (CERTIFICATE|X509 CRL)-----(.*?)-----END \1-----', re.DOTALL)

program, folder = sys.argv[1:]
counts = {'CERTIFICATE': 0, 'X509 CRL': 0}
for path in sorted(path for path in pathlib.Path(folder).iterdir() if path.suffix in ('.crt', '.crl')):
    for label, text in BLOCK.findall(path.read_text()):
        der = base64.b64decode(text)
        ran = subprocess.run([program, '--strict'], input=der, capture_output=True)
        if ran.returncode != 0 or ran.stdout != der or ran.stderr:
            sys.exit(f'{path}: status {ran.returncode}, {len(ran.stdout)} bytes of {len(der)}: {ran.stderr.decode()}')
        counts[label] += 1
print(f"{counts['CERTIFICATE']} certificates, {counts['X509 CRL']} revocation lists: no ambiguity, and each came back as it was")
END

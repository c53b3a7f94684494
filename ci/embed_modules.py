"""Writes the sources of crates/message_modules: the lines of the modules that asn1check reads where it names what is wrong in a message.

    python3 ci/embed_modules.py [FOLDER]

FOLDER is where they are written, or else their place. ci/modules.sh holds that they are those of modules/.
"""

import sys
from pathlib import Path

# The files of modules/, and what their lines are called.
FILES = {
    "CMS": "cms",
    "ECPrivateKey": "ec_private_key",
    "LDAP": "ldap",
    "OCSP": "ocsp",
    "PKCS-1": "pkcs1",
    "PKCS-8": "pkcs8",
    "PKCS-10": "pkcs10",
    "PKIX1Explicit88": "pkix_explicit",
    "PKIX1Implicit88": "pkix_implicit",
    "SNMP": "snmp",
    "TSP": "tsp",
}


def literal(line):
    """A line as a string of Rust."""
    return '"' + line.replace("\\", "\\\\").replace('"', '\\"') + '"'


def source(name, constant, lines):
    """The source that holds the lines of a file."""
    head = f"//! The lines of `modules/{name}.asn1`. `ci/embed_modules.py` writes this file.\n\n"
    items = "".join(f"    {literal(it)},\n" for it in lines)
    return f"{head}/// The lines.\npub static {constant}: [&str; {len(lines)}] = [\n{items}];\n"


def main(folder):
    for name, module in FILES.items():
        lines = Path(f"modules/{name}.asn1").read_text().splitlines()
        Path(folder, f"{module}.rt").write_text(source(name, f"{module.upper()}_LINES", lines))


if __name__ == "__main__":
    main(sys.argv[1] if len(sys.argv) > 1 else "crates/message_modules/src")

#!/bin/sh
# Takes pictures of the pages of `asn1show --html` in a headless Chromium, and asks each page what it shows. It isn't part of the gate.
#
#   sh ci/html_pictures.sh FOLDER     writes NAME.html and NAME.png there, of a key, of an element that isn't DER, and of malformed input
#
# It needs asn1show in the path (`sh ci/install.sh`) and chromium (`apt-get install chromium`).
set -eu
folder=${1:?usage: sh ci/html_pictures.sh FOLDER}
mkdir -p "$folder"
browser=${CHROMIUM:-chromium}

page() {
    printf '%s\n' "$2" | asn1show --html > "$folder/$1.html" || true
    "$browser" --headless --no-sandbox --disable-gpu --window-size=1000,500 --screenshot="$folder/$1.png" "file://$(realpath "$folder/$1.html")" 2> /dev/null
}

# Fails unless the page, as the browser has read it, has this text.
shows() {
    "$browser" --headless --no-sandbox --disable-gpu --dump-dom "file://$(realpath "$folder/$1.html")" 2> /dev/null > "$folder/$1.dom"
    grep -qF -- "$2" "$folder/$1.dom" || { echo "$1.html doesn't show: $2" >&2; exit 1; }
}

page key '302E020100300506032B657004220420D4EE72DBF913584AD5B6D8F1F769F8AD3AFE7C28CBF1D4FBE097A88F44755842'
page not_der '3080 028101 05 010101 0C07 3C623E26223C2F 0000'
page malformed '3006 020105 0405 41'
shows key '1.3.101.112 Ed25519'
shows not_der "not DER: indefinite length"
shows not_der '"&lt;b&gt;&amp;\"&lt;/"'
shows malformed 'offset 5: Eof'
echo "html: 3 pages"

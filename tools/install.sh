#!/usr/bin/env bash
# Installs what was built here, if that is the program, else what dist/ has for this machine, and prints which. Usage: tools/install.sh PREFIX. DESTDIR, if it
# is set, is a folder in which PREFIX is.
set -euo pipefail
prefix=$(realpath -m "${1:?usage: $0 PREFIX}")
[ -z "${DESTDIR:-}" ] || DESTDIR=$(realpath -m "$DESTDIR")
cd "$(dirname "$0")/.."
if [ -x unixvol ]; then
    room=$(mktemp -d)
    trap 'rm -rf "$room"' EXIT
    tree=$room
    echo "./unixvol, as it was built here, to ${DESTDIR:-}$prefix"
    tools/lay_out.sh "$tree"
    [ -d "$tree/lib" ] || echo 'without the library, since `make library` has built none here'
else
    . tools/unpack.sh
    unpacks_own
    tree=$release
    echo "${release##*/}, from dist/, to ${DESTDIR:-}$prefix"
fi
tools/place.sh "$prefix" "$tree"

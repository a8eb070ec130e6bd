#!/usr/bin/env bash
# Lays out what was built here in FOLDER: bin/, share/, and if the library was built, include/, lib/ and the Python wheel.
# Usage: tools/lay_out.sh FOLDER. PROGRAM names the built program, if it isn't ./unixvol, and LIBRARY the folder of the built library, if it isn't bindings/out.
set -euo pipefail
folder=$(realpath -m "${1:?usage: $0 FOLDER}")
cd "$(dirname "$0")/.."
program=${PROGRAM:-unixvol}
built=${LIBRARY:-bindings/out}
if [ -x "$program" ]; then
    install -D -m 755 "$program" "$folder/bin/unixvol"
    install -D -m 755 bin/unixvol-mount "$folder/bin/unixvol-mount"
    ln -sf unixvol-mount "$folder/bin/unixvol-umount"
    install -D -m 644 manual/unixvol.1 "$folder/share/man/man1/unixvol.1"
    install -D -m 644 manual/unixvol-mount.1 "$folder/share/man/man1/unixvol-mount.1"
    install -D -m 644 manual/unixvol-umount.1 "$folder/share/man/man1/unixvol-umount.1"
    install -D -m 644 manual/unixvol.bash "$folder/share/bash-completion/completions/unixvol"
    install -D -m 644 manual/_unixvol "$folder/share/zsh/site-functions/_unixvol"
fi
[ -e "$built/libunixvol.a" ] || exit 0
install -D -m 644 bindings/c/unixvol.h "$folder/include/unixvol.h"
install -D -m 644 "$built/libunixvol.a" "$folder/lib/libunixvol.a"
install -D -m 755 "$built/libunixvol.so.0" "$folder/lib/libunixvol.so.0"
ln -sf libunixvol.so.0 "$folder/lib/libunixvol.so"
install -D -m 644 "$built/unixvol.pc" "$folder/lib/pkgconfig/unixvol.pc"
if command -v python3 >/dev/null; then
    python3 "$built/python/make_wheel.py" "$folder" >/dev/null
else
    echo 'skipped: python3 is not here: the Python wheel'
fi

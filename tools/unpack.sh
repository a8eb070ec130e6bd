# Unpacks archives of dist/, after checking their checksums, into a folder that is removed when the script ends. It is read with `.` at the top of the
# repository.
room=$(mktemp -d)
trap 'rm -rf "$room"' EXIT
(cd dist && sha256sum --quiet -c SHA256SUMS)

# unpacks MACHINE: unpacks the archive for it, and sets `release` to the folder; false if there is none
unpacks() {
    local archive
    for archive in dist/unixvol-*-"$1".tar.xz; do
        [ -e "$archive" ] || return 1
        tar -xJf "$archive" -C "$room"
        release=$room/$(basename "$archive" .tar.xz)
    done
}

# Unpacks the archive for this machine. If its program doesn't run, for want of the C library that it was linked with, it is the one with a static program.
unpacks_own() {
    local machine
    machine=$(uname -m)-$(uname -s | tr '[:upper:]' '[:lower:]')
    if ! unpacks "$machine"; then
        echo "dist/ has nothing for $machine, but:" dist/unixvol-*.tar.xz >&2
        exit 1
    fi
    "$release/bin/unixvol" --version >/dev/null 2>&1 || unpacks "$machine-static" || true
}

#!/usr/bin/env bash
# Installs a tree, as tools/lay_out.sh makes it, into PREFIX: bin/, include/, lib/, share/, and the wheel's package, if Python is here. What an earlier install
# left in PREFIX is removed first. PREFIX/share/unixvol/files lists what was installed, for tools/remove.sh. DESTDIR, if it is set, is a folder in which PREFIX is.
# Usage: tools/place.sh PREFIX TREE
set -euo pipefail
prefix=$(realpath -m "${1:?usage: $0 PREFIX TREE}")
tree=$(realpath "${2:?usage: $0 PREFIX TREE}")
root=${DESTDIR:+$(realpath -m "$DESTDIR")}$prefix
tools=$(dirname "$(realpath "$0")")
room=$(mktemp -d)
trap 'rm -rf "$room"' EXIT
if [ -e "$root/share/unixvol/files" ]; then
    "$tools/remove.sh" "$prefix" >"$room/output"
fi

# makes FOLDER: makes a folder below PREFIX, and lists it if it wasn't there
makes() {
    [ ! -d "$root/$1" ] || return 0
    case $1 in */*) makes "${1%/*}" ;; esac
    install -d -m 755 "$root/$1"
    echo "$1/" >>"$room/files"
}

# puts FILE PATH: installs a file, or a link, as PATH below PREFIX, and lists it
puts() {
    makes "$(dirname "$2")"
    rm -f "$root/$2"
    if [ -L "$1" ]; then
        cp -P "$1" "$root/$2"
    elif [ -x "$1" ]; then
        install -m 755 "$1" "$root/$2"
    else
        install -m 644 "$1" "$root/$2"
    fi
    echo "$2" >>"$room/files"
}

# The folder below PREFIX in which the Python here looks for packages; or that of plain Python's layout.
packages() {
    python3 - "$prefix" <<'END_OF_PYTHON'
import site, sys, sysconfig

if sys.version_info < (3, 10):
    sys.exit("skipped: python3 is older than 3.10: the Python package")
prefix = sys.argv[1].rstrip("/")
below = [it for it in site.getsitepackages() if it.startswith(prefix + "/lib")]
print((below[0] if below else sysconfig.get_path("purelib", "posix_prefix", {"base": prefix, "platbase": prefix}))[len(prefix) + 1 :])
END_OF_PYTHON
}

mkdir -p "$root"
cd "$tree"
for folder in bin include lib share; do
    [ ! -d "$folder" ] || find "$folder" ! -type d
done | LC_ALL=C sort >"$room/tree"
while IFS= read -r path; do puts "$path" "$path"; done <"$room/tree"
for wheel in *.whl; do
    if [ ! -e "$wheel" ]; then
        continue
    elif ! command -v python3 >/dev/null; then
        echo 'skipped: python3 is not here: the Python package'
    elif packages=$(packages); then
        python3 -m zipfile -e "$wheel" "$room/package"
        (cd "$room/package" && find . -type f | LC_ALL=C sort) >"$room/tree"
        while IFS= read -r path; do puts "$room/package/$path" "$packages/${path#./}"; done <"$room/tree"
        echo "the Python package is in $prefix/$packages"
    fi
done
makes share/unixvol
echo share/unixvol/files >>"$room/files"
install -m 644 "$room/files" "$root/share/unixvol/files"
# In the system's own folders the dynamic linker finds the shared object by its cache.
case ${DESTDIR:-}$prefix in
    /usr | /usr/local) PATH=$PATH:/sbin:/usr/sbin ldconfig || true ;;
esac
if [ -e bin/unixvol ] && ! bin/unixvol --version >/dev/null 2>&1; then
    echo 'the program does not run here: it is for another machine or a later C library; README.md says which archive is for which' >&2
fi

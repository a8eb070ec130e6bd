#!/usr/bin/env bash
# Writes the version wherever it is, and prints it. With NUMBER, what CHANGELOG.md has under `Unreleased` gets this number, which is then the version. Without
# it the version is that of the last release: the first heading of CHANGELOG.md that is a number.
# Usage: tools/version.sh [NUMBER]
set -euo pipefail
cd "$(dirname "$0")/.."

# stops TEXT: prints why there is no such version, and ends
stops() {
    echo "$0: $1" >&2
    exit 1
}

if (($#)); then
    [[ $1 =~ ^[0-9]+\.[0-9]+\.[0-9]+$ ]] || stops "a version is a number such as 0.3.0, and not $1"
    ! grep -qxF "## $1" CHANGELOG.md || stops "$1 is released already: take the next number"
    [ -n "$(tools/unreleased.sh)" ] || stops 'CHANGELOG.md has nothing under Unreleased'
    sed -i "0,/^## Unreleased\$/s//## Unreleased\n\n## $1/" CHANGELOG.md
fi
version=$(sed -n 's/^## \([0-9][0-9.]*\)$/\1/p' CHANGELOG.md | head -n 1)
[ -n "$version" ] || stops 'CHANGELOG.md has no heading with a version'
sed -i "s/\.version(\"[0-9.]*\")/.version(\"$version\")/" crates/command_line/src/builder.rt
sed -i "s/^version = \"[0-9.]*\"$/version = \"$version\"/" bindings/python/pyproject.toml bindings/rust/Cargo.toml bindings/rust/Cargo.lock
sed -i "s/^__version__ = \"[0-9.]*\"$/__version__ = \"$version\"/" bindings/python/unixvol/__init__.py
sed -i "s/^#define UNIXVOL_VERSION \"[0-9.]*\"$/#define UNIXVOL_VERSION \"$version\"/" bindings/c/unixvol.h
sed -i "s/^\(\.TH .*\)\"unixvol [0-9.]*\"$/\1\"unixvol $version\"/" manual/unixvol.1 manual/unixvol-mount.1
echo "$version"

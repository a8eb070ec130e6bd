#!/usr/bin/env bash
# Packs what was built from these sources, the program (`make build` or `make test`), the library (`make library`) and both for other machines (`make ports`),
# as dist/unixvol-VERSION-MACHINE.tar.xz: programs, manual pages, completions, header, libraries, Python wheel, samples, documents, and what installs them.
# What `make page` built is dist/unixvol-VERSION.html, the page, and dist/unixvol-VERSION-node.tar.xz, the module with what runs it.
# Beside them are SHA256SUMS and SOURCES, the checksums of the sources (tools/sources.sh). The same files give the same archives, byte for byte.
# A version is the number of one archive for each machine: if another one of this number is committed, nothing is packed.
set -euo pipefail
export LC_ALL=C
unset TAR_OPTIONS XZ_OPT XZ_DEFAULTS PROGRAM LIBRARY
umask 022
cd "$(dirname "$0")/.."

# stops TEXT: prints why no release can be made, and ends
stops() {
    echo "no release: $1" >&2
    exit 1
}

[ -x unixvol ] || stops 'the program is not built; run `make build`'
[ -e bindings/out/libunixvol.a ] || stops 'the library is not built; run `make library`'
command -v python3 >/dev/null || stops 'python3 is not here, which makes the wheel'
program=$(tools/sources.sh unixvol) library=$(tools/sources.sh unixvol_c)
[ "$program" = "$(cat crates/unixvol/out/sources 2>/dev/null)" ] || stops 'the program was built from other sources; run `make build`'
[ "$library" = "$(cat bindings/out/sources 2>/dev/null)" ] || stops 'the library was built from other sources; run `make library`'
ports=$(tools/sources.sh ports)
. tools/machines.sh
for machine in $machines; do
    [ -x "ports/out/$machine/unixvol" ] || stops "the program for $machine is not built; run \`make ports\`"
    [ "$ports" = "$(cat "ports/out/$machine/sources" 2>/dev/null)" ] || stops "the program for $machine was built from other sources; run \`make ports\`"
done
page=$(tools/sources.sh page)
[ -e page/out/unixvol.html ] || stops 'the page is not built; run `make page`'
[ "$page" = "$(cat page/out/sources 2>/dev/null)" ] || stops 'the page was built from other sources; run `make page`'
version=$(sed -n 's/^version = "\(.*\)"$/\1/p' bindings/python/pyproject.toml)
[ -z "$(tools/unreleased.sh)" ] || stops 'CHANGELOG.md has changes without a number; run tools/version.sh NUMBER'
[ "$(./unixvol --version)" = "unixvol $version" ] || stops "the program is not of version $version; run tools/version.sh"

room=$(mktemp -d)
trap 'rm -rf "$room"' EXIT
mkdir "$room/dist"
printf '%s  %s\n' "$program" unixvol "$library" unixvol_c "$ports" ports "$page" page >"$room/dist/SOURCES"

# packs MACHINE: packs what PROGRAM and LIBRARY name, as tools/lay_out.sh does
packs() {
    local name=unixvol-$version-$1 tree
    tree=$room/$name
    mkdir -p "$tree"/{tools,bindings/{c,python,rust}}
    tools/lay_out.sh "$tree"
    cp LICENSE README.md CHANGELOG.md CONTRIBUTING.md "$room/dist/SOURCES" "$tree"
    [ ! -e "ports/out/$1/compilers" ] || cp "ports/out/$1/compilers" "$tree/COMPILERS"
    cp tools/release.mk "$tree/Makefile"
    cp tools/place.sh tools/remove.sh "$tree/tools"
    cp -r samples docs "$tree"
    cp bindings/README.md "$tree/bindings"
    cp -r bindings/c/examples "$tree/bindings/c"
    cp -r bindings/python/examples "$tree/bindings/python"
    cp -r bindings/rust/{src,examples,build.rs,Cargo.toml,Cargo.lock} "$tree/bindings/rust"
    find "$tree" -name __pycache__ -prune -exec rm -r {} +
    archives "$name"
}

# archives NAME: makes an archive of the folder $room/NAME, whose documents get no link that leads nowhere
archives() {
    tools/plain_links.py "$room/$1"
    chmod -R u=rwX,go=rX "$room/$1"
    tar -C "$room" --format=ustar --sort=name --owner=0 --group=0 --numeric-owner --mtime=@0 -cf - "$1" | xz -9e --threads=1 >"$room/dist/$1.tar.xz"
}

# Packs the module with what runs it, and the page.
packs_page() {
    local name=unixvol-$version-node
    mkdir "$room/$name"
    cp page/out/{unixvol.wasm,unixvol.mjs,unixvol.d.mts,node.mjs} LICENSE CHANGELOG.md "$room/dist/SOURCES" "$room/$name"
    cp page/README.md "$room/$name/README.md"
    archives "$name"
    install -m 644 page/out/unixvol.html "$room/dist/unixvol-$version.html"
}

packs x86_64-linux
for machine in $machines; do
    PROGRAM=ports/out/$machine/unixvol LIBRARY=$(library_of "$machine") packs "$machine"
done
packs_page
(cd "$room/dist" && sha256sum -- *.tar.xz *.html >SHA256SUMS)
for archive in "$room"/dist/unixvol-*; do
    if git cat-file blob "HEAD:dist/${archive##*/}" >"$room/released" 2>/dev/null && ! cmp -s "$room/released" "$archive"; then
        stops "$version is the number of another archive; run tools/version.sh NUMBER"
    fi
done
rm -rf dist
cp -r "$room/dist" dist
for archive in dist/unixvol-*; do
    echo "$archive: $(wc -c <"$archive") bytes"
done

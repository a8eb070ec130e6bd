#!/usr/bin/env bash
# Tests how a release is packed, compared, installed and removed: in a copy of what `make release` takes, with PROGRAM for each machine, and with texts in the
# place of the built libraries. It also compares the version wherever it is written.
# Usage: tests/release.sh PROGRAM. It prints a line for each row that fails, and ends with 'N passed, N failed'.
. "$(dirname "$0")/rows.sh"
top=${samples%/*}
version=$("$program" --version)
version=${version#* }
name=unixvol-$version-x86_64-linux
wheel=unixvol-$version-py3-none-manylinux2014_x86_64.whl
machines=$(cd "$top" && . tools/machines.sh && echo "$machines")
# The toolchain's name is all that is asked of it.
export RT=echo
unset DESTDIR PREFIX PROGRAM LIBRARY MAKEFLAGS

# The program, as one that needs a later C library if there is a file too_old.
printf '#!/bin/sh\n[ ! -e "%s/too_old" ] || exit 127\nexec "%s" "$@"\n' "$folder" "$program" > late
chmod +x late

# copies FOLDER: makes a copy of the repository with the program and the library built, for each machine
copies() {
    mkdir -p "$1"/crates/{command_line,unixvol,unixvol_c}/src "$1"/crates/{unixvol/out,command_line/out} "$1/bindings/out/python/unixvol"
    cp -r "$top"/{LICENSE,README.md,CHANGELOG.md,CONTRIBUTING.md,HANDLES,Makefile,bin,docs,manual,samples,tools} "$1"
    # A release has nothing unreleased.
    sed -i '/^## Unreleased$/,/^## [0-9]/ { /^## /!d }' "$1/CHANGELOG.md"
    (cd "$top/bindings" && tar -cf - --exclude=./out --exclude=target --exclude=__pycache__ .) | tar -xf - -C "$1/bindings"
    cp "$top/crates/command_line/src/builder.rt" "$1/crates/command_line/src"
    cp late "$1/unixvol"
    echo a > "$1/crates/unixvol/src/main.rt"
    echo b > "$1/crates/unixvol_c/src/lib.rt"
    printf '%s\n' 'unixvol: command_line' 'command_line:' 'unixvol_c staticlib:' > "$1/crates.txt"
    (
        cd "$1/bindings/out" || exit
        for file in libunixvol.a libunixvol.so.0 unixvol.pc; do echo "$file" > $file; done
        cp ../../LICENSE ../python/{pyproject.toml,make_wheel.py} python
        cp ../python/unixvol/{*.py,py.typed} libunixvol.so.0 python/unixvol
        ../../tools/sources.sh unixvol_c > sources
        ../../tools/sources.sh > ../../crates/unixvol/out/sources
    )
    mkdir "$1/ports"
    cp "$top"/ports/{machines,*.c,*.awk} "$1/ports"
    for machine in $machines; do ported "$1" "$1/ports/out/$machine" "${machine%%-*}"; done
    (cd "$top" && tar -cf - --exclude=page/out page) | tar -xf - -C "$1"
    mkdir "$1/page/out"
    for file in unixvol.{html,wasm,mjs,d.mts} node.mjs; do echo "$file" > "$1/page/out/$file"; done
    "$1/tools/sources.sh" page > "$1/page/out/sources"
}

# ported FOLDER BUILT CPU: what `make ports` builds for a machine
ported() {
    mkdir -p "$2"
    cp "$program" "$2/unixvol"
    echo "a compiler for $3" > "$2/compilers"
    "$1/tools/sources.sh" ports > "$2/sources"
    if [ "$3" = aarch64 ]; then
        cp -r "$1/bindings/out" "$2/library"
        printf '\n[tool.unixvol]\nmachine = "%s"\n' "$3" >> "$2/library/python/pyproject.toml"
    fi
}

# says LABEL STATUS TEXT WORD..: the command ends with this status, and TEXT is in what it prints
says() {
    local label=$1 status=$2 text=$3
    shift 3
    "$@" > said 2>&1 < /dev/null
    has "$label: the status" "$status" $?
    has "$label" "$text" "$(grep -oFm 1 -- "$text" said | head -n 1)"
}

# tree FOLDER: the files below a folder, each with its mode, and its checksum or where it leads
tree() { (cd "$1" && find . ! -type d -printf '%P %m %l\n' | LC_ALL=C sort && find . -type f -print0 | LC_ALL=C sort -z | xargs -0 sha256sum); }

# dead_links FOLDER: the links in documents below a folder that lead to no file, but for those to other hosts
dead_links() {
    local document path
    find "$1" -name '*.md' | while read -r document; do
        grep -oP '\]\(\K[^)#:]*(?=[)#])' "$document" | while read -r path; do [ -e "${document%/*}/$path" ] || echo "$document: $path"; done
    done
}

# The version is the same wherever it is written.
copies one
has 'the version of CHANGELOG.md' "$version" "$(one/tools/version.sh)"
for file in crates/command_line/src/builder.rt bindings/c/unixvol.h bindings/python/pyproject.toml bindings/python/unixvol/__init__.py bindings/rust/Cargo.toml \
    bindings/rust/Cargo.lock manual/unixvol.1 manual/unixvol-mount.1; do
    has "the version in $file" '' "$(diff "$top/$file" "one/$file")"
done
has 'the C library that README names' "glibc $(grep -ao 'GLIBC_2\.[0-9]*' "$program" | sort -Vu | sed -n '$s/.*_//p')" \
    "$(grep -o 'glibc 2\.[0-9]*' "$top/README.md")"

# What is unreleased gets a number once, and that number is then written everywhere.
has 'the first heading of CHANGELOG.md' '## Unreleased' "$(grep -m 1 '^## ' "$top/CHANGELOG.md")"
copies numbered
says 'no changes to number' 1 'CHANGELOG.md has nothing under Unreleased' numbered/tools/version.sh 9.8.7
sed -i "s/^## Unreleased\$/&\n\n- A change./" numbered/CHANGELOG.md
says 'changes without a number' 1 'no release: CHANGELOG.md has changes without a number; run tools/version.sh NUMBER' numbered/tools/release.sh
says 'a number that is no version' 1 'a version is a number such as 0.3.0, and not 9.8' numbered/tools/version.sh 9.8
says 'a number that is released' 1 "$version is released already: take the next number" numbered/tools/version.sh "$version"
says 'a new number' 0 9.8.7 numbered/tools/version.sh 9.8.7
has 'the new number in the header and the packages' 5 "$(grep -F '"9.8.7"' numbered/bindings/{c/unixvol.h,python/pyproject.toml,python/unixvol/__init__.py,rust/Cargo.{toml,lock}} | wc -l)"
has 'the headings of CHANGELOG.md' "## Unreleased ## 9.8.7 ## $version" "$(grep '^## ' numbered/CHANGELOG.md | head -n 3 | paste -s -d ' ' -)"
has 'what is unreleased then' '' "$(numbered/tools/unreleased.sh)"
has 'the files that have the new number' 7 "$(grep -rlF 9.8.7 numbered --include=builder.rt --include='*.toml' --include=Cargo.lock --include='*.1' --include=CHANGELOG.md | grep -vc /out/)"
says 'a program of the number before' 1 'no release: the program was built from other sources; run `make build`' numbered/tools/release.sh

# The header and the Rust wrapper declare what the library's source has. (tests/library.sh compares Python's part too, which needs the built library.)
says 'declarations' 0 ' passed, 0 failed' "$top/bindings/declarations.py"

# The same files are packed to the same bytes, and a link to what isn't packed is plain text there.
copies two
for copy in one two; do echo 'Sources and tests have links in the repository alone, as [this crate](../crates/pdp_words/README.md#use).' >> $copy/docs/SPEED.md; done
says 'make release' 0 "dist/$name.tar.xz: " make -C one release
(umask 077 && cd two && TZ=Asia/Tokyo XZ_OPT=-0 tools/release.sh > ../said 2>&1)
has 'the same archive' '' "$(diff -r one/dist two/dist)"
has 'the checksum' "$name.tar.xz: OK" "$(cd one/dist && sha256sum -c SHA256SUMS | grep -x "$name.tar.xz: OK")"
tar -xJf "one/dist/$name.tar.xz"
for path in LICENSE README.md CHANGELOG.md SOURCES Makefile bin/unixvol bin/unixvol-mount bin/unixvol-umount share/man/man1/unixvol{,-mount,-umount}.1 \
    share/bash-completion/completions/unixvol share/zsh/site-functions/_unixvol include/unixvol.h lib/libunixvol.a lib/libunixvol.so lib/libunixvol.so.0 \
    lib/pkgconfig/unixvol.pc "$wheel" samples/linux_made.v7 docs/LESSON.md bindings/README.md; do
    has "$path in the archive" yes "$([ -f "$name/$path" ] && echo yes)"
done
has 'links that lead to nothing' '' "$(dead_links "$name")"
has 'what a link that led to nothing says' 'Sources and tests have links in the repository alone, as this crate.' "$(tail -n 1 "$name/docs/SPEED.md")"

# Each machine has an archive with what was built for it, and with what all have.
for machine in $machines; do
    other=unixvol-$version-$machine
    has "the checksum for $machine" "$other.tar.xz: OK" "$(cd one/dist && sha256sum -c SHA256SUMS | grep -x "$other.tar.xz: OK")"
    tar -xJf "one/dist/$other.tar.xz"
    has "the compilers for $machine" "a compiler for ${machine%%-*}" "$(cat "$other/COMPILERS")"
    has "the program for $machine" '' "$(cmp "$other/bin/unixvol" "$program" 2>&1)"
    has "what all have, for $machine" '' "$(diff -r "$name" "$other" | grep -v -e COMPILERS -e bin/unixvol -e '\.whl$' -e ': include$' -e ': lib$')"
    [ "$machine" = riscv64-linux ] || has "the library for $machine" libunixvol.a "$(cat "$other/lib/libunixvol.a")"
done
wheel_of_pi=unixvol-$version-aarch64-linux/${wheel/x86_64/aarch64}
has 'the wheel for aarch64' 'Tag: py3-none-manylinux2014_aarch64' "$(unzip -p "$wheel_of_pi" "unixvol-$version.dist-info/WHEEL" | grep ^Tag)"

# So has Node, and the page is a file of its own.
has 'the checksum of the page' "unixvol-$version.html: OK" "$(cd one/dist && sha256sum -c SHA256SUMS | grep -x "unixvol-$version.html: OK")"
has 'the page' unixvol.html "$(cat "one/dist/unixvol-$version.html")"
tar -xJf "one/dist/unixvol-$version-node.tar.xz"
has 'links that lead to nothing, for Node' '' "$(dead_links "unixvol-$version-node")"
has 'what Node runs' 'CHANGELOG.md LICENSE README.md SOURCES node.mjs unixvol.d.mts unixvol.mjs unixvol.wasm' \
    "$(cd "unixvol-$version-node" && printf '%s\n' * | LC_ALL=C sort | paste -s -d ' ' -)"

# What was built is compared with the release.
says 'compare' 0 'dist/ has what was built, byte for byte: the program' one/tools/compare.sh
says 'compare all' 0 'dist/ has what was built, byte for byte: the library' one/tools/compare.sh all
for machine in $machines; do
    says "compare what is for $machine" 0 "dist/ has what was built, byte for byte: the builds for $machine" one/tools/compare.sh all
done
cp -r two paged
says 'compare the page' 0 'dist/ has what was built, byte for byte: the page and what Node runs' one/tools/compare.sh all
echo x >> paged/page/out/unixvol.wasm
says 'a module that differs' 1 'unixvol.wasm' paged/tools/compare.sh
echo x >> paged/page/out/sources
says 'a page of other sources to pack' 1 'no release: the page was built from other sources; run `make page`' paged/tools/release.sh
rm -r paged/page/out
says 'no page' 0 'not built here from these sources: the page and what Node runs' paged/tools/compare.sh
says 'no page to verify' 1 'not built here from these sources: the page and what Node runs' paged/tools/compare.sh all
says 'no page to pack' 1 'no release: the page is not built; run `make page`' paged/tools/release.sh
cp -r two other
echo x >> other/ports/out/aarch64-linux/unixvol
says 'a program for aarch64 that differs' 1 'bin/unixvol' other/tools/compare.sh
echo another > other/ports/out/aarch64-linux/compilers
says 'another compiler' 0 'built here by other compilers, or with another C library, than those of dist/: the builds for aarch64-linux' other/tools/compare.sh
says 'another compiler, with all' 1 'built here by other compilers' other/tools/compare.sh all
rm -r other/ports/out/aarch64-linux
says 'nothing for aarch64' 0 'not built here from these sources: the builds for aarch64-linux' other/tools/compare.sh
says 'nothing for aarch64 to verify' 1 'not built here from these sources: the builds for aarch64-linux' other/tools/compare.sh all
says 'nothing for aarch64 to pack' 1 'no release: the program for aarch64-linux is not built; run `make ports`' other/tools/release.sh
echo x >> other/bindings/out/libunixvol.a
says 'a library that differs' 1 'lib/libunixvol.a' other/tools/compare.sh
echo x >> other/unixvol
says 'a program that differs' 1 'bin/unixvol' other/tools/compare.sh
echo c > two/crates/unixvol/src/main.rt
says 'a program of other sources' 1 'no release: the program was built from other sources; run `make build`' two/tools/release.sh
says 'older sources' 0 'dist/ is of older sources: the program' two/tools/compare.sh
says 'older sources, with verify' 2 'dist/ is of older sources: the program' make -C two verify
rm two/bindings/out/libunixvol.a
says 'no library here' 1 'no release: the library is not built; run `make library`' two/tools/release.sh
says 'no library to compare' 0 'not built here from these sources: the library' two/tools/compare.sh
says 'no library to verify' 1 'not built here from these sources: the library' two/tools/compare.sh all
rm two/unixvol
says 'no program here' 1 'no release: the program is not built; run `make build`' two/tools/release.sh

# A version is the number of one archive.
git -C one init -q
git -C one add dist
git -C one -c user.name=a -c user.email=a@b commit -qm release
says 'the same archive again' 0 "dist/$name.tar.xz: " one/tools/release.sh
cp one/README.md kept
echo more >> one/README.md
says 'another archive of the same number' 1 "no release: $version is the number of another archive; run tools/version.sh NUMBER" one/tools/release.sh
mv kept one/README.md
rm -rf one/.git

# Without a toolchain: `make run`, `make install` and `make uninstall`, in the repository and in the unpacked archive.
rm -r one/unixvol one/bindings/out one/crates
says 'make run' 0 hello make -C one run
says 'make run in the archive' 0 hello make -C "$name" run
says 'make install' 0 "$name, from dist/, to $folder/home" make -C one install PREFIX="$folder/home"
says 'make install in the archive' 0 '' make -C "$name" install PREFIX=/usr DESTDIR="$folder/root"
says 'tools/install.sh with a relative DESTDIR' 0 '' env DESTDIR=staged one/tools/install.sh /usr
says 'tools/remove.sh with a relative DESTDIR' 0 "removed from $folder/staged/usr" env DESTDIR=staged one/tools/remove.sh /usr
says 'it runs' 0 "unixvol $version" home/bin/unixvol --version
says 'the second name of unixvol-mount' 0 'usage: unixvol-umount FOLDER' home/bin/unixvol-umount --help
for path in bin include lib share; do
    has "what is installed in $path" '' "$(diff <(tree "$name/$path") <(tree "home/$path" | grep -v -e '-packages/' -e 'unixvol/files'))"
done
has 'the same files below DESTDIR' '' "$(diff <(grep -v -e packages home/share/unixvol/files) <(grep -v -e packages root/usr/share/unixvol/files))"
# The archive is that for this machine; on x86-64 it is the static one, if the C library is too old.
mkdir named
printf '#!/bin/sh\ncase $1 in -m) echo $CPU ;; *) echo Linux ;; esac\n' > named/uname
chmod +x named/uname
says 'make install on aarch64' 0 "unixvol-$version-aarch64-linux, from dist/, to $folder/pi" env CPU=aarch64 PATH="$folder/named:$PATH" make -C one install PREFIX="$folder/pi"
says 'make install where nothing is for' 2 'dist/ has nothing for armv7l-linux, but: dist/unixvol-' \
    env CPU=armv7l PATH="$folder/named:$PATH" make -C one install PREFIX="$folder/pi"
touch too_old
says 'make install with an old C library' 0 "$name-static, from dist/, to $folder/old" make -C one install PREFIX="$folder/old"
has 'the static program runs there' "unixvol $version" "$(old/bin/unixvol --version)"
rm too_old
packages=$(echo home/lib/python3*/*-packages)
has 'the Python package' 'libunixvol.so.0' "$(cat "$packages/unixvol/libunixvol.so.0")"
has 'the metadata of the package' "Version: $version" "$(grep ^Version: "$packages/unixvol-$version.dist-info/METADATA")"
tree home > before
says 'a second install' 0 "$name, from dist/, to $folder/home" make -C one install PREFIX="$folder/home"
has 'a second install is as the first' '' "$(tree home | diff before -)"
rm -r home/lib/python3*
says 'an install after the package was removed' 0 "$name, from dist/, to $folder/home" make -C one install PREFIX="$folder/home"
has 'an install after the package was removed is as the first' '' "$(tree home | diff before -)"
rm home/bin/unixvol
mkdir home/bin/unixvol
says 'make uninstall of a file that is a folder now' 2 'bin/unixvol' make -C one uninstall PREFIX="$folder/home"
rmdir home/bin/unixvol
says 'an install after that' 0 "$name, from dist/, to $folder/home" make -C one install PREFIX="$folder/home"
has 'an install after that is as the first' '' "$(tree home | diff before -)"
mkdir "$packages/unixvol/__pycache__"
touch "$packages/unixvol/__pycache__/_paths.cpython-311.pyc" home/bin/another
says 'make uninstall' 0 "removed from $folder/home" make -C one uninstall PREFIX="$folder/home"
has 'what is left' bin/another "$(cd home && find . ! -type d -printf '%P\n' -o -empty -printf '%P\n')"
says 'make uninstall below DESTDIR' 0 '' make -C "$name" uninstall PREFIX=/usr DESTDIR="$folder/root"
has 'what is left below DESTDIR' root/usr "$(find root -mindepth 1)"
says 'nothing to uninstall' 2 'there is no list of what was installed' make -C one uninstall PREFIX="$folder/home"
echo x >> "one/dist/$name.tar.xz"
says 'an archive that was changed' 2 'FAILED' make -C one install PREFIX="$folder/home"
echo "$passed passed, $failed failed"
[ "$failed" -eq 0 ]

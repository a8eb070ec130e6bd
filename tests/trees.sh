#!/usr/bin/env bash
# Runs the commands of the built program that show a tree or change it by several calls, and compares the results with GNU tar and Python.
# Usage: tests/trees.sh PROGRAM. It prints a line for each row that fails, and ends with 'N passed, N failed'.
. "$(dirname "$0")/rows.sh"
linux="$samples/linux_made.v7"

# imports FILE WORD..: the program imports the archive in FILE, and prints nothing
imports() {
    "$program" import "${@:2}" < "$1" > output 2> error
    echo $? > status
    wants "import ${*:2}" 0 none none
}

# A tree on the host: directories, files of several sizes, a further name, names of 14 bytes, an empty file.
mkdir -p src/cmd/empty src/man
printf 'main() {}\n' > src/cmd/a.c
head -c 5000 /dev/zero | tr '\0' b > src/cmd/fourteen-bytes
: > src/none
ln src/cmd/a.c src/man/again
chmod 750 src/cmd
chmod 4711 src/cmd/fourteen-bytes
find src -exec touch -d @100000000 {} +
for format in ustar gnu pax; do
    tar --format="$format" --owner=3 --group=1 --numeric-owner -cf "$format.tar" -C src .
done

for edition in 6 7; do
    "$program" mkfs "$edition" disk.img 400 10 0 0 1000
    cp disk.img new.img
    for format in ustar gnu pax; do
        cp new.img disk.img
        imports "$format.tar" "$edition" disk.img / 100000500
        rm -rf out
        mkdir out
        "$program" export "$edition" disk.img | tar -xpf - -C out 2> error
        diff -r src out > differences
        has "the tree of a $format archive" '' "$(cat differences)"
        has "permissions, times and links of a $format archive" '750 100000000 100000000 4711 100000000 2' \
            "$(stat -c '%a %Y' out/cmd) $(stat -c '%Y' out/cmd/a.c) $(stat -c '%a %Y' out/cmd/fourteen-bytes) $(stat -c %h out/man/again)"
        has "the owner in a $format archive" 3/1 "$("$program" export "$edition" disk.img | tar --numeric-owner -tvf - none | awk '{ print $2 }')"
        "$program" icheck "$edition" disk.img 1 > report
        has "a volume into which a $format archive was imported" 0 $?
    done
    # The export of an imported export is the same.
    "$program" export "$edition" disk.img > one.tar
    cp new.img other.img
    imports one.tar "$edition" other.img
    "$program" export "$edition" other.img > other.tar
    cmp -s one.tar other.tar
    has 'an export of an import of an export' 0 $?
    # Below a directory, and a second time over the existing members.
    prints none mkdir -p "$edition" other.img /usr/src 5
    imports ustar.tar "$edition" other.img /usr/src 6
    "$program" get "$edition" other.img /usr/src/cmd/a.c > output
    cmp -s output src/cmd/a.c
    has 'a file below a directory' 0 $?

    # Files whose directories aren't members, and directories that occur twice.
    cp new.img ways.img
    tar --format=ustar --owner=0 --group=0 -cf ways.tar -C src cmd/a.c ./man/again
    imports ways.tar "$edition" ways.img / 100000500
    "$program" get "$edition" ways.img /man/again > output
    cmp -s output src/cmd/a.c
    has 'a file whose directory is no member' 0 $?
    cp new.img ways.img
    tar --format=ustar --owner=0 --group=0 -cf twice.tar -C src man cmd
    tar --format=ustar --owner=0 --group=0 --no-recursion -rf twice.tar -C src man cmd/empty
    imports twice.tar "$edition" ways.img / 100000500
    "$program" dcheck "$edition" ways.img 1 > report
    has 'a volume into which an archive was imported that has a directory twice' 0 $?

    # A file from before 1970, as GNU tar archives it.
    mkdir -p early
    echo early > early/moon
    touch -d 1969-07-20T20:17:40Z early/moon
    tar --format=gnu --owner=0 --group=0 -cf early.tar -C early moon
    imports early.tar "$edition" ways.img / 100000500
    has 'the time of a file from before 1970' '1973-03-03 09:55:00' "$("$program" ls -l "$edition" ways.img /moon | awk '{ print $7, $8 }')"

    # Archives that are refused.
    tar --format=ustar --owner=40000 --group=0 -cf owner.tar -C src cmd/a.c
    cp other.img before
    "$program" import "$edition" other.img / 7 < owner.tar > output 2> error
    has 'an import of an owner that the edition has not' "1 unixvol: cmd/a.c: an owner or a group above the edition's highest" "$? $(cat error)"
    saves 'an image without the owner' other.img before
    : > fifteen-bytes-n
    tar --format=ustar -cf long.tar fifteen-bytes-n
    cp other.img before
    "$program" import "$edition" other.img / 7 < long.tar > output 2> error
    has 'the status of an import of a long name' 1 $?
    grep -q fifteen-bytes-n error
    has 'the line of a long name has its path' 0 $?
    saves 'an image without the long name' other.img before
    head -c 700 ustar.tar > cut.tar
    "$program" import "$edition" other.img / 7 < cut.tar > output 2> error
    has 'the status of an import of a cut archive' '1 1' "$? $(wc -l < error)"
    saves 'an image without the cut archive' other.img before
    ln -sf a.c link
    tar --format=ustar -cf symbolic.tar link
    "$program" import "$edition" other.img / 7 < symbolic.tar > output 2> error
    has 'the status of an import of a symbolic link' '1 1' "$? $(wc -l < error)"
    saves 'an image without the symbolic link' other.img before

    # Directories on the way, further names, and everything below a directory.
    prints none mkdir -p "$edition" other.img /p/q/r 8
    prints none mkdir -p "$edition" other.img /p/q/r 9
    prints none mkdir -p "$edition" other.img /p/q/s 9
    printf '%s\n' q > wanted
    "$program" ls "$edition" other.img /p | awk '$2 !~ /^\./ { print $2 }' | cmp -s - wanted
    has 'the directories on the way' 0 $?
    for path in /none/x/y /none/. /none/..; do refuses 1 'unixvol: 20 NotDirectory' mkdir -p "$edition" other.img "$path" 10; done
    prints none mv "$edition" other.img /none /p/some 11
    refuses 1 'unixvol: 2 NoEntry' get "$edition" other.img /none
    prints none get "$edition" other.img /p/some
    prints none mv "$edition" other.img /p/some /p/q 12
    prints none get "$edition" other.img /p/q/some
    cp other.img before
    refuses 1 'unixvol: 17 Exists' mv "$edition" other.img /p/q/some /cmd/a.c 13
    refuses 1 'unixvol: 21 IsDirectory' mv "$edition" other.img /p/q /p/t 13
    refuses 1 'unixvol: 2 NoEntry' mv "$edition" other.img /x /y 13
    refuses 1 'unixvol: 21 IsDirectory' rm "$edition" other.img /p 13
    refuses 1 'unixvol: 22 Invalid' rm -r "$edition" other.img / 13
    refuses 1 'unixvol: 2 NoEntry' rm -r "$edition" other.img /x 13
    saves 'an image of which all was refused' other.img before
    prints none rm -r "$edition" other.img /p 14
    prints none rm -r "$edition" other.img /usr 15
    prints none rm --recursive "$edition" other.img /cmd 16
    prints none rm -r "$edition" other.img /man/again 17
    prints none rm -r "$edition" other.img /man 18
    printf '. ..\n' > wanted
    "$program" ls "$edition" other.img | awk '{ print $2 }' | paste -s -d ' ' - | cmp -s - wanted
    has 'a volume of which all was removed' 0 $?
    "$program" icheck "$edition" other.img 1 > report
    "$program" icheck "$edition" new.img 1 | cmp -s - report
    has 'the blocks of a volume of which all was removed' 0 $?

    # Several files at once, into a directory and out of one.
    cp new.img several.img
    printf one > first
    printf two > second
    : > 1975
    prints none mkdir "$edition" several.img /in 5
    prints none put "$edition" several.img -t /in first "$folder/second" ./1975 100000500
    has 'the moment of files that are put' '1973-03-03 09:55:00' "$("$program" ls -l "$edition" several.img /in | awk '$NF == "second" { print $7, $8 }')"
    rm -rf away
    mkdir away
    prints none get "$edition" several.img -o away /in/first in/second //in/1975/
    for file in first second 1975; do
        cmp -s "$file" "away/$file"
        has "the file $file, put and got" 0 $?
    done
    printf three > first
    prints none put "$edition" several.img --target-directory=/in first
    prints first get "$edition" several.img /in/first
    prints none get -o away "$edition" several.img in/first
    cmp -s first away/first
    has 'a file that was there, got again' 0 $?
    # A pipe in the folder, or at the end of a link there, is left alone, whether or not another program reads from it.
    rm -rf pipes pipe
    mkdir pipes
    mkfifo pipe pipes/first
    ln -s ../pipe pipes/second
    for name in first second; do
        echo "unixvol: cannot write pipes/$name" > line
        runs_within 20 get "$edition" several.img -o pipes "in/$name"
        wants "get -o onto the pipe $name" 3 none line
    done
    timeout 20 cat pipe > piped &
    exec 9> pipe
    runs_within 20 get "$edition" several.img -o pipes in/second 9>&-
    wants 'get -o onto a pipe that is read' 3 none line
    exec 9>&-
    wait
    has 'what came through the pipe, and the names beside it' '0 first second' "$(wc -c < piped) $(find pipes -mindepth 1 -printf '%f\n' | sort | paste -s -d ' ' -)"
    # A pipe without a name, and a device, are written in place.
    prints none put "$edition" several.img -t / first 6
    prints none mv "$edition" several.img /first /stdout 6
    has 'get -o into a pipe without a name' three "$(timeout 20 "$program" get "$edition" several.img -o /dev stdout 2>&1 | cat)"
    prints none mv "$edition" several.img /stdout /null 6
    runs_within 20 get "$edition" several.img -o /dev null
    wants 'get -o onto a device' 0 none none
    prints none rm "$edition" several.img /null 6
    # A last word that is both a time and a file: nothing is opened. With a slash it is a file, and if no file has that name, a time.
    printf nine > 9
    mkdir -p 2026-11-23T12:00:00Z
    cp several.img before
    refuses 2 'unixvol: 9: a moment, and a file too: write ./9, or the moment in another form' put "$edition" several.img -t /in first 9
    refuses 2 'unixvol: 9: a moment, and a file too: write ./9, or the moment in another form' put -t /in "$edition" none.img missing 9
    refuses 2 'unixvol: 2026-11-23T12:00:00Z: a moment, and a file too: write ./2026-11-23T12:00:00Z, or the moment in another form' put "$edition" several.img -t /in first 2026-11-23T12:00:00Z
    ln -s gone 1975-01-01T00:00:00Z
    refuses 2 'unixvol: 1975-01-01T00:00:00Z: a moment, and a file too: write ./1975-01-01T00:00:00Z, or the moment in another form' put "$edition" several.img -t /in first 1975-01-01T00:00:00Z
    rm 1975-01-01T00:00:00Z
    saves 'an image into which nothing was put at a moment' several.img before
    prints none put "$edition" several.img -t /in first ./9 100000500
    prints 9 get "$edition" several.img /in/9
    rm 9
    prints none put "$edition" several.img -t /in first 9
    has 'the moment that is no file' '1970-01-01 00:00:09' "$("$program" ls -l "$edition" several.img /in | awk '$NF == "first" { print $7, $8 }')"
    cp several.img before
    refuses 1 'unixvol: fifteen-bytes-n: a name above 14 bytes' put "$edition" several.img -t /in second fifteen-bytes-n 6
    refuses 1 'unixvol: 2 NoEntry: /none/first' put "$edition" several.img -t /none first second 6
    refuses 1 'unixvol: 20 NotDirectory: /in/first/second' put "$edition" several.img -t /in/first second
    refuses 3 'unixvol: cannot read missing' put "$edition" several.img -t /in first missing 6
    misread 'error: ' put "$edition" several.img -t /in first away/first
    misread 'error: ' put "$edition" several.img /in/first
    misread 'error: ' put "$edition" several.img /in/first first 6 second
    misread "error: invalid value '' for '<DIR>'" put "$edition" several.img -t '' first
    misread "error: invalid value '' for '<DIR>'" put --target-directory= "$edition" several.img first 6
    saves 'an image into which nothing was put' several.img before
    rm away/*
    refuses 1 'unixvol: 2 NoEntry: /in/none' get "$edition" several.img -o away /in/first /in/none
    refuses 1 'unixvol: 21 IsDirectory: /in' get "$edition" several.img -o away /in/first /in
    misread 'error: ' get "$edition" several.img -o away /in/first first
    misread "error: invalid value '' for '<FOLDER>'" get "$edition" several.img -o '' /in/first
    misread "error: invalid value '' for '<FOLDER>'" get --output= "$edition" several.img /in/first
    misread 'error: ' get "$edition" several.img /in/first /in/second
    has 'files that were not got' '' "$(ls away)"
    refuses 3 'unixvol: cannot write missing/first' get "$edition" several.img -o missing /in/first
    printf five > before
    prints none put "$edition" several.img -t / before 7
    mv several.img before
    cp before same
    refuses 3 'unixvol: cannot write ./before' get "$edition" before -o . /before
    saves 'the image, which is not replaced by a file of its own' before same
    ln before away/before
    refuses 3 'unixvol: cannot write away/before' get "$edition" before -o away /before
    ln -sf ../before away/before
    refuses 3 'unixvol: cannot write away/before' get "$edition" before -o away /before
    saves 'the image, whatever path leads to it' before same
    rm away/before
    mkdir away/second
    refuses 3 'unixvol: cannot write away/second' get "$edition" before -o away /in/first /in/second
    cmp -s first away/first
    has 'the file before one that is not written' 0 $?
    has 'files that were begun' '' "$(find away -name '.unixvol*')"
    rmdir away/second

    # Listings.
    "$program" ls "$edition" disk.img / > plain
    prints plain ls "$edition" disk.img
    runs ls -l "$edition" disk.img /cmd
    has 'a long line' '-rws--x--x 1 3 1 5000 1973-03-03 09:46:40 fourteen-bytes' "$(grep fourteen output | awk '{ $1 = ""; print substr($0, 2) }')"
    has 'the long line of a directory' 'drwxr-xr-x 2 3 1' "$(grep ' empty$' output | awk '{ print $2, $3, $4, $5 }')"
    runs ls -d "$edition" disk.img /cmd/a.c
    has 'a file that is listed' 'a.c 1' "$(awk '{ print $2 }' output | sed 's,.*/,,') $(wc -l < output)"
    runs ls --json "$edition" disk.img /cmd
    has 'a listing as JSON' '5000 04711' "$(python3 -c '
import json, sys
for it in json.load(sys.stdin)["entries"]:
    if it["path"].endswith("fourteen-bytes"):
        print(it["size"], it["permissions"])' < output)"
    runs ls -R "$edition" disk.img
    has 'directories below' '/cmd: /cmd/empty: /man:' "$(grep ':$' output | sed 's,^,/,; s,^//*,/,' | grep -v '^/:$' | paste -s -d ' ' -)"
done

# Control bytes are escaped on a terminal; a pipe gets them unchanged.
cp "$linux" odd.img
printf 'x' > letter
"$program" put 7 odd.img "/$(printf 'a\033b')" letter 5
"$program" ls 7 odd.img / | grep -q "$(printf 'a\033b')"
has 'a control byte in a pipe' 0 $?
script -qec "'$program' ls 7 odd.img /" /dev/null < /dev/null > typescript 2>&1
grep -qF 'a\033b' typescript
has 'a control byte on a terminal' 0 $?

# Rules.
runs check 7 "$linux"
has 'the rules of a sound volume' '12 12 0' "$(wc -l < output) $(grep -c ': holds$' output) $(cat status)"
cp "$linux" broken.img
put broken.img 1090 '09'
runs check 7 broken.img
has 'the rule that is broken' '1 12' "$(cat status) $(grep -vn ': holds$' output | cut -d: -f1 | paste -s -d ' ' -)"
runs check 6 "$linux"
has 'the status of a volume of the other edition' 1 "$(cat status)"
refuses 3 'unixvol: cannot read missing' check 7 missing

echo "$passed passed, $failed failed"
[ "$failed" = 0 ]

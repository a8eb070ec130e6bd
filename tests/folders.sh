#!/usr/bin/env bash
# Runs `get -r` of the built program: trees of a volume that are copied into folders of the host, with permissions and times, and what isn't copied.
# Usage: tests/folders.sh PROGRAM. It prints each row that fails, and ends with 'N passed, N failed'.
. "$(dirname "$0")/rows.sh"

# listed FOLDER [WHAT]: each path in a folder with its kind, and what `find -printf` says of it
listed() { (cd "$1" && find . -mindepth 1 -printf "%P %y ${2-}\n" | LC_ALL=C sort); }

# alike LABEL FOLDER OTHER [WHAT]: two folders have the same paths, kinds and bytes, and the same of what `find -printf` says
alike() {
    listed "$2" "${4-}" > these
    listed "$3" "${4-}" > those
    diff -r "$2" "$3" >> those 2>&1
    has "$1" '' "$(diff these those)"
}

# A tree with directories that can't be written, holes, further names, an empty directory, and names of all kinds.
mkdir -p source/usr/src/cmd source/usr/lib source/empty 'source/a name'
printf 'one\n' > source/usr/src/a.c
head -c 70000 /dev/urandom > source/usr/lib/libc.a
printf 'two\n' > 'source/a name/-x'
printf 'three\n' > source/usr/src/cmd/naïve
: > source/usr/nothing
chmod 4751 source/usr/src/a.c
chmod 600 source/usr/lib/libc.a
chmod 1777 source/empty
chmod 555 source/usr/src source/usr
find source -depth -exec touch -d @123456789 {} +
touch -d @86400 source/usr/src/a.c source/usr

for edition in 6 7; do
    "$program" mkfs "$edition" disk.img 600 20 0 0 1
    tar -C source -cf - --owner=0 --group=0 . | "$program" import "$edition" disk.img / 2000
    prints none ln "$edition" disk.img /usr/src/a.c /usr/lib/again 123456789
    prints none touch "$edition" disk.img /usr/lib 123456789
    prints none touch "$edition" disk.img /usr/src/a.c 86400

    # Everything, into a folder that is made: what `export` and tar would make.
    chmod -R u+w out wanted 2> /dev/null
    rm -rf out wanted
    mkdir wanted
    "$program" export "$edition" disk.img | tar -xpf - -C wanted --no-same-owner
    chmod 751 wanted/usr/src/a.c
    chmod 777 wanted/empty
    prints none get -r -p "$edition" disk.img -o out /
    alike 'a whole volume, with permissions and times' out wanted '%m %T@'
    has 'the time of the folder itself' 123456789 "$(stat -c %Y out)"
    has 'a further name, which is a file' 1 "$(stat -c %h out/usr/lib/again)"

    # Into folders that are there, whose other files stay; without marks, all belongs to the caller as by `cp -r`.
    rm -rf there
    mkdir -p there/lib
    printf old > there/lib/libc.a
    printf kept > there/lib/kept
    (umask 027 && "$program" get "$edition" disk.img --recursive --output there /usr/lib /usr/src/ 'a name' usr/nothing)
    has 'the status of a copy into a folder that is there' 0 $?
    has 'a file that stays' kept "$(cat there/lib/kept)"
    rm there/lib/kept
    mkdir expected
    cp -r wanted/usr/lib wanted/usr/src 'wanted/a name' wanted/usr/nothing expected
    alike 'several trees and a file' there expected
    has 'permissions of the caller' '750 640 640' "$(stat -c %a there/src there/src/a.c there/nothing | paste -s -d ' ' -)"
    chmod -R u+w expected
    rm -rf expected

    # A folder may be a symbolic link, but none below it is followed.
    rm -rf real linked
    mkdir real linked away 2> /dev/null
    ln -s real front
    prints none get -r "$edition" disk.img -o front /usr/lib
    has 'a folder behind a link' 'again libc.a' "$(ls real/lib | paste -s -d ' ' -)"
    ln -s ../away linked/lib
    echo 'unixvol: cannot write linked/lib' > line
    runs get -r "$edition" disk.img -o linked /usr/nothing /usr/lib
    wants 'a link in place of a folder' 3 none line
    has 'what was written before, and elsewhere' 'linked/lib linked/nothing' "$(find linked away -mindepth 1 | LC_ALL=C sort | paste -s -d ' ' -)"
    rm -rf linked front

    # A file in place of a folder, a folder in place of a file, a pipe.
    mkdir -p places/libc.a
    printf file > places/src
    refuses 3 'unixvol: cannot write places/src' get -r "$edition" disk.img -o places /usr/src
    has 'a file that was in the way' file "$(cat places/src)"
    refuses 3 'unixvol: cannot write places/libc.a' get -r "$edition" disk.img -o places /usr/lib/libc.a
    mkfifo places/again
    echo 'unixvol: cannot write places/again' > line
    runs_within 20 get -r "$edition" disk.img -o places /usr/lib/again
    wants 'a pipe in place of a file' 3 none line
    refuses 3 'unixvol: cannot write none/such' get -r "$edition" disk.img -o none/such /usr
    rm -rf places

    # The image itself isn't replaced, whatever leads to it.
    cp disk.img before
    prints none put "$edition" before /before source/usr/nothing 9
    cp before same
    refuses 3 'unixvol: cannot write ./before' get -r "$edition" before -o . /before
    refuses 3 'unixvol: cannot write ./before' get -r "$edition" before -o . /
    saves 'the image, which is not replaced by what it holds' before same
    rm -rf 'a name' before same

    # Special files, and names that are no text, are told, and the rest is copied.
    prints none mkdir "$edition" disk.img /dev 9
    prints none mknod "$edition" disk.img /dev/tty c 3 5 0622 9
    prints none ln "$edition" disk.img /dev/tty /dev/console 9
    prints none put "$edition" disk.img /dev/text source/usr/src/a.c 9
    prints none mkdir "$edition" disk.img $'/dev/b' 9
    prints none put "$edition" disk.img /dev/b/f source/usr/src/a.c 9
    python3 - disk.img << 'PYTHON'
import sys
image = open(sys.argv[1], "rb").read()
open(sys.argv[1], "wb").write(image.replace(b"b".ljust(14, b"\0"), b"\xff".ljust(14, b"\0")))
PYTHON
    cat > line << 'END'
unixvol: /dev/console: a special file
unixvol: /dev/tty: a special file
unixvol: /dev/\377: the name is not UTF-8 text
unixvol: /dev/\377/f: the name is not UTF-8 text
END
    rm -rf told
    runs get -r "$edition" disk.img -o told /dev
    wants 'what is not copied' 1 none line
    has 'the rest' 'dev dev/text' "$(cd told && find . -mindepth 1 -printf '%P\n' | LC_ALL=C sort | paste -s -d ' ' -)"
    echo 'unixvol: dev/tty: a special file' > line
    runs get -r "$edition" disk.img -o told dev/tty
    wants 'a special file alone' 1 none line
    cat > line << 'END'
unixvol: cannot write told/dev/text
unixvol: /dev/console: a special file
unixvol: /dev/tty: a special file
unixvol: /dev/\377: the name is not UTF-8 text
unixvol: /dev/\377/f: the name is not UTF-8 text
END
    rm -rf told/dev/text
    mkdir told/dev/text
    runs get -r "$edition" disk.img -o told /dev
    wants 'both a file that can not be written and what is not copied' 3 none line

    # Nothing is written unless everything was read.
    rm -rf told
    refuses 1 'unixvol: 2 NoEntry: /none' get -r "$edition" disk.img -o told /usr /none
    refuses 1 'unixvol: 20 NotDirectory: /usr/nothing/x' get -r "$edition" disk.img -o told /usr /usr/nothing/x
    printf 'hello' > hello
    refuses 1 'unixvol: unsound, rule 1' get -r "$edition" hello -o told /usr
    has 'a folder that is not made' no "$([ -e told ] && echo yes || echo no)"
done
chmod -R u+w source out wanted

echo "$passed passed, $failed failed"
[ "$failed" = 0 ]

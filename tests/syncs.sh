#!/usr/bin/env bash
# Runs `sync` and `put -r` of the built program: folders that are put into volumes of both editions, once more with nothing to do, and after one change;
# folders that can't be put; and removing what a folder hasn't. Usage: tests/syncs.sh PROGRAM. It prints each row that fails, and ends with 'N passed, N failed'.
. "$(dirname "$0")/rows.sh"

: > none

# holds LABEL EDITION IMAGE PATH FOLDER: the directory at the path has what the folder has: the same names, kinds, permissions and times of files, and bytes
holds() {
    rm -rf out
    mkdir out
    "$program" export "$2" "$3" "$4" | tar -xpf - -C out
    has "the files of $1" "$(listed "$5")" "$(listed out)"
    if diff -r "$5" out > differences; then passes; else fails "the bytes of $1"; fi
    runs check "$2" "$3"
    has "the check of $1" 0 "$(cat status)"
}

# listed FOLDER: the path and permissions of each folder and file below a folder, and the size and time of each file
listed() {
    find "$1" -mindepth 1 -type d -printf '%P %m\n' -o -mindepth 1 -printf '%P %m %s %T@\n' | sed 's/\.0*$//' | LC_ALL=C sort
}

# A tree of 300 files, in 20 folders
mkdir -p big
for number in $(seq 300); do
    mkdir -p "big/d$((number % 20))"
    head -c $((number * 7)) /dev/zero | tr '\0' x > "big/d$((number % 20))/f$number"
done
chmod 755 big/d1 big/d1/f1
chmod 700 big/d2
chmod 4755 big/d3/f3
find big -type f -exec touch -d @1000000000 {} +

for edition in 6 7; do
    disk=disk$edition.img
    "$program" mkfs "$edition" "$disk" 4000 60 0 0 1000
    cp "$disk" blank.img

    # What would be done, and nothing is; then it is done, and once more there is nothing to do
    {
        echo 'mkdir /src'
        find big -mindepth 1 -maxdepth 1 -type d -printf '%f\n' | LC_ALL=C sort | while read -r name; do
            echo "mkdir /src/$name"
            find "big/$name" -type f -printf '%f\n' | LC_ALL=C sort | sed "s|^|put /src/$name/|"
        done
    } > lines
    prints lines sync "$edition" "$disk" /src big 2000 -n
    saves "a trial, edition $edition" "$disk" blank.img
    prints none sync "$edition" "$disk" /src big 2000
    holds "a new tree, edition $edition" "$edition" "$disk" /src big
    cp "$disk" first.img
    touch -d @12345 "$disk"
    prints none sync "$edition" "$disk" /src big 3000 -n
    prints none sync "$edition" "$disk" /src big 3000
    saves "a tree that is the same, edition $edition" "$disk" first.img
    has "the time of an image that is not written, edition $edition" 12345 "$(stat -c %Y "$disk")"

    # One file is edited, one gets other permissions and one another time: the others keep their i-nodes as they were
    cp -a big edited
    echo new > edited/d7/f7
    touch -d @1000000002 edited/d7/f7
    chmod 600 edited/d8/f8
    touch -d @1000000001 edited/d9/f9
    printf 'put /src/d7/f7\nmark /src/d8/f8\nmark /src/d9/f9\n' > lines
    prints lines sync "$edition" "$disk" /src edited 4000 --dry-run
    prints none sync "$edition" "$disk" /src edited 4000
    holds "a tree after an edit, edition $edition" "$edition" "$disk" /src edited
    "$program" diff --times "$edition" first.img "$disk" > differences
    has "the files that were written, edition $edition" '/src/d7/f7 /src/d8/f8 /src/d9/f9' "$(grep -o '/src/d[0-9]*/f[0-9]*' differences | sort -u | xargs)"
    rm -rf edited

    # Bytes that differ are written though the size and the time are the same. What the folder hasn't stays
    cp -a big same
    tr x y < big/d5/f5 > same/d5/f5
    touch -d @1000000000 same/d5/f5
    rm -r same/d6
    prints none sync "$edition" "$disk" /src same 5000
    "$program" get "$edition" "$disk" /src/d5/f5 > body
    saves "bytes with the same size and time, edition $edition" body same/d5/f5
    "$program" get "$edition" "$disk" /src/d6/f6 > body
    saves "a file that the folder has not, edition $edition" body big/d6/f6
    rm -rf same

    # What can't be put is told by its path, and nothing is done
    cp "$disk" before.img
    mkdir -p odd/d
    echo text > odd/a
    ln -s a odd/d/link
    refuses 3 'unixvol: cannot read odd/d/link' sync "$edition" "$disk" /src odd 6000
    refuses 3 'unixvol: cannot read odd/d/link' put -r "$edition" "$disk" -t /src odd 6000
    rm odd/d/link
    mkfifo odd/d/pipe
    refuses 3 'unixvol: cannot read odd/d/pipe' sync "$edition" "$disk" /src odd 6000 -n
    rm odd/d/pipe
    echo text > odd/d/fifteen.letters
    refuses 1 'unixvol: d/fifteen.letters: a name above 14 bytes' sync "$edition" "$disk" /src odd 6000
    refuses 1 'unixvol: odd/d/fifteen.letters: a name above 14 bytes' put -r "$edition" "$disk" -t /src odd 6000
    rm odd/d/fifteen.letters
    touch -d '1960-01-01' odd/d/old
    refuses 3 'unixvol: cannot read odd/d/old' sync "$edition" "$disk" /src odd 6000
    rm odd/d/old
    mkdir odd/d1
    echo text > odd/d1/f1
    echo text > odd/d2
    refuses 1 'unixvol: 21 IsDirectory: /src/d2' sync "$edition" "$disk" /src odd 6000
    rm odd/d2
    mkdir odd/d1/f21
    refuses 1 'unixvol: 17 Exists: /src/d1/f21' sync "$edition" "$disk" /src odd 6000
    rmdir odd/d1/f21
    body odd/large 40000000
    fault='28 NoSpace'
    [ "$edition" = 7 ] || fault='27 TooBig'
    refuses 1 "unixvol: $fault: /src/large" sync "$edition" "$disk" /src odd 6000
    rm odd/large
    refuses 3 'unixvol: cannot read nothing' sync "$edition" "$disk" /src nothing 6000
    refuses 3 'unixvol: cannot read odd/a' sync "$edition" "$disk" /src odd/a 6000
    refuses 1 'unixvol: 2 NoEntry: /no/src' sync "$edition" "$disk" /no/src odd 6000
    saves "a tree that can not be put, edition $edition" "$disk" before.img

    # put -r puts all files, whether they differ or not, under the folder's last name; without -p it keeps nothing of them
    mkdir -p more/x/y
    echo one > more/x/y/one
    chmod 711 more/x
    chmod 751 more/x/y/one
    touch -d @1000000000 more/x/y/one
    prints none put -r "$edition" "$disk" -t /src odd more/x 7000
    "$program" get "$edition" "$disk" /src/x/y/one > body
    saves "a file of put -r, edition $edition" body more/x/y/one
    has "the permissions of put -r, edition $edition" 'drwxr-xr-x -rw-r--r--' \
        "$("$program" ls -l "$edition" "$disk" /src | awk '$NF == "x" { print $2 }') $("$program" ls -l "$edition" "$disk" /src/x/y | awk '$NF == "one" { print $2 }')"
    prints none put -r -p "$edition" "$disk" -t /src more/x/ 8000 --owner 3:1
    has "the permissions and the owner of put -r -p, edition $edition" '-rwxr-x--x 3 1' \
        "$("$program" ls -l "$edition" "$disk" /src/x/y | awk '$NF == "one" { print $2, $4, $5 }')"
    (cd more/x && "$program" put -r "$edition" "../../$disk" -t /src/d1 . 9000)
    "$program" get "$edition" "$disk" /src/d1/y/one > body
    saves "put -r of ., edition $edition" body more/x/y/one
    refuses 1 'unixvol: 2 NoEntry: /none/x' put -r "$edition" "$disk" -t /none more/x 9000
    rm -rf odd more

    # With --delete, what the folder hasn't is removed: a directory with all below it, a special file and another name of a file. The rest stays as it is
    mkdir -p small/a small/z
    echo one > small/a/one
    echo two > small/two
    find small -exec touch -d @1000000000 {} + -exec chmod 755 {} +
    cp blank.img exact.img
    "$program" sync "$edition" exact.img / small 1000
    cp exact.img little.img
    touch -d @12345 little.img
    prints none sync "$edition" little.img / small 2000 --delete -n
    prints none sync "$edition" little.img / small 2000 --delete
    saves "a tree with nothing to remove, edition $edition" little.img exact.img
    has "the time of an image with nothing to remove, edition $edition" 12345 "$(stat -c %Y little.img)"
    "$program" mkdir "$edition" little.img /a/old 2000
    "$program" put "$edition" little.img /a/old/file small/two 2000
    "$program" mkdir "$edition" little.img /a/old/deep 2000
    "$program" mknod "$edition" little.img /z/tty c 3 5 622 2000
    "$program" ln "$edition" little.img /two /again 2000
    cp little.img extra.img
    prints none sync "$edition" little.img / small 3000 -n
    prints none put -r "$edition" little.img -t / small/a 3000
    has "what put -r leaves, edition $edition" '. .. deep file' "$("$program" ls "$edition" little.img /a/old | awk '{ print $2 }' | xargs)"
    cp extra.img little.img
    printf 'rm /z/tty\nrm /again\nrm /a/old/file\nrmdir /a/old/deep\nrmdir /a/old\n' > lines
    prints lines sync "$edition" little.img / small 3000 --delete -n
    saves "a trial of removals, edition $edition" little.img extra.img
    prints none sync "$edition" little.img / small 3000 --delete
    holds "a tree after removals, edition $edition" "$edition" little.img / small
    has "the room after removals, edition $edition" "$("$program" df "$edition" exact.img)" "$("$program" df "$edition" little.img)"

    # Removals, and a directory and a file that are made: the lines come in this order
    cp extra.img little.img
    mv small/two small/three
    mkdir small/b
    printf 'rm /z/tty\nrm /two\nrm /again\nrm /a/old/file\nrmdir /a/old/deep\nrmdir /a/old\nput /three\nmkdir /b\n' > lines
    prints lines sync "$edition" little.img / small 3000 --delete -n
    prints none sync "$edition" little.img / small 3000 --delete
    rm -rf small/b
    mv small/three small/two
    prints none sync "$edition" little.img / small 3000 --delete
    holds "a tree after two removals, edition $edition" "$edition" little.img / small

    # A path that leads nowhere has nothing to remove, and a file isn't removed for a directory, nor the reverse
    cp extra.img little.img
    printf 'mkdir /new\nput /new/two\nmkdir /new/a\nput /new/a/one\nmkdir /new/z\n' > lines
    prints lines sync "$edition" little.img /new small 3000 --delete -n
    refuses 1 'unixvol: 17 Exists: /two' sync "$edition" little.img /two small 3000 --delete
    rm small/two
    mkdir small/two
    refuses 1 'unixvol: 17 Exists: /two' sync "$edition" little.img / small 3000 --delete
    rm -r small/two small/a
    echo text > small/a
    refuses 1 'unixvol: 21 IsDirectory: /a' sync "$edition" little.img / small 3000 --delete
    saves "a tree whose kinds differ, edition $edition" little.img extra.img

    # A file with two names: the name that differs gets a file of its own, with the old one's owner, and the other keeps what it has
    rm -rf names
    mkdir names
    echo one > names/a
    chmod 640 names/a
    touch -d @1000000000 names/a
    cp -p names/a names/b
    cp blank.img linked.img
    "$program" put -p "$edition" linked.img /a names/a 1000 --owner 3:1
    "$program" ln "$edition" linked.img /a /b 1000
    prints none sync "$edition" linked.img / names 2000 -n
    echo two > names/a
    touch -d @1000000001 names/a
    echo 'put /a' > lines
    prints lines sync "$edition" linked.img / names 2000 -n
    prints none sync "$edition" linked.img / names 2000
    holds "the names of a file, edition $edition" "$edition" linked.img / names
    has "the links and owners of a file that was replaced, edition $edition" '1 3 1 1 3 1' "$("$program" ls -l "$edition" linked.img / | awk '$NF ~ /^[ab]$/ { print $3, $4, $5 }' | xargs)"
    "$program" ln "$edition" linked.img /b /c 2000
    touch -d @1000000002 names/b
    prints none sync "$edition" linked.img / names 3000
    has "the times of two names, edition $edition" '1000000002 1000000000' \
        "$(for path in /b /c; do "$program" inode "$edition" linked.img "$path" | awk '$1 == "mtime" { print $2 }'; done | xargs)"
    prints none sync "$edition" linked.img / names 4000 --owner 7:8 -n

    # The blocks of what is removed are free for what is put
    "$program" mkfs "$edition" little.img 60 8 0 0 1000
    head -c 20000 /dev/zero > large
    "$program" put "$edition" little.img /old large 1000
    mkdir other
    cp large other/new
    touch -d @1500 other/new
    refuses 1 'unixvol: 28 NoSpace: /new' sync "$edition" little.img / other 2000
    prints none sync "$edition" little.img / other 2000 --delete
    holds "a file in the blocks of another, edition $edition" "$edition" little.img / other
    rm -rf small other
done

# The words
misread 'error' put -r 7 disk7.img /src/a big 1000
misread 'error' sync 7 disk7.img '' big 1000
has 'a moment that is a file too' 2 "$(: > 1000; "$program" put -r 7 disk7.img -t / big 1000 > output 2>&1; echo $?; rm 1000)"

echo "$passed passed, $failed failed"
[ "$failed" = 0 ]

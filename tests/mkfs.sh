#!/usr/bin/env bash
# Runs `mkfs` of the built program: the bytes of new volumes, the files that they replace, with owner and permissions, failures, and wrong words.
# Usage: tests/mkfs.sh PROGRAM. It prints each row that fails, and ends with 'N passed, N failed'.
. "$(dirname "$0")/rows.sh"

printf hello > hello

# New volumes. `made` is the volume of twenty blocks of the sixth edition, two of them the i-list, at 0x0A0B0C0D.
image made 10240
put made 512 '02 00 14 00 10 00 00 00 13 00 12 00 11 00 10 00 0F 00 0E 00 0D 00 0C 00 0B 00 0A 00 09 00 08 00 07 00 06 00 05 00'
put made 924 '0B 0A 0D 0C'
put made 1024 'FF C1 02 00 00 00 20 00 04 00'
put made 1048 '0B 0A 0D 0C 0B 0A 0D 0C'
put made 2048 '01 00 2E'
put made 2064 '01 00 2E 2E'
image root 32
put root 0 '01 00 2E'
put root 16 '01 00 2E 2E'
twenty=(20 2 0 0 168496141)

mkdir volumes
prints none mkfs 6 volumes/a "${twenty[@]}"
saves 'a new file' volumes/a made
prints root cat 6 volumes/a 1

# The time as a date, and the clock's if it is left out.
prints none mkfs 6 volumes/dated 20 2 0 0 1975-05-05T05:59:01+01:30
saves 'a volume that was made at a date' volumes/dated made
begun=$(date +%s)
prints none mkfs 6 volumes/dated 20 2 0 0
ended=$(date +%s)
read -r high low < <(od -An -tu2 -j 924 -N 4 volumes/dated)
now=$((high * 65536 + low))
has 'the moment of the clock' yes "$([ "$begun" -le "$now" ] && [ "$now" -le "$ended" ] && echo yes || echo no)"
rm volumes/dated

prints none mkfs 7 volumes/b 100 2 0 0 168496141
has 'the size of a volume of the seventh edition' 51200 "$(wc -c < volumes/b)"
put root 0 '02'
put root 16 '02'
prints root cat 7 volumes/b 2
prints none mkfs 6 volumes/b "${twenty[@]}"
saves 'an old file of more bytes' volumes/b made
prints none mkfs 7 volumes/b 5 2 32767 32767 4294967295
put volumes/b 1092 '00 00 00 00' # the root's user and group
prints root cat 7 volumes/b 2

# If no volume is made, an existing file stays, and no file is made.
cp hello volumes/kept
for sizes in '4 2' '20 0' '65536 2' '4294967295 2' '20 65535'; do
    read -r blocks list_blocks <<< "$sizes"
    refuses 1 'unixvol: bounds' mkfs 6 volumes/kept "$blocks" "$list_blocks" 0 0 0
done
refuses 1 'unixvol: bounds' mkfs 7 volumes/kept 100 0 0 0 0
refuses 1 'unixvol: bounds' mkfs 7 volumes/kept 20000 8192 0 0 0
refuses 1 'unixvol: bounds' mkfs 6 volumes/kept 4 2 256 0 0
refuses 1 'unixvol: 104 BadId' mkfs 6 volumes/kept 20 2 256 0 0
refuses 1 'unixvol: 104 BadId' mkfs 6 volumes/kept 20 2 0 256 0
refuses 1 'unixvol: 104 BadId' mkfs 7 volumes/kept 100 2 32768 0 0
saves 'a file where no volume was made' volumes/kept hello
refuses 1 'unixvol: bounds' mkfs 6 volumes/none 4 2 0 0 0
has 'a file where none was made' no "$([ -e volumes/none ] && echo yes || echo no)"
(in_memory 40000 runs mkfs 7 volumes/large 131072 2 0 0 0)
wants 'mkfs of 64 MiB in less memory' 0 none none
has 'the size of a volume that was greater than memory' 67108864 "$(stat -c %s volumes/large)"
printf '%5d %s\n' 2 . 2 .. > listed
prints listed ls 7 volumes/large /
rm volumes/large

# Files that are replaced: at the end of a link, with their permissions, and other than regular files.
cp hello volumes/linked
chmod 640 volumes/linked
ln -s linked volumes/link
prints none mkfs 6 volumes/link "${twenty[@]}"
has 'a symbolic link' linked "$(readlink volumes/link)"
saves 'what a symbolic link leads to' volumes/linked made
has 'the permissions of an old file' 640 "$(stat -c %a volumes/linked)"
ln -s later volumes/early
prints none mkfs 6 volumes/early "${twenty[@]}"
has 'a symbolic link that led to nothing' later "$(readlink volumes/early)"
saves 'what a symbolic link leads to from now on' volumes/later made
mkdir volumes/inner
ln -s ../chained volumes/inner/chain
ln -s "$folder/volumes/end" volumes/chained
prints none mkfs 6 volumes/inner/chain "${twenty[@]}"
has 'the first of two symbolic links that led to nothing' ../chained "$(readlink volumes/inner/chain)"
has 'the second of two symbolic links that led to nothing' "$folder/volumes/end" "$(readlink volumes/chained)"
saves 'what two symbolic links lead to from now on' volumes/end made
ln -s missing/a volumes/astray
refuses 3 'unixvol: cannot write volumes/astray' mkfs 6 volumes/astray "${twenty[@]}"
ln -s circle volumes/circle
refuses 3 'unixvol: cannot write volumes/circle' mkfs 6 volumes/circle "${twenty[@]}"
has 'a symbolic link that leads to itself' circle "$(readlink volumes/circle)"
# In a folder so deep that the system can't name it from the root: a file at the end of a link is still made, and an old one is replaced.
# deep WORD..: runs the program in that folder
long_name=$(printf 'd%.0s' $(seq 250))
deep() {
    (descend && exec "$program" "$@") > output 2> error < /dev/null
    echo $? > status
}
descend() {
    local depth
    for depth in $(seq 17); do { [ -d "$long_name" ] || mkdir "$long_name"; } && cd -P "$long_name" || return 9; done
}
(descend && ln -s nothing link && ln -s old to_old && cp "$folder/hello" old)
deep mkfs 6 link "${twenty[@]}"
wants 'mkfs at the end of a link in a deep folder' 0 none none
has 'a file at the end of a link in a deep folder' same "$(descend && cmp -s nothing "$folder/made" && echo same)"
deep mkfs 6 to_old "${twenty[@]}"
wants 'mkfs of an old file at the end of a link in a deep folder' 0 none none
has 'an old file at the end of a link in a deep folder' same "$(descend && cmp -s old "$folder/made" && echo same)"
has 'the files of a deep folder' 'link nothing old to_old .unixvol-*' "$(descend && echo * .unixvol-*)"
(umask 027; runs mkfs 6 volumes/masked "${twenty[@]}")
has 'the permissions of a new file' 640 "$(stat -c %a volumes/masked)"
mkfifo pipe
cat pipe > piped &
prints none mkfs 6 pipe "${twenty[@]}"
wait
saves 'what went through a pipe' piped made
prints made mkfs 6 /dev/stdout "${twenty[@]}"
refuses 3 'unixvol: cannot write /dev/full' mkfs 6 /dev/full "${twenty[@]}"
refuses 3 'unixvol: cannot write volumes' mkfs 6 volumes "${twenty[@]}"
refuses 3 'unixvol: cannot write missing/a' mkfs 6 missing/a "${twenty[@]}"
refuses 3 'unixvol: cannot write /proc/a' mkfs 6 /proc/a "${twenty[@]}"
refuses 3 'unixvol: cannot write ' mkfs 6 '' "${twenty[@]}"
refuses 3 'unixvol: cannot write hello/a' mkfs 6 hello/a "${twenty[@]}"

# The owner of a new file: the super-user gives it to the old one's owner. For others it is their own, and it keeps the old one's group if that is one
# of theirs.
if [ "$(id -u)" = 0 ]; then
    chown 12:34 volumes/linked
    prints none mkfs 6 volumes/linked "${twenty[@]}"
    has 'the owner and the group of an old file' 12:34 "$(stat -c %u:%g volumes/linked)"
    chown 0:0 volumes/linked
    if command -v setpriv > /dev/null; then
        mkdir shared
        cp hello shared/a
        cp "$program" shared/program
        chown 13:34 shared/a
        chmod 660 shared/a
        chmod 777 shared
        chmod 711 .
        (cd shared && exec setpriv --reuid=12 --regid=12 --groups=34 ./program mkfs 6 a "${twenty[@]}") > output 2> error < /dev/null
        echo $? > status
        wants 'mkfs of a file of a group' 0 none none
        saves 'a file of a group' shared/a made
        has 'the owner and the group of a file of a group' '12:34 660' "$(stat -c '%u:%g %a' shared/a)"
        chown 13:35 shared/a
        chmod 666 shared/a
        (cd shared && exec setpriv --reuid=12 --regid=12 --clear-groups ./program mkfs 6 a "${twenty[@]}") > output 2> error < /dev/null
        echo $? > status
        wants 'mkfs of a file of another group' 0 none none
        has 'the rights of a group that cannot be kept' '12:12 606' "$(stat -c '%u:%g %a' shared/a)"
        chown 13:35 shared/a
        chmod 646 shared/a
        (cd shared && exec setpriv --reuid=12 --regid=12 --clear-groups ./program mkfs 6 a "${twenty[@]}") > output 2> error < /dev/null
        echo $? > status
        wants 'mkfs of a file whose group may less than others' 0 none none
        has 'the rights of others where the group cannot be kept' '12:12 604' "$(stat -c '%u:%g %a' shared/a)"
        chown 13:35 shared/a
        chmod 4775 shared/a
        (cd shared && exec setpriv --bounding-set=-chown --inh-caps=-chown ./program mkfs 6 a "${twenty[@]}") > output 2> error < /dev/null
        echo $? > status
        wants 'mkfs by a super-user who may not give files away' 0 none none
        has 'the rights of a file that cannot be given away' '0:0 705' "$(stat -c '%u:%g %a' shared/a)"
    else
        echo 'skipped: files of a group, since there is no setpriv'
    fi
    # The owner of a folder moves the new file while it is written, and puts a link to a file of the super-user in its place.
    if command -v setpriv > /dev/null && command -v perl > /dev/null; then
        mkdir home
        echo secret > secret
        chmod 600 secret
        "$program" mkfs 6 home/disk 8000 100 0 0 1
        cp home/disk disk
        chown 12:34 home home/disk
        swap='$SIG{ALRM} = sub { exit }; alarm 60; while (1) { rename("home/.unixvol-0", "home/moved") && symlink("../secret", "home/.unixvol-0") }'
        setpriv --reuid=12 --regid=34 --clear-groups perl -e "$swap" &
        swapping=$!
        for number in {1..30}; do
            [ -L home/disk ] && rm home/disk && cp disk home/disk && chown 12:34 home/disk
            "$program" mkdir 6 home/disk "/$number" 1 > output 2> error < /dev/null
        done
        kill "$swapping"
        wait "$swapping" 2> /dev/null
        has 'the new file was moved' yes "$([ -e home/moved ] && echo yes)"
        has 'a file of the super-user, after 30 tries to be given it' '0:0 600' "$(stat -c '%u:%g %a' secret)"
        saves 'what that file holds' secret <(echo secret)
    else
        echo 'skipped: a new file that is moved, since setpriv or perl is not here'
    fi
else
    echo 'skipped: owners and groups, since only root gives files away'
fi

# A full disk, simulated by a limit on the size of files: the old file stays, and no new one is left.
(ulimit -f 8; trap '' XFSZ; runs mkfs 6 volumes/kept "${twenty[@]}")
echo 'unixvol: cannot write volumes/kept' > line
wants 'mkfs where the new file finds no room' 3 none line
saves 'a file whose new one found no room' volumes/kept hello
ln -s nothing volumes/empty
(ulimit -f 8; trap '' XFSZ; runs mkfs 6 volumes/empty "${twenty[@]}")
echo 'unixvol: cannot write volumes/empty' > line
wants 'mkfs at the end of a link where the new file finds no room' 3 none line
has 'a file at the end of a link' no "$([ -e volumes/nothing ] && echo yes || echo no)"

# Files and folders that the user may not access: the super-user may still write them all.
if [ "$(id -u)" != 0 ]; then
    chmod 555 volumes
    refuses 3 'unixvol: cannot write volumes/kept' mkfs 6 volumes/kept "${twenty[@]}"
    chmod 755 volumes
    chmod 444 volumes/kept
    refuses 3 'unixvol: cannot write volumes/kept' mkfs 6 volumes/kept "${twenty[@]}"
    saves 'a file that is closed to writing' volumes/kept hello
fi

# Words of mkfs that aren't valid.
misread 'error: invalid value' mkfs 8 volumes/kept "${twenty[@]}"
for number in 4294967296 +1 0x1 '' ' 1' one; do
    misread "error: invalid value '$number' for '<FSIZE>'" mkfs 6 volumes/kept "$number" 2 0 0 0
    misread "error: invalid value '$number' for '<NOW>'" mkfs 6 volumes/kept 20 2 0 0 "$number"
done
for number in 65536 +1 0x1 '' ' 1' one; do
    misread "error: invalid value '$number' for '<IBLOCKS>'" mkfs 6 volumes/kept 20 "$number" 0 0 0
    misread "error: invalid value '$number' for '<UID>'" mkfs 6 volumes/kept 20 2 "$number" 0 0
    misread "error: invalid value '$number' for '<GID>'" mkfs 6 volumes/kept 20 2 0 "$number" 0
done
misread 'error: the following required arguments were not provided' mkfs 6 volumes/kept
misread 'error: unexpected argument' mkfs 6 volumes/kept 20 2 0 0 0 0
saves 'a file whose command line was misread' volumes/kept hello

echo "$passed passed, $failed failed"
[ "$failed" = 0 ]

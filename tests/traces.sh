#!/usr/bin/env bash
# Plays scripts with `--trace`: the calls of the journal in their order, each with what it changed, as `diff --fields` of the volumes before and after it
# says; cuts, refused calls and views; the saved image; failures. The commands that change a volume by calls, with `--trace`: the lines that a play of
# the same calls has, and the same image as without it.
# Usage: tests/traces.sh PROGRAM. It prints each row that fails, and ends with 'N passed, N failed'.
. "$(dirname "$0")/rows.sh"

printf hello > hello
"$program" mkfs 7 d.img 40 3 0 0 1000
"$program" put 7 d.img /a hello 2000
"$program" mkfs 6 made.6 60 2 0 0 1000
"$program" mkfs 7 made.7 60 2 0 0 1000

# A file's removal.
echo '3000 0 0 unlink /a' > unlink
cat > wanted << 'LINES'
1.1 ok 0
records 1
confirmed 1
3000 0 0 unlink /a
  block 6: data of i-node 24, logical 0 -> free
  super-block nfree 34 -> 35
  super-block ninode 21 -> 22
  super-block time 2000 -> 3000
  i-node 2 mtime 2000 -> 3000
  i-node 2 ctime 2000 -> 3000
  i-node 24 mode 0100644 -> 0
  i-node 24 nlink 1 -> 0
  i-node 24 size 5 -> 0
  i-node 24 addr[0] 6 -> 0
  i-node 24 atime 2000 -> 0
  i-node 24 mtime 2000 -> 0
  i-node 24 ctime 2000 -> 0
  directory 2 slot 2 i-number 24 -> 0
LINES
cp d.img e.img
prints wanted play 7 e.img unlink --trace
cp d.img plain.img
"$program" play 7 plain.img unlink > output
saves 'a volume that was traced' e.img plain.img

# Each kind of call. A trace has the lines of the journal, and below each those of `diff --fields`.
cat > calls << 'END'
1005 0 0 mkdir /d 755
1006 0 0 create /d/f 644
1007 0 0 write /d/f 3 4a4B
1008 0 0 link /d/f /g
1009 0 0 chmod /g 7
1010 0 0 chown /d 1 2
1011 0 0 times /g 4 5
1012 0 0 truncate /g 4
1013 0 0 unlink /g
1014 0 0 mkdir //e 0
1015 0 0 rmdir //e
1016 0 0 write d/f 0 -
END
printf '1017 0 0 write /d/f 5120 %s\n' "$(head -c 1000 /dev/zero | od -An -v -tx1 | tr -d ' \n')" >> calls
echo '1018 0 0 mknod /d/t 620 b 0 255' >> calls

# traced EDITION SCRIPT: the trace of a script on a new volume is, call by call, the journal's line and the differences that the call made
traced() {
    cp "made.$1" played
    "$program" play --journal "$1" played "$2" > report
    grep ' 0 0 ' report > journal
    cp "made.$1" before
    while IFS= read -r call; do
        echo "$call"
        echo "$call" > one
        cp before after
        "$program" play "$1" after one > /dev/null
        "$program" diff "$1" before after --fields | sed 's/^/  /'
        cp after before
    done < journal > changes
    grep -v ' 0 0 ' report | cat - changes > wanted
    cp "made.$1" again
    runs play --trace "$1" again "$2"
    wants "play --trace $1 $2" "$(cat wanted.status)" wanted none
    saves "the volume after $1 $2" again played
    cat journal changes | cat <(grep -v ' 0 0 ' report) - > wanted
    cp "made.$1" again
    runs play --journal --trace "$1" again "$2"
    wants "play --journal --trace $1 $2" "$(cat wanted.status)" wanted none
}
echo 0 > wanted.status
traced 6 calls
traced 7 calls
has 'a trace with folded lines' 1 "$(grep -c '^  blocks [0-9]* to [0-9]*: free -> ' changes)"
has 'a call that changed one field' '  super-block time 1015 -> 1016' "$(grep -A 1 '^1016 ' changes | tail -n 1)"

# Calls that are refused, queries, and calls before a cut have no lines.
printf '%s\n' '5 0 0 create /a 644' '6 0 0 create /a 644' '6 0 0 stat /a' '7 0 0 cut' '8 0 0 chmod /a 600' '9 0 0 unlink /b' > cutting
cat > wanted << 'LINES'
1.1 ok 16
1.2 17 Exists
1.3 stat 16 file 0644 1 0 0 0
1.4 cut 1
1.5 ok 0
1.6 2 NoEntry
records 1
confirmed 4
gone 1
8 0 0 chmod /a 0600
  super-block time 5 -> 8
  i-node 16 mode 0100644 -> 0100600
  i-node 16 ctime 5 -> 8
LINES
cp made.7 played
runs play --trace 7 played cutting
wants 'a trace after a cut' 1 wanted none
printf '%s\n' '5 0 0 stat /' > asking
cp made.7 played
runs play 7 played asking
cp output wanted
prints wanted play --trace 7 played asking
printf '%s\n' view '5 0 0 stat /' > seeing
runs play --trace 7 played unlink seeing
has 'no call that was accepted' 0 "$(grep -c '^  ' output)"
has 'a refused call' 1 "$(cat status)"

# Two scripts at once: the calls are in the journal's order, whichever came first.
printf '5 0 0 create /a%s 644\n' 1 2 3 4 > left
printf '6 0 0 create /b%s 644\n' 1 2 3 4 > right
cp made.6 played
runs play --journal --trace 6 played left right
grep ' 0 0 ' output > lines
has 'the calls of two scripts' 16 "$(wc -l < lines)"
has 'their order' "$(head -n 8 lines)" "$(tail -n 8 lines)"
has 'what they changed' 8 "$(grep -c '^  i-node [0-9]* mode 0 -> ' output)"

# Names with bytes that no terminal shows: a call has them as a script does, and what it changed has them escaped.
printf '5 0 0 create /\001 644\n' > odd
cp made.7 played
runs play --trace 7 played odd
has 'an odd name in a call' 1 "$(LC_ALL=C grep -c "^5 0 0 create /$(printf '\001') 0644$" output)"
has 'an odd name in a slot' '  directory 2 slot 2 name (was slack) -> "\001"' "$(grep ' name ' output)"

# Failures: nothing is traced, and a volume on which calls were made is saved.
refuses 1 'unixvol: unsound, rule 1' play --trace 7 none unlink
refuses 2 'unixvol: script 1 line 1' play --trace 7 d.img hello
misread "error: unexpected argument '--traces'" play --traces 7 d.img unlink
cp d.img e.img
"$program" play --trace 7 e.img unlink > /dev/full 2> error
echo $? > status
echo 'unixvol: cannot write -' > line
: > output
wants 'a trace on a full device' 3 none line
saves 'a volume whose trace was not printed' e.img plain.img
"$program" mkfs 7 wide.img 30000 20 0 0 1000
cp wide.img kept.img
echo '5 0 0 create /a 644' > create
"$program" play 7 kept.img create > output
(in_memory 55000 runs play --trace 7 wide.img create)
has 'a trace without memory' 'unixvol: 12 NoMemory' "$(cat error)"
saves 'a volume without memory for its trace' wide.img kept.img

# The commands. Each makes the calls of a script, and its trace is that of a play of these; without `--trace` nothing is printed.
printf again > other
for edition in 6 7; do
    cp "made.$edition" "start.$edition"
    for words in 'mkdir /d' 'put /d/x hello' 'put /f hello' 'mkdir /empty'; do
        # shellcheck disable=SC2086 # the words of a command
        set -- $words
        "$program" "$1" "$edition" "start.$edition" "${@:2}" 2000
    done
done

# traces WORD.. < SCRIPT: a command, without its edition and image, makes the calls of a script
traces() {
    local edition verb=$1
    shift
    cat > script
    for edition in 6 7; do
        cp "start.$edition" played
        "$program" play --trace "$edition" played script | sed '1,/^confirmed /d' > traced
        cp "start.$edition" plain
        prints none "$verb" "$edition" plain "$@"
        cp "start.$edition" again
        prints traced "$verb" "$edition" again "$@" --trace
        saves "$verb $* --trace" again plain
        saves "$verb $* as a script" played plain
    done
}
hex=$(od -An -v -tx1 < hello | tr -d ' \n')
more=$(od -An -v -tx1 < other | tr -d ' \n')
traces put /n hello 3000 <<< "3000 0 0 create /n 644
3000 0 0 write /n 0 $hex"
traces put /f other 3000 <<< "3000 0 0 truncate /f 0
3000 0 0 write /f 0 $more"
traces put -t /d hello other 3000 <<< "3000 0 0 create /d/hello 644
3000 0 0 write /d/hello 0 $hex
3000 0 0 create /d/other 644
3000 0 0 write /d/other 0 $more"
# With an owner, and with what is kept of a file, which comes after it.
cp other marked
cp other x
chmod 4750 marked
chmod 711 x
touch -d @2500 marked
traces put /n hello 3000 --owner 3:5 <<< "3000 0 0 create /n 644
3000 0 0 write /n 0 $hex
3000 0 0 chown /n 3 5"
traces put -p /f marked 3000 -o 255:0 <<< "3000 0 0 truncate /f 0
3000 0 0 write /f 0 $more
3000 0 0 chown /f 255 0
3000 0 0 chmod /f 4750
3000 0 0 times /f 3000 2500"
traces put -x -t /d marked x 3000 --owner=0:5 <<< "3000 0 0 create /d/marked 644
3000 0 0 write /d/marked 0 $more
3000 0 0 chown /d/marked 0 5
3000 0 0 chmod /d/marked 754
3000 0 0 truncate /d/x 0
3000 0 0 write /d/x 0 $more
3000 0 0 chown /d/x 0 5
3000 0 0 chmod /d/x 755"
traces mkdir /e 3000 <<< '3000 0 0 mkdir /e 755'
traces mkdir /e 3000 --owner 3:5 <<< '3000 0 0 mkdir /e 755
3000 0 0 chown /e 3 5'
traces mkdir -p /e/g 3000 <<< '3000 0 0 mkdir /e 755
3000 0 0 mkdir /e/g 755'
traces mkdir -p /d/e/g 3000 -o 3:5 <<< '3000 0 0 mkdir /d/e 755
3000 0 0 chown /d/e 3 5
3000 0 0 mkdir /d/e/g 755
3000 0 0 chown /d/e/g 3 5'
traces rm /f 3000 <<< '3000 0 0 unlink /f'
traces rm -r /d 3000 <<< '3000 0 0 unlink /d/x
3000 0 0 rmdir /d'
traces rmdir /empty 3000 <<< '3000 0 0 rmdir /empty'
traces ln /f /g 3000 <<< '3000 0 0 link /f /g'
traces mv /f /d 3000 <<< '3000 0 0 link /f /d/f
3000 0 0 unlink /f'
traces chmod /f 600 3000 <<< '3000 0 0 chmod /f 600'
traces chmod /f u+x,go-r 3000 <<< '3000 0 0 chmod /f 700'
traces chown /d 3 4 3000 <<< '3000 0 0 chown /d 3 4'
traces touch /f 3000 <<< '3000 0 0 times /f 3000 3000'
traces touch /n 3000 <<< '3000 0 0 create /n 644'
traces mknod /tty c 3 5 622 3000 <<< '3000 0 0 mknod /tty 622 c 3 5'

# An archive, from standard input: a file below a directory that is missing, and a special file that is left out, which has a line.
mkdir -p packed/e
cp hello packed/e/x
touch -d @2500 packed/e/x
mkfifo packed/pipe
tar --format=ustar --owner=0 --group=0 --mode=644 -cf packed.tar -C packed e/x pipe
cat > script << LINES
3000 0 0 mkdir //e 755
2500 0 0 create //e/x 644
2500 0 0 write //e/x 0 $hex
3000 0 0 chmod / 777
LINES
# imports WORD..: imports the archive, with these words after the image, `again`
imports() {
    "$program" import "$edition" again "$@" 3000 --skip-special --trace < packed.tar 2> error
    echo $? > status
}
for edition in 6 7; do
    cp "start.$edition" played
    "$program" play --trace "$edition" played script | sed '1,/^confirmed /d' > traced
    cp "start.$edition" again
    imports / > output
    echo 'unixvol: pipe: a special file, left out' > line
    wants "import --trace, of edition $edition" 0 traced line
    saves "import --trace as a script, of edition $edition" again played
    cp "start.$edition" again
    imports / > /dev/full
    : > output
    echo 'unixvol: cannot write -' > line
    wants "import --trace, of edition $edition, on a full device" 3 none line
    saves "import --trace, of edition $edition, whose trace was not printed" again played
    cp "start.$edition" again
    imports /none > output
    echo 'unixvol: 2 NoEntry: /none/e' > line
    wants "a refused import --trace, of edition $edition" 1 none line
    saves "a volume without what was refused, of edition $edition" again "start.$edition"
done

cp start.7 again
prints none mkdir 7 again -p /d 3000 --trace
saves 'a volume on which no call was made' again start.7

# A command that is refused prints nothing, and saves nothing. If standard output fails, the volume is saved.
cp start.7 again
refuses 1 'unixvol: 2 NoEntry' rm 7 again /none 3000 --trace
refuses 1 'unixvol: 17 Exists' mv 7 again /f /d/x 3000 --trace
refuses 1 'unixvol: 20 NotDirectory: /f/hello' put 7 again -t /f hello 3000 --trace
saves 'a volume of which a change was refused' again start.7
refuses 1 'unixvol: unsound, rule 1' rm 7 none /f 3000 --trace
for verb in salvage resize; do misread "error: unexpected argument '--trace'" "$verb" 7 again --trace; done

# fails_on_full WORD..: a command, without its edition and image, saves what it does without a trace, and can't print that
fails_on_full() {
    local verb=$1
    shift
    cp start.7 plain
    "$program" "$verb" 7 plain "$@"
    cp start.7 again
    "$program" "$verb" 7 again "$@" --trace > /dev/full 2> error < /dev/null
    echo $? > status
    echo 'unixvol: cannot write -' > line
    : > output
    wants "$verb $* --trace, on a full device" 3 none line
    saves "a volume after $verb whose trace was not printed" again plain
}
fails_on_full rm /f 3000
fails_on_full put -t /d hello other 3000
"$program" mkfs 7 wide.img 30000 20 0 0 1000
cp wide.img kept.img
(in_memory 55000 runs touch 7 wide.img /a 5 --trace)
has 'a command without memory for its trace' '4 unixvol: 12 NoMemory' "$(cat status) $(cat error)"
saves 'a volume without memory for the trace of a command' wide.img kept.img

echo "$passed passed, $failed failed"
[ "$failed" = 0 ]

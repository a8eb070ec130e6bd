#!/usr/bin/env bash
# Plays scripts on volumes: lines that can be read, output and saved images, sessions and views at once, and calls that are foreseen for views.
# Usage: tests/plays.sh PROGRAM. It prints a line for each row that fails, and ends with 'N passed, N failed'.
data=$(realpath "$(dirname "$0")/plays")
. "$(dirname "$0")/rows.sh"

# New volumes: those of the sixth edition have 32 i-nodes, those of the seventh 16.
"$program" mkfs 6 made.6 20 2 0 0 168496141
"$program" mkfs 7 made.7 60 2 0 0 1
"$program" mkfs 6 wide.6 100 2 0 0 1
"$program" mkfs 7 wide.7 100 2 0 0 1

# plays STATUS LINES EDITION SCRIPT..: plays scripts on a new volume, prints these lines (`|` between them), and saves the volume again. With --json it prints
# the same as JSON, and saves the same volume
plays() {
    local status=$1 edition=$3
    tr '|' '\n' <<< "$2" > lines
    shift 3
    cp "made.$edition" played
    stood=$(stat -c %i played)
    runs play --json "$edition" played "$@"
    python3 "$data/as_json.py" "$@" < lines > document
    wants "play --json $edition $*" "$status" document none
    has "play --json $edition $*: the volume is saved" saved "$([ "$(stat -c %i played)" != "$stood" ] && echo saved)"
    cp played as_json
    cp output json
    cp "made.$edition" played
    stood=$(stat -c %i played)
    runs play "$edition" played "$@"
    wants "play $edition $*" "$status" lines none
    has "play $edition $*: the volume is saved" saved "$([ "$(stat -c %i played)" != "$stood" ] && echo saved)"
    saves "play $edition $*: the volume that is saved with --json" as_json played
}

# unread LABEL SCRIPT LINE FILE..: line LINE of script SCRIPT can't be read, so nothing is played on `kept`
unread() {
    local label=$1
    echo "unixvol: script $2 line $3" > line
    shift 3
    runs play 6 kept "$@"
    wants "$label" 2 none line
}

echo '5 0 0 create /a 644' > create

# Each line of the data: a status, a tab, the lines printed for a new volume, a tab, and the script. With status 2 the script can't be read, and the
# number of its first faulty line takes the place of the output.
cp made.6 kept
inode=$(stat -c %i kept)
while IFS=$'\t' read -r status wanted text; do
    printf '%b' "$text" > script
    if [ "$status" = 2 ]; then
        unread "$text" 1 "$wanted" script
        unread "$text, second" 2 "$wanted" create script
    else
        plays "$status" "$wanted" 6 script
    fi
done < "$data/lines"
# A first line that can't be read whatever follows: no more than 65,536 bytes are read. The script may go on without end.
echo 'unixvol: script 1 line 1' > line
(in_memory 100000 runs_within 20 play 6 kept /dev/zero)
wants 'a script without end' 2 none line
echo 'unixvol: script 2 line 1' > line
(in_memory 100000 runs_within 20 play 6 kept create /dev/zero)
wants 'a second script without end' 2 none line
{ yes '1 ' | head -70000 | tr -d '\n'; echo; echo '5 0 0 cut'; } > long_line
unread 'a long line' 1 1 long_line
# A first line that may be read once it has ended, and good lines after which a bad one comes, are read to their ends.
{ printf '5 0 0 create /a'; yes a | head -70000 | tr -d '\n'; echo; } > no_permissions
unread 'a long line that ends too soon' 1 1 no_permissions
{ yes '5 0 0 cut' | head -7000; echo x; } > bad_end
unread 'a bad line after many good ones' 1 7001 bad_end
has 'the rows in lines' 71 "$(grep -c . "$data/lines")"

# The fault of the first faulty script is reported, even if the image is faulty too.
printf '%s\n' '5 0 0 cut' > good
printf '%s\n' '5 0 0 cut' '5 0 0 cut' x > bad
printf '%s\n' x > worse
unread 'the first of two bad scripts' 2 3 good bad worse
unread 'a twelfth script' 12 3 good good good good good good good good good good good bad
printf '%s\n' '5 0 0 create /b 644' '5 0 0 creat /c 644' > creat
unread 'a misspelt call' 2 2 create creat
# A seventeenth view can't be read, whatever its other lines are.
echo view > nothing
printf '%s\n' view x > odd
plays 0 'records 0|confirmed 0' 6 $(yes nothing | head -16)
unread 'a seventeenth view' 18 1 $(yes nothing | head -16) good odd
saves 'an image of which no script was played' kept made.6
has 'an image that was not to be saved' "$inode" "$(stat -c %i kept)"
: > kept
unread 'a misspelt call, and no image' 2 2 create creat
saves 'no image' kept none
refuses 1 'unixvol: unsound, rule 1' play 6 kept create
saves 'no image yet' kept none

# Each command, as a user whose group is above both editions' limits.
cat > commands << 'END'
4294967295 1 65535 create /a 644
4294967295 1 65535 mkdir /d 07777
4294967295 1 65535 link /a /b
4294967295 1 65535 unlink /b
4294967295 1 65535 rmdir 
4294967295 1 65535 write /a 007 4aFf
4294967295 1 65535 truncate /a 4294967295
4294967295 1 65535 chmod /a 0
4294967295 1 65535 chown /a 65535 0
4294967295 1 65535 stat /
4294967295 1 65535 read /a 1 2
4294967295 1 65535 list /d
4294967295 1 65535 cut
4294967295 1 65535 write /a 0 -
4294967295 1 65535 mknod /t 620 b 255 007
END
refused=$(seq -f '1.%.0f 104 BadId' 12 | paste -s -d '|' -)
plays 1 "$refused|1.13 cut 0|1.14 104 BadId|1.15 104 BadId|records 0|confirmed 14|gone 0" 7 commands
# As one whose group is the seventh edition's greatest, and finally as user 0.
sed 's/ 1 65535 / 1 32767 /' commands > able
cat >> able << 'END'
4294967295 0 0 read /a 1 2
4294967295 0 0 write /a 0 -
4294967295 0 0 read /a 6 2
4294967295 0 0 read /a 007 4294967295
4294967295 0 0 chown /a 32767 0
4294967295 0 0 stat /a
4294967295 0 0 stat /d
4294967295 0 0 stat /b
4294967295 0 0 mknod /t 620 b 255 007
4294967295 0 0 stat /t
END
plays 1 "1.1 ok 16|1.2 ok 15|1.3 ok 0|1.4 ok 0|1.5 22 Invalid|1.6 ok 2|1.7 22 Invalid|1.8 ok 0|1.9 104 BadId|1.10 stat 2 dir 0777 3 0 0 80\
|1.11 13 Access|1.12 list 2|1.13 cut 6|1.14 13 Access|1.15 1 NotOwner|1.16 read 0000|1.17 ok 0|1.18 read 004a|1.19 read 4aff|1.20 ok 0\
|1.21 stat 16 file 0000 1 32767 0 9|1.22 stat 15 dir 7777 2 1 32767 32|1.23 2 NoEntry|1.24 ok 14|1.25 stat 14 special 0620 1 0 0 0|records 3|confirmed 16|gone 8" 7 able
runs inode 7 played 16
has 'the times of a file that was played' '4294967295 4294967295 4294967295' "$(awk '/time/ { print $2 }' output | paste -s -d ' ' -)"
{ head -c 7 /dev/zero; printf 'J\xff'; } > bytes
prints bytes get 7 played /a
# The journal: a line for each accepted call since the last cut, and played on a new volume they make the same one.
cat > calls << END
5 0 0 mkdir /d 755
6 0 0 create /d/f 644
7 0 0 write /d/f 3 4a4B
8 0 0 link /d/f /g
9 0 0 chmod /g 7
10 0 0 chown /d 1 2
11 0 0 times /g 4 5
12 0 0 truncate /g 4
13 0 0 unlink /g
14 0 0 mkdir //e 0
15 0 0 rmdir //e
16 0 0 write d/f 0 -
16 0 0 mknod /d/t 620 b 0 255
17 0 0 unlink /none
18 0 0 stat /d
END
head -n 13 calls | sed 's/ 755$/ 0755/; s/ 620 / 0620 /; s/ 644$/ 0644/; s/ 7$/ 0007/; s/ 4a4B$/ 4a4b/; s/e 0$/e 0000/' > journal
cp made.7 played
runs play --journal 7 played calls
has 'the status of a play with its journal' 1 "$(cat status)"
has 'the lines before a journal' 'records 13|confirmed 15' "$(tail -n 15 output | head -n 2 | paste -s -d '|' -)"
tail -n 13 output > lines
has 'the journal of a play' '' "$(diff journal lines)"
cp made.7 again
"$program" play 7 again journal > output
saves 'the volume that a journal makes' again played
printf '%s\n' '5 0 0 create /a 644' '6 0 0 cut' '7 0 0 create /b 644' > cutting
printf '%s\n' '1.1 ok 16' '1.2 cut 1' '1.3 ok 15' 'records 1' 'confirmed 1' 'gone 1' '7 0 0 create /b 0644' > lines
cp made.7 played
prints lines play 7 played cutting --journal
# As JSON, a document for some scripts as it stands, and each kind of line.
# documents STATUS DOCUMENT EDITION WORD..: plays scripts on a new volume, with --json and these words, and prints this document
documents() {
    local status=$1 edition=$3
    echo "$2" > document
    shift 3
    cp "made.$edition" played
    runs play "$edition" played --json "$@"
    cp output json
    cat json >> documents
    wants "play $edition --json $*" "$status" document none
    has "play $edition --json $*: one value on one line" '1 0' "$(wc -l < json) $(python3 -m json.tool json > /dev/null 2>&1; echo $?)"
}
echo '5 0 0 create /a 644' > one
documents 0 '{"confirmed":1,"format":1,"gone":null,"journal":null,"lines":[{"ino":16,"line":"ok","line_number":1,"script":1}],"records":1}' 7 one
documents 0 '{"confirmed":1,"format":1,"gone":null,"journal":["5 0 0 create /a 0644"],"lines":[{"ino":16,"line":"ok","line_number":1,"script":1}],"records":1}' 7 one --journal
documents 0 '{"confirmed":0,"format":1,"gone":null,"journal":[],"lines":[],"records":0}' 6 none --journal
printf '%s\n' '5 0 0 create /a 644' '5 0 0 create /a 644' '6 0 0 write /a 0 41fF' '6 0 0 read /a 0 10' '6 0 0 read /a 2 10' '6 0 0 stat /a' '6 0 0 cut' > two
printf 'view\n7 1 1 list /\n7 1 1 stat /b\n' > three
documents 1 '{"confirmed":3,"format":1,"gone":3,"journal":null,"lines":[{"ino":32,"line":"ok","line_number":1,"script":1},{"line":"refused","line_number":2,"refusal":"17 Exists","script":1},{"count":2,"line":"ok","line_number":3,"script":1},{"hex":"41ff","line":"read","line_number":4,"script":1},{"hex":"","line":"read","line_number":5,"script":1},{"gid":0,"ino":32,"kind":"file","line":"stat","line_number":6,"links":1,"permissions":"0644","script":1,"size":2,"uid":0},{"line":"cut","line_number":7,"record":2,"script":1}],"records":0}' 6 two
documents 1 '{"confirmed":2,"format":1,"gone":null,"journal":null,"lines":[{"count":2,"line":"list","line_number":2,"script":2},{"line":"refused","line_number":3,"refusal":"2 NoEntry","script":2}],"records":0}' 7 none three
# Bytes of a path that aren't printable, and a backslash, are escaped; what JSON escapes comes in addition.
printf '5 0 0 mkdir /\\\377"\t 700\n' > four
documents 0 '{"confirmed":1,"format":1,"gone":null,"journal":["5 0 0 mkdir /\\\\\\377\"\\011 0700"],"lines":[{"ino":32,"line":"ok","line_number":1,"script":1}],"records":1}' 6 four --journal
has 'the keys of play --json' '' "$(python3 "$data/../looks/keys.py" "$samples/../docs/JSON.md" play < documents)"
# The journal of many calls, as JSON.
cp made.7 played
runs play --journal 7 played calls
python3 "$data/as_json.py" --journal calls < output > document
cp made.7 played
runs play --journal --json 7 played calls
wants 'a journal as JSON' 1 document none
# A script that can't be read, and a volume that isn't sound, have the same lines as without --json, and nothing is printed.
cp made.6 kept
refuses 2 'unixvol: script 2 line 2' play --json 6 kept one creat
saves 'an image of which no script was played with --json' kept made.6
: > kept
refuses 1 'unixvol: unsound, rule 1' play --json 6 kept one
misread "error: the argument '--trace' cannot be used with '--json'" play --json --trace 6 kept one
misread "error: the argument '--trace' cannot be used with '--json'" play 6 kept one --trace --json --journal
saves 'no image that --json and --trace are given for' kept none
# A full device: the volume is saved.
cp made.7 played
"$program" play --json 7 played one > /dev/full 2> error < /dev/null
echo $? > status
: > output
echo 'unixvol: cannot write -' > line
wants 'a play as JSON on a full device' 3 none line
cp made.7 again
"$program" play 7 again one > output
saves 'the volume of a play as JSON on a full device' played again

# Each query, for a view.
printf '%s\n' view '1 1 65535 stat /' '2 1 65535 read /a 1 2' '3 1 65535 list /d' > queries
sed 's/65535/32767/' queries > asking
plays 1 '1.2 104 BadId|1.3 104 BadId|1.4 104 BadId|records 0|confirmed 3' 7 queries
printf '%s\n' '9 1 32767 create /a 400' '9 0 0 write /a 0 41424344' '9 1 32767 mkdir /d 500' > making
plays 0 '1.1 ok 16|1.2 ok 4|1.3 ok 15|records 3|confirmed 3' 7 making
printf '%s\n' '1.2 stat 2 dir 0777 3 0 0 64' '1.3 read 4243' '1.4 list 2' 'records 0' 'confirmed 3' > lines
runs play 7 played asking
wants 'the queries of a view' 0 lines none

# The output for each outcome, by script and line.
cat > outcomes << 'END'
5 0 0 create /a 644
5 0 0 create /a 644
6 0 0 write /a 0 41fF
6 0 0 read /a 0 10
6 0 0 read /a 2 10
6 0 0 list /
6 0 0 stat /
6 0 0 cut
7 0 0 chmod /a 600
8 0 0 stat /a
END
plays 1 '1.1 ok 32|1.2 17 Exists|1.3 ok 2|1.4 read 41ff|1.5 read -|1.6 list 3|1.7 stat 1 dir 0777 2 0 0 48|1.8 cut 2|1.9 ok 0|1.10 stat 32 file 0600 1 0 0 2|records 1|confirmed 6|gone 3' 6 outcomes
printf 'A\xff' > bytes
prints bytes get 6 played /a
printf '%s\n' '5 0 0 unlink /a' '5 0 0 create /a 644' > gone
plays 1 '1.1 2 NoEntry|1.2 ok 32|records 1|confirmed 2' 6 gone
plays 0 '1.1 ok 32|records 1|confirmed 1' 6 create
echo '6 0 0 stat /a' > seen
printf '%s\n' '1.1 stat 32 file 0644 1 0 0 0' 'records 0' 'confirmed 1' > lines
prints lines play 6 played seen
printf '%s\n' view '6 0 0 stat /' '6 0 0 list /' '6 0 0 read /a 0 1' > looking
plays 1 '1.2 stat 1 dir 0777 2 0 0 32|1.3 list 2|1.4 2 NoEntry|records 0|confirmed 3' 6 looking
# A receipt of each kind.
cat > kinds << 'END'
2 0 0 create /a 644
2 0 0 create /a 644
2 0 0 stat /b
2 0 0 read /a 0 10
2 0 0 stat /a
2 0 0 list /
2 0 0 create /b 644
END
plays 1 '1.1 ok 16|1.2 17 Exists|1.3 2 NoEntry|1.4 read -|1.5 stat 16 file 0644 1 0 0 0|1.6 list 3|1.7 ok 15|records 2|confirmed 7' 7 kinds
# Which of two scripts is first is left open; an empty script prints nothing.
cp made.6 played
runs play 6 played create none create
printf '%s\n' '1.1 ok 32' '3.1 17 Exists' 'records 1' 'confirmed 2' > lines
printf '%s\n' '1.1 17 Exists' '3.1 ok 32' 'records 1' 'confirmed 2' > others
cmp -s output lines || cp others lines
wants 'scripts in their order' 1 lines none
"$program" check 6 played > /dev/null
has 'the volume after scripts in their order' 0 $?

# Two sessions, each of which reads its own file.
printf '%s\n' '9 0 0 create /mine 644' '9 0 0 write /mine 0 2f6d696e65' '9 0 0 read /mine 0 512' > mine
printf '%s\n' '9 0 0 create /theirs 644' '9 0 0 write /theirs 0 2f746865697273' '9 0 0 read /theirs 0 512' > theirs
cp made.6 played
runs play 6 played mine theirs
printf '%s\n' '1.1 ok 32' '1.2 ok 5' '1.3 read 2f6d696e65' '2.1 ok 31' '2.2 ok 7' '2.3 read 2f746865697273' 'records 4' 'confirmed 6' > lines
sed 's/^1.1 ok 32/1.1 ok 31/; s/^2.1 ok 31/2.1 ok 32/' lines > others
cmp -s output lines || cp others lines
wants 'two sessions with a file each' 0 lines none
for name in mine theirs; do
    printf '/%s' "$name" > bytes
    prints bytes get 6 played "/$name"
done

# A view lists the root while two sessions make ten files each: each listing shows what some of these calls left, and no less than the one before it.
for name in {a..j}; do echo "9 0 0 create /$name 644"; done > ten
for name in {k..t}; do echo "9 0 0 create /$name 644"; done > ten_more
{ echo view; yes '9 0 0 stat /' | head -1000; } > watching
for round in {1..5}; do
    cp made.6 played
    runs_within 60 play 6 played ten watching ten_more
    cp output report
    has "the i-numbers of twenty files, round $round" "$(seq 13 32)" "$(awk '$2 == "ok" { print $3 }' report | sort -n)"
    has "the looks at twenty files, round $round" '1000 0' "$(awk '$1 ~ /^2[.]/ {
        looks++
        if ($0 !~ /^2[.][0-9]+ stat 1 dir 0777 2 0 0 [0-9]+$/ || $9 < last || $9 < 32 || $9 > 32 + 16 * 20 || $9 % 16 != 0) bad++
        last = $9
    } END { print looks + 0, bad + 0 }' report)"
    printf '%s\n' 'records 20' 'confirmed 1020' > lines
    tail -n +1021 report > output
    wants "two sessions beside a view, round $round" 0 lines none
done
# Sixteen views query while eight sessions change the root's permissions.
for k in $(seq 0 499); do printf '9 0 0 chmod / %o\n' $((448 + k % 64)); done > changing
cp made.6 played
runs_within 60 play 6 played $(yes changing | head -8) $(yes watching | head -16)
cp output report
has 'the lines of eight sessions and sixteen views' '4000 16000' "$(grep -c '^[1-8][.][0-9]* ok 0$' report) $(grep -c '^\(9\|1[0-9]\|2[0-4]\)[.][0-9]* stat 1 dir 07[0-7][0-7] 2 0 0 32$' report)"
printf '%s\n' 'records 4000' 'confirmed 20000' > lines
tail -n +20001 report > output
wants 'eight sessions beside sixteen views' 0 lines none

# foresees EDITION SCRIPT OUTCOME..: with a view, each call is foreseen, and then made as foreseen. Plays the first line of a script, the first two,
# and so on, with and without a view. Both print these outcomes, and save the same image.
foresees() {
    local edition=$1 script=$2 count records=0 status=0 alone foreseen
    shift 2
    local -a calls outcomes=("$@") printed=()
    mapfile -t calls < "$script"
    for count in $(seq "${#calls[@]}"); do
        case ${outcomes[count - 1]} in
            'ok '*) records=$((records + 1)) ;;
            *) status=1 ;;
        esac
        printed+=("1.$count ${outcomes[count - 1]}")
        printf '%s\n' "${calls[@]:0:count}" > first
        printf '%s\n' "${printed[@]}" "records $records" "confirmed $count" "status $status" > lines
        tee alone < "wide.$edition" > beside
        { "$program" play "$edition" alone first; echo "status $?"; } > output 2>&1
        cmp -s output lines
        alone=$?
        { "$program" play "$edition" beside first nothing; echo "status $?"; } > output 2>&1
        cmp -s output lines
        foreseen=$?
        cmp -s alone beside
        has "the first $count calls of $script in edition $edition: made, foreseen, and the same image" '0 0 0' "$alone $foreseen $?"
    done
}

# Calls of several kinds, some of them refused. One file becomes large, and one gets blocks by two pointers.
cat > some << 'END'
2 0 0 create /f 644
4 0 0 write /f 0 41
4 0 0 write /f 4096 41
2 0 0 create /f 644
2 0 0 create /g 644
4 0 0 write /g 917504 41
3 0 0 mkdir /d 755
2 0 0 create /d/f 644
5 0 0 link /f /d/h
7 0 0 rmdir /d
6 0 0 unlink /d/f
6 0 0 unlink /d/h
7 0 0 rmdir /d
8 0 0 truncate /f 0
6 0 0 unlink /x
2 0 0 create /d 644
END
foresees 6 some 'ok 32' 'ok 1' 'ok 1' '17 Exists' 'ok 31' 'ok 1' 'ok 30' 'ok 29' 'ok 0' '101 NotEmpty' 'ok 0' 'ok 0' 'ok 0' 'ok 0' '2 NoEntry' 'ok 30'
has 'the calls that are accepted in the sixth edition' 'records 13' "$(grep records output)"
foresees 7 some 'ok 16' 'ok 1' 'ok 1' '17 Exists' 'ok 15' 'ok 1' 'ok 14' 'ok 13' 'ok 0' '101 NotEmpty' 'ok 0' 'ok 0' 'ok 0' 'ok 0' '2 NoEntry' 'ok 14'
has 'the calls that are accepted in the seventh edition' 'records 13' "$(grep records output)"
# I-numbers until none is left: the sixth edition has 31 for files here, the seventh 14. One with 28 names is removed, and one more is made.
{
    for name in {a..z} '{' '|'; do echo "2 0 0 create $name 644"; done
    echo '6 0 0 unlink a'
    echo '2 0 0 create last 644'
} > many
mapfile -t made < <(seq -f 'ok %.0f' 32 -1 5)
foresees 6 many "${made[@]}" 'ok 0' 'ok 32'
has 'the files of the sixth edition' 'records 30' "$(grep records output)"
mapfile -t made < <(seq -f 'ok %.0f' 16 -1 3; yes '103 NoInode' | head -14)
foresees 7 many "${made[@]}" 'ok 0' 'ok 16'
has 'the files of the seventh edition' 'records 16' "$(grep records output)"

echo "$passed passed, $failed failed"
[ "$failed" = 0 ]

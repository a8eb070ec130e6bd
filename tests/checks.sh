#!/usr/bin/env bash
# Runs `check`, `inode`, `super` and `map` of the built program on worked images, sound or not, and compares every line that they print.
# The images and the lines are in tests/checks.
# Usage: tests/checks.sh PROGRAM. It prints a line for each row that fails, and ends with 'N passed, N failed'.
rows=$(realpath "$(dirname "$0")/checks")
. "$(dirname "$0")/rows.sh"

# New volumes of 20 blocks of the sixth edition and of 100 of the seventh, two of them the i-list; the ending of a name is the edition.
"$program" mkfs 6 new.6 20 2 0 0 168496141
"$program" mkfs 7 new.7 100 2 0 0 168496141

# volume FILE CALL..: FILE is a new volume, or an existing file, on which user 0 made these calls
volume() {
    local file=$1
    shift
    [ -e "$file" ] || cp "new.${file##*.}" "$file"
    printf '168496141 0 0 %s\n' "$@" > calls
    "$program" play "${file##*.}" "$file" calls > played
    has "the calls on $file" "$#" "$(grep -c '^1\.[0-9]* ok ' played)"
}

volume directory.6 'mkdir /d 755'
volume nested.6 'mkdir /d 755' 'mkdir /d/e 755'
volume file.6 'create /a 644'
volume three_blocks.6 'create /a 644' "write /a 0 $(repeated 1100 07)"
volume numbers.6 'create /a 644' 'write /a 0 05001400'
volume twelve_blocks.7 'create /a 644' "write /a 0 $(repeated 6000 07)"
volume two_files.6 'create /a 644' 'create /b 644' 'write /a 0 78' 'write /b 0 79'
volume itself.6 'create /a 644' 'write /a 0 0500'
volume all_uses.6 'mkdir /d 755' 'create /a 644' "write /a 0 $(repeated 5000 07)"

# make FILE FROM [AT=HEX]..: FILE is a copy of the image FROM with these bytes at these offsets
make() {
    local file=$1 piece
    cp "$2" "$file"
    for piece in "${@:3}"; do put "$file" "${piece%=*}" "${piece#*=}"; done
}

# each NAME TEST: for each row of tests/checks/NAME, calls TEST with its edition and its first line, when its image is in `image` and its other lines
# are in `lines`
each() {
    local given=() line number=0
    has "rows in $1" yes "$(grep -q '^image ' "$rows/$1" && echo yes)"
    while IFS= read -r line; do
        number=$((number + 1))
        case $line in
            '#'*) ;;
            'image '*)
                row_at=$(called "$rows/$1"):$number
                read -r -a given <<< "${line#image }" && : > lines
                ;;
            '')
                [ ${#given[@]} -gt 0 ] || continue
                make image "${given[@]}"
                "$2" "${given[0]##*.}" "${given[*]}"
                given=()
                ;;
            *) echo "$line" >> lines ;;
        esac
    done < <(cat "$rows/$1" && echo)
    row_at=
}

# The rules, with the findings in `lines`; a rule that isn't in `lines` holds.
sentences=(
    'the image has all blocks of the volume'
    'the sizes are within their limits'
    'each mode is known and the root is a directory'
    'file sizes and link counts are within their limits'
    'each number that a file names is a data block'
    'the free list names data blocks, each once'
    'no block is used twice'
    'each data block is used or free'
    'each entry has a name of its own and an i-node'
    'each directory has . for itself and .. for its parent'
    'each directory is entered once and reached from the root'
    'each link count is the number of entries'
)
reported() {
    local rule number outcome found=()
    while read -r number outcome; do found[number]=$outcome; done < lines
    for rule in {1..12}; do echo "$rule ${sentences[rule - 1]}: ${found[rule]:-holds}"; done
}

check_rules() {
    reported > wanted
    runs check "$1" image
    wants "check of $2" "$([ -s lines ] && echo 1 || echo 0)" wanted none
    reports_json "$1" "$2" "$([ -s lines ] && echo 1 || echo 0)"
}

# reports_json EDITION LABEL STATUS: the report on `image` in JSON says what is in `wanted`
reports_json() {
    runs check --json "$1" image
    has "the lines of check --json of $2" 1 "$(wc -l < output)"
    python3 "$rows/as_report.py" < output > text 2>> error
    mv text output
    wants "check --json of $2" "$3" wanted none
}
each rules check_rules

# Images of the other edition: a note says so.
{ echo '1 the image is too short' && printf '%d not asked\n' {2..12}; } > lines
{ reported && echo 'note: rules 1 and 2 hold for edition 6'; } > wanted
runs check 7 new.6
wants 'check of a volume of the sixth edition as one of the seventh' 1 wanted none
cp new.6 image
reports_json 7 'a volume of the sixth edition as one of the seventh' 1
has 'the status of check --json --status of it' 6 "$("$program" check --json --status 7 image > output; echo $?)"
{ echo "2 the sizes are no volume's" && printf '%d not asked\n' {3..12}; } > lines
{ reported && echo 'note: rules 1 and 2 hold for edition 7'; } > wanted
runs check 6 new.7
wants 'check of a volume of the seventh edition as one of the sixth' 1 wanted none

# Of a long file no more is kept than its volume, of this edition or of the other one.
: > lines
reported > wanted
cp new.7 long
truncate -s 1500M long
(in_memory 100000 runs_within 20 check 7 long)
wants 'check of a volume in a long file' 0 wanted none
{ echo "2 the sizes are no volume's" && printf '%d not asked\n' {3..12}; } > lines
{ reported && echo 'note: rules 1 and 2 hold for edition 7'; } > wanted
(in_memory 100000 runs_within 20 check 6 long)
wants 'check of a volume of the seventh edition as one of the sixth, in a long file' 1 wanted none
"$program" mkfs 6 long 300 2 0 0 1
truncate -s 1500M long
{ echo '1 the image is too short' && printf '%d not asked\n' {2..12}; } > lines
{ reported && echo 'note: rules 1 and 2 hold for edition 6'; } > wanted
(in_memory 100000 runs_within 60 check 7 long)
wants 'check of a volume of the sixth edition as one of the seventh, in a long file' 1 wanted none
rm long

# Below an address of each of 63 directories a block of empty slots is named two million times, and read once.
shared shared.7 0
printf '%s\n' '10 no . for itself: directory 2' '11 not reached from the root: directory 3' '12 a wrong link count: i-node 2, entries 0, links 1' > lines
reported | tail -n 4 > wanted
runs_within 20 check 7 shared.7
sed -i -n '9,$p' output
wants 'check of directories that name one empty block everywhere' 1 wanted none

# Eight directories of the greatest size, whose 229 million entries are in one block: one number of four in it is an entry's, the others name it again.
ringed ringed.7 40755 1082201088 1 8 0100030000000b0000000b0000000b00
printf '%s\n' '3 i-node 1 is neither free nor a file' '5 no data block: i-node 1, number 65539' '7 not asked' '8 neither named nor free: block 3' \
    '9 no i-number of the volume: directory 1, slot 0' '10 not asked' '11 a second entry for a directory: directory 1, slot 1' \
    '12 a wrong link count: i-node 1, entries 228878848, links 1' > lines
reported > wanted
(ulimit -t "$(seconds 8)"; runs check 7 ringed.7)
wants 'check of directories whose entries are in a ring' 1 wanted none

# 65,502 directories of the greatest size, which are holes: 70 TB in all.
"$program" mkfs 7 holes.7 8300 8190 0 0 1
python3 - << 'PYTHON'
import struct
image = bytearray(open("holes.7", "rb").read())
image[1152:1024 + 64 * 65504] = 65502 * struct.pack("<6H52x", 0o40755, 1, 0, 0, 1082201088 >> 16, 1082201088 & 0xFFFF)
open("holes.7", "wb").write(image)
PYTHON
printf '%s\n' '10 no . for itself: directory 3' '11 not reached from the root: directory 3' '12 a wrong link count: i-node 3, entries 0, links 1' > lines
reported > wanted
(ulimit -t "$(seconds 1)"; runs check 7 holes.7)
wants 'check of directories that are holes' 1 wanted none

# I-nodes and super-blocks, as text and as JSON.
python3 "$rows/as_json.py" "$rows/i_nodes" "$rows/supers" > objects
count=0

# shown EDITION WORD..: a command that shows part of an image prints `lines`, and with `--json` the next line of `objects`
shown() {
    count=$((count + 1))
    sed -n "${count}p" objects > wanted
    prints lines "$2" "$1" "${@:3}"
    prints wanted "$2" "$1" "${@:3}" --json
}
show_inode() { shown "$1" inode image "$(sed -n 's/^i-node //p' lines)"; }
show_super() { shown "$1" super image; }
each i_nodes show_inode
each supers show_super
has 'the rows of i-nodes and super-blocks' 11 "$count"

# I-numbers outside the volume, and images without a volume's sizes.
for number in 0 33 65535; do refuses 1 'unixvol: 2 NoEntry' inode 6 new.6 "$number"; done
make short new.6 514=1500
make unlisted new.6 512=0000
for row in 1:short 2:unlisted; do
    refuses 1 "unixvol: unsound, rule ${row%:*}" inode 6 "${row#*:}" 1
    refuses 1 "unixvol: unsound, rule ${row%:*}" super 6 "${row#*:}"
    refuses 1 "unixvol: unsound, rule ${row%:*}" map 6 "${row#*:}"
done

# The uses of the blocks.
legend='B boot
S super-block
i i-list
d directory
f file
p pointer
o free
c chain
L lost
T named twice'

# legend_of LETTERS: the legend of a map of these letters: how many there are of each, the letter, and its name
legend_of() {
    local one name count
    while read -r one name; do
        count=$(tr -cd "$one" <<< "$1" | wc -c)
        [ "$count" = 0 ] || printf '%7d %s %s\n' "$count" "$one" "$name"
    done <<< "$legend"
}

# rows WIDTH EACH LETTERS: the letters in rows, each after the number of its first block, if a letter is for EACH blocks
rows() {
    local k
    for ((k = 0; k < ${#3}; k += $1)); do printf '%7d %s\n' $((k * $2)) "${3:k:$1}"; done
}

# drawing WIDTH LETTERS: the letters in rows, one for each block, followed by the legend
drawing() { rows "$1" 1 "$2" && echo && legend_of "$2"; }

# picture LETTERS: the letters as squares, one for each block, with their tool-tips, followed by the legend; without the colours, and without the i-nodes
picture() {
    local letters=$1 k top one name count columns=4
    local -A names
    while read -r one name; do names[$one]=$name; done <<< "$legend"
    names+=([B]='boot block' [f]='data of i-node' [p]='pointers of i-node' [c]='chain block')
    while ((columns < 128 && columns * columns < ${#letters})); do columns=$((columns * 2)); done
    top=$(((${#letters} + columns - 1) / columns * 10 + 10))
    echo "<svg xmlns='http://www.w3.org/2000/svg' viewBox='0 0 $((columns < 32 ? 320 : columns * 10)) $((top + 14 * $(legend_of "$letters" | wc -l)))' role='img'>"
    echo "<title>${#letters} blocks, 1 in each square</title>"
    echo '<style>'
    for ((k = 0; k < ${#letters}; k++)); do
        one=${letters:k:1}
        echo "<path class='$one' d='M$((k % columns * 10)) $((k / columns * 10))h9v9h-9z'><title>block $k: ${names[$one]}</title></path>"
    done
    while read -r count one name; do
        echo "<path class='$one' d='M0 ${top}h9v9h-9z'/>"
        echo "<text x='14' y='$((top + 9))'>$name $count</text>"
        top=$((top + 14))
    done < <(legend_of "$letters")
    echo '</svg>'
}

# maps EDITION LABEL LETTERS: the map of `image` has these letters, one per block, and so has the picture
maps() {
    { printf '%d blocks, 1 in each cell\n\n' ${#3} && drawing 64 "$3"; } > wanted
    runs map "$1" image
    wants "the map of $2" 0 wanted none
    picture "$3" > wanted
    runs map --svg "$1" image
    sed -i 's,^\(<style>\).*</style>$,\1,; s,\(: directory\|: data of i-node\|: pointers of i-node\) [0-9].*\(</title></path>\)$,\1\2,' output
    wants "the picture of $2" 0 wanted none
}
check_map() { maps "$1" "$2" "$(cat lines)"; }
each maps check_map

# More blocks than a row has letters: the last is named by the root, and free; the free list continues in block 29.
"$program" mkfs 6 new.129.6 129 2 0 0 168496141
make image new.129.6 1034=8000
maps 6 '129 blocks' "BSiid$(repeated 24 o)c$(repeated 98 o)T"

# More blocks than a map has cells: four in each cell. The free list continues in block 92, and in every hundredth after it. A cell shows the use of most
# of its blocks: the i-list, or free; but not of that with the root's block, a block that two files name, the one that was a file's, and a free one.
"$program" mkfs 6 new.8192.6 8192 2 0 0 168496141
volume new.8192.6 'create /a 644' 'create /b 644' 'write /a 0 78' 'write /b 0 79'
make image new.8192.6 1992=0500
{
    printf '8192 blocks, 4 in each cell; a cell shows the use of most of its blocks\n\n'
    rows 64 4 "i!$(repeated 2046 o)"
    echo
    printf '%7d %s %s\n' 1 B boot 1 S super-block 2 i i-list 1 d directory 8104 o free 81 c chain 1 L lost 1 T 'named twice' \
        1 ! 'cells with some blocks that are lost or named twice'
} > wanted
prints wanted map 6 image

# On a terminal the rows are as wide as COLUMNS, and each letter has a colour.
# terminal FILE: the map of FILE on a terminal of 16 columns, eight of them for the number of the first block
terminal() { COLUMNS=16 script -qec "'$program' map 6 $1" /dev/null < /dev/null | tr -d '\r'; }
terminal new.6 | sed $'s/\e\\[[0-9;]*m//g' > output
{ printf '20 blocks, 1 in each cell\n\n' && drawing 8 BSiidooooooooooooooo; } > wanted
cmp -s output wanted
has 'a map in rows of eight' 0 $?
declare -A colours=([B]=100 [S]=100 [i]=43 [d]=44 [f]=42 [p]=46 [o]=47 [c]=45 [L]=103 [T]=41)
# coloured LETTERS: the letters between a terminal's colour codes
coloured() {
    local letters=$1 k
    for ((k = 0; k < ${#letters}; k++)); do printf '\e[%dm%s\e[0m' "${colours[${letters:k:1}]}" "${letters:k:1}"; done
}
{
    printf '20 blocks, 1 in each cell\n\n'
    first=0
    for letters in BSiidTLo oooooooo oooT; do
        printf '%7d %s\n' "$first" "$(coloured $letters)"
        first=$((first + 8))
    done
    echo
    while read -r count one name; do printf '%7d %s %s\n' "$count" "$(coloured "$one")" "$name"; done < <(legend_of BSiidTLooooooooooooT)
} > wanted
make image two_files.6 1992=0500 1034=1300
terminal image > output
cmp -s output wanted
has 'a map with colours' 0 $?

echo "$passed passed, $failed failed"
[ "$failed" = 0 ]

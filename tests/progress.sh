#!/usr/bin/env bash
# Runs the built program on images that are read and written slowly, and compares what a terminal shows meanwhile.
# Usage: tests/progress.sh PROGRAM. It prints a line for each row that fails, and ends with 'N passed, N failed'.
. "$(dirname "$0")/rows.sh"
export TERM=xterm UNIXVOL_EXPLAIN=0
if ! script -qec true /dev/null > /dev/null 2>&1 < /dev/null; then
    echo 'skipped: no terminal by script'
    echo '0 passed, 0 failed'
    exit
fi
"$program" mkfs 7 disk.img 1000 10 0 0 1
"$program" ls 7 disk.img / > listing
mkfifo slow

# feed BYTES: gives the pipe `slow` 100,000 bytes of the image, and after more than a second the others up to BYTES
feed() {
    {
        head -c 100000 disk.img
        sleep 1.2
        head -c "$1" disk.img | tail -c +100001
    } > slow 2> /dev/null
}

# shown NAME: what a terminal was shown, from the file NAME: a line for each carriage return, `~` for what erases to the end of a line, and one line for
# all lines of progress that are alike but for their numbers
shown() { tr '\r' '\n' < "$1" | sed -e 's/\x1b\[K/~/g' -e 's/[0-9]* kB/N kB/' | sed '/^$/d' | uniq; }

# watched COMMAND [BYTES]: runs a command line of the shell on a terminal, with this many bytes of the image in the pipe `slow`, and leaves in `terminal` what
# the terminal is shown
watched() {
    feed "${2:-512000}" &
    script -qec "'$program' $1; echo \$? > status" /dev/null < /dev/null > terminal
    wait
}

# The line comes after a second, and is wiped before the output, before the line of a fault, and at the end.
read='reading N kB~'
watched 'ls 7 slow / > output'
has 'reading, with the output in a file' "$read"$'\n~' "$(shown terminal)"
has 'the output beside the line' "$(cat listing)" "$(cat output)"
watched 'ls 7 slow /'
has 'reading, with the output on the terminal' "$read"$'\n~'"$(cat listing)" "$(shown terminal)"
watched 'ls 7 slow / | cat'
has 'reading, with the output in a pipe' "$read"$'\n~'"$(cat listing)" "$(shown terminal)"
watched 'get 7 slow /none > output'
has 'reading, and a fault' "$read"$'\n~unixvol: 2 NoEntry' "$(shown terminal)"
watched 'check 7 slow > output' 200000
has 'reading of an image that was cut off' "$read"$'\n~' "$(shown terminal)"

# A file that is written in place.
{ head -c 100000 > front; sleep 1.2; cat > rest; } < slow &
script -qec "'$program' mkfs 7 slow 1000 10 0 0 1" /dev/null < /dev/null > terminal
wait
has 'writing' $'writing N kB~\n~' "$(shown terminal)"
has 'what was written' "$(cksum < disk.img)" "$(cat front rest | cksum)"

# There is none where nobody looks, where none is wanted, and once output on the terminal has begun.
feed 512000 &
prints listing ls 7 slow /
wait
watched 'ls 7 slow / --json > output'
has 'reading for JSON' '' "$(shown terminal)"
UNIXVOL_PROGRESS=0 watched 'ls 7 slow / > output'
has 'reading with UNIXVOL_PROGRESS=0' '' "$(shown terminal)"
TERM=dumb watched 'ls 7 slow / > output'
has 'reading on a terminal that erases nothing' '' "$(shown terminal)"
watched 'diff 7 disk.img slow > output'
has 'the second image of diff' "$read"$'\n~' "$(shown terminal)"
watched 'identify slow disk.img'
has 'reading before output' 1 "$(shown terminal | grep -c reading)"
watched 'identify disk.img slow'
has 'reading after output' 0 "$(grep -c reading terminal)"

echo "$passed passed, $failed failed"
[ "$failed" -eq 0 ]

#!/usr/bin/env bash
# Runs a script of rows that fail, and compares what it prints of each: the line of the row, in a script, a table or a file, and what came. Then run.sh over
# several scripts of which some fail. `echo` stands for the program.
# Usage: tests/failures.sh PROGRAM. It prints each row that fails, and ends with 'N passed, N failed'.
. "$(dirname "$0")/rows.sh"
tests=${samples%/*}/tests

# A repository with a script of failing rows.
mkdir -p repository/tests repository/samples
cp "$tests/rows.sh" "$tests/run.sh" repository/tests
printf '%s\n' '# a session' '$ cat 6 disk' 'cat 6 disk' '$ ls E disk' '! not there' > repository/tests/session
printf '%s\n' 'one 1' 'two 3' > repository/tests/table
printf '%s\n' 'Words.' '' '    $ echo yes' '    no' > repository/words.md
cat > repository/tests/fails.sh << 'END'
. "$(dirname "$0")/rows.sh"
top=${samples%/*}
prints none cat 6 one
shows() {
    has "$1" "$2" three
}
shows two one
while read -r word number; do
    has "$word" "$number" 1
done << 'ROWS'
one 1
two 2
ROWS
pairs() {
    while IFS=: read -r left right; do
        has 'a pair' "$left" "$right"
    done
}
pairs << 'ROWS'
a:a
b:c
d:d
ROWS
while read -r word number; do [ "$word" = one ] || break; done < "$top/tests/table"
while read -r word number; do
    has 'a row of a file' "$number" "${number/3/2}"
done < "$top/tests/table"
edition=7
follows "$top/tests/session"
printf 'a\0b' > came
printf 'a\0c' > wanted
saves 'some bytes' came wanted
has 'some lines' $'a\nb' $'a\nc'
runs_blocks "$top/words.md"
echo "$passed passed, $failed failed"
[ "$failed" = 0 ]
END
cat > wanted << 'END'
tests/fails.sh:3: failed: cat 6 one
    --- output, wanted
    +++ output, as it came
    @@ -0,0 +1 @@
    +cat 6 one
tests/fails.sh:7: failed: two
    by line 5 of tests/fails.sh
    wanted: one
    came:   three
tests/fails.sh:12: failed: two
    by line 9 of tests/fails.sh
    wanted: 2
    came:   1
tests/fails.sh:21: failed: a pair
    by line 16 19 of tests/fails.sh
    wanted: b
    came:   c
tests/table:2: failed: a row of a file
    by line 26 of tests/fails.sh
    wanted: 3
    came:   2
tests/session:4: failed: ls 7 disk
    by line 29 of tests/fails.sh
    --- output, wanted
    +++ output, as it came
    @@ -0,0 +1 @@
    +ls 7 disk
    --- standard error, wanted
    +++ standard error, as it came
    @@ -1 +0,0 @@
    -not there
tests/fails.sh:32: failed: some bytes
    came: wanted 3 bytes, came 3; they differ at offset 2
    --- wanted
    0000000 61 00 63                                         >a.c<
    0000003
    +++ as it came
    0000000 61 00 62                                         >a.b<
    0000003
tests/fails.sh:33: failed: some lines
    --- text, wanted
    +++ text, as it came
    @@ -1,2 +1,2 @@
     a
    -b
    +c
words.md:3: failed: the block that begins with $ echo yes
    by line 34 of tests/fails.sh
    --- output, wanted
    +++ output, as it came
    @@ -1,2 +1,2 @@
     $ echo yes
    -no
    +yes
7 passed, 9 failed
END
chmod +x repository/tests/fails.sh
echo=$(type -P echo)
repository/tests/fails.sh "$echo" > came 2>&1
echo $? > status
cp came output
: > error
wants 'rows that fail' 1 wanted none

# Side by side: all scripts run, and then what failed is printed, and named.
printf '%s\n' '#!/bin/sh' "echo 'skipped: mounts, since there are none'" "echo '2 passed, 0 failed'" > repository/tests/passes.sh
printf '%s\n' '#!/bin/sh' 'echo broken' 'exit 3' > repository/tests/breaks.sh
printf '%s\n' '#!/bin/sh' "echo '1 passed, 0 failed'" > repository/tests/serve.sh
chmod +x repository/tests/*.sh
repository/tests/run.sh "$echo" serve breaks fails passes > came 2>&1
has 'the status of scripts of which some fail' 1 $?
has 'the lines of scripts' "tests/breaks.sh: FAILED: ended with status 3, without a count
tests/fails.sh: FAILED: 7 passed, 9 failed
tests/passes.sh: 2 passed, 0 failed
tests/serve.sh: 1 passed, 0 failed" "$(sed -n '/^tests.*, in [0-9]* s$/ { s/, in [0-9]* s$//; p }' came | LC_ALL=C sort)"
has 'what is skipped' 'skipped: mounts, since there are none' "$(grep '^skipped' came)"
has 'what runs by itself is the last' 'tests/serve.sh: 1 passed, 0 failed' "$(grep ', in [0-9]* s$' came | sed -n '4s/, in.*//p')"
has 'what failed' 'failed: tests/breaks.sh tests/fails.sh' "$(tail -n 1 came)"
has 'all rows' 'all: 10 passed, 9 failed' "$(grep '^all: ' came | sed 's/, in.*//')"
has 'the rows that failed' "$(wc -l < wanted)" "$(sed -n '/^tests\/fails.sh:$/,/^[0-9]* passed/p' came | tail -n +2 | wc -l)"
repository/tests/run.sh "$echo" serve passes > came 2>&1
has 'the status of scripts of which none fails' 0 $?
# One that is killed with what runs it has failed.
printf '%s\n' '#!/bin/sh' 'kill -KILL $PPID' "echo '1 passed, 0 failed'" > repository/tests/killed.sh
chmod +x repository/tests/killed.sh
repository/tests/run.sh "$echo" killed passes > came 2>&1
has 'a script that is killed with what runs it' '1 failed: tests/killed.sh' "$? $(tail -n 1 came)"
repository/tests/run.sh "$echo" nothing > came 2>&1
has 'a script that is not there' '2 there is no script tests/nothing.sh' "$? $(sed 's/.*: //' came)"
repository/tests/run.sh "$echo" > came 2>&1
has 'no scripts at all' 'usage: tests/run.sh PROGRAM NAME..' "$(sed 's/.*: usage/usage/' came)"
repository/tests/run.sh nothing passes > came 2>&1
has 'a program that is not there' 2 $?

echo "$passed passed, $failed failed"
[ "$failed" = 0 ]

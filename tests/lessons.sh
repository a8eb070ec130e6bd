#!/usr/bin/env bash
# Runs the steps of docs/LESSON.md in one folder, as a student does, and makes the images and texts of samples/lessons again: they must be those that
# are there, and each image break the rule that it is named for, and none before it.
# Usage: tests/lessons.sh PROGRAM. It prints a line for each row that fails, and ends with 'N passed, N failed'.
. "$(dirname "$0")/rows.sh"
lessons=$samples/lessons

named
runs_blocks "$samples/../docs/LESSON.md"
has 'the steps of the lesson' 12 "$(grep -c '^## [0-9]' "$samples/../docs/LESSON.md")"

mkdir made
"$lessons/make.sh" "$program" made
has 'the files of the lessons' '' "$(diff <(cd made && ls) <(cd "$lessons" && ls -- *.v? *.txt))"
for file in made/*; do saves "${file#made/}" "$file" "$lessons/${file#made/}"; done

for edition in 6 7; do
    runs check $edition "$lessons/sound.v$edition"
    has "the rules that sound.v$edition keeps" '0 12' "$(cat status) $(grep -c ': holds$' output)"
done
for file in made/rule_??.v?; do
    rule=${file#made/rule_}
    rule=${rule%.v?}
    refuses 1 "unixvol: unsound, rule ${rule#0}" ls "${file##*.v}" "$file"
done
for file in made/rule_06.v7 made/rule_08.v7; do
    prints none salvage 7 "$file"
    runs check 7 "$file"
    has "the rules that a salvage of $file leaves broken" 0 "$(grep -vc ': holds$' output)"
done
has 'the rules that are broken' "$(seq -w 12)" "$(cd made && ls rule_??.v7 | cut -c 6-7)"

echo "$passed passed, $failed failed"
[ "$failed" = 0 ]

#!/usr/bin/env bash
# Boots volumes that `build` makes of a list in SIMH's PDP-11 (Debian's simh): the boot block reads the first block of a file from the disk, prints it on the
# console and halts. Without SIMH it says so, and nothing is run.
# Usage: tests/simh.sh PROGRAM. It prints each row that fails, and ends with 'N passed, N failed'.
. "$(dirname "$0")/rows.sh"

# words OCTAL..: these words, the low byte first
words() {
    local word
    for word; do printf "\\x$(printf %02x $((8#$word & 255)))\\x$(printf %02x $((8#$word >> 8)))"; done
}

# boot_block BLOCK: a program that reads this block of an RK05 to 01000, and prints it up to a zero byte
boot_block() {
    local address
    address=$(printf %o $((($1 / 24 << 5) | ($1 / 12 % 2 << 4) | $1 % 12)))
    words 012700 177412 012710 "$address" 012740 001000 012740 177400 012740 000005 105710 100376
    words 012700 001000 105710 001406 105737 177564 100375 112037 177566 000770 000000
}

if ! command -v pdp11 > /dev/null; then
    echo "skipped: pdp11 is not here (Debian's simh): booting a volume"
else
    for edition in 6 7; do
        printf 'edition %s is read from its file\r\n' "$edition" > greeting
        printf '%s\n' "volume $edition rk05" 'time 173750400' 'dir /dev 755 0:0' 'char /dev/console 622 0:0 0 0' 'file /greeting 644 0:0 greeting' > rk.list
        prints none build rk.list rk.img
        block=$("$program" inode "$edition" rk.img /greeting --json | sed -n 's/.*"block":\([0-9]*\),.*/\1/p')
        boot_block "$block" > boot.bin
        echo 'boot boot.bin' >> rk.list
        prints none build rk.list rk.img
        prints none build rk.list again.img
        saves "edition $edition: the same list, once more" again.img rk.img
        printf '%s\n' 'set cpu 11/40' 'attach rk0 rk.img' 'boot rk0' quit > commands
        timeout 60 pdp11 commands < /dev/null > said 2>&1
        has "edition $edition: what the boot block prints" "edition $edition is read from its file" "$(tr -d '\r' < said | grep -a '^edition')"
        has "edition $edition: it halts after it" 1 "$(grep -ac 'HALT instruction, PC: 000056' said)"
        "$program" check "$edition" rk.img > /dev/null
        has "edition $edition: the volume is as sound as before" 0 $?
    done
fi

echo "$passed passed, $failed failed"
[ "$failed" = 0 ]

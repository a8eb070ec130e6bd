# Makes the program's module, as tools/module.sh prints it for riscv64, one with Linux's number of futex there, and with the sign of each `int` for C in all of
# its register, as C's callers have it there. Usage: awk -f ports/riscv64.awk MODULE MODULE

# The functions of C, which are declared after the calls.
FNR == NR {
    if (/^declare / && !/@llvm\./ && match($0, /@[a-zA-Z_0-9]+/)) of_c[substr($0, RSTART, RLENGTH)]
    next
}

/@"\+threads::(syscall|wake)"\(i64 202,/ { futexes += sub(/\(i64 202,/, "(i64 98,") }
/ call .*@|^declare / && match($0, /@[a-zA-Z_0-9]+\(/) && substr($0, RSTART, RLENGTH - 1) in of_c {
    words = substr($0, RSTART + RLENGTH)
    gsub(/i32 /, "i32 signext ", words)
    $0 = substr($0, 1, RSTART + RLENGTH - 1) words
}
{ print }
END {
    if (FNR == NR || futexes) exit
    print "ports/riscv64.awk: the module calls no futex" > "/dev/stderr"
    exit 1
}

# The module of the proved program, for LLVM, which tools/ports.sh and tools/page.sh compile for other machines. It is read with `.` at the top of the
# repository, and works in the folder `room`, which is removed when the script ends.
rt=$(realpath "$(command -v "${RT:-rt}")")
kit=${rt%/bin/rt}
clang=$kit/toolchain/bin/clang
room=$(mktemp -d)
trap 'rm -rf "$room"' EXIT
words=()

# prepare_program: proves the crate of the program, over what earlier checks kept, and makes ready for build_program
prepare_program() {
    (cd crates/unixvol && "$rt" check)
    make_toolchain
    take_words
}

# Makes $room/toolchain: the toolchain's tools, with a clang that also keeps the module that it is given, as $room/module.bc, and adds the words of $room/level.
make_toolchain() {
    mkdir -p "$room/toolchain/bin"
    ln -s "$kit/toolchain/lib" "$room/toolchain/lib"
    ln -s "$kit"/toolchain/bin/{ld.lld,llvm-ar} "$room/toolchain/bin"
    printf '#!/bin/sh\n[ ! -e module.bc ] || cp module.bc "%s"\nexec "%s" "$@" $(cat "%s/level")\n' "$room" "$clang" "$room" >"$room/toolchain/bin/clang"
    chmod +x "$room/toolchain/bin/clang"
}

# Sets `words` to those of `rattle build` for the program: its crate, and the libraries that `rt check` has built.
take_words() {
    local name
    words=(--crate-name unixvol src/main.rt --links unixvol= --jobs 1 --backend llvm --toolchain "$room/toolchain" --incremental out/incremental)
    words+=(--antt-project "$kit/rattle/logic/antt-project.json" --logic-built "$kit/logic_built")
    words+=(--extern "std=$kit/rlibs/std.rlib" -L "dependency=$kit/rlibs")
    for name in $(sed -n 's/^unixvol: //p' crates.txt); do
        if [ -d "crates/$name" ]; then
            words+=(--extern "$name=$PWD/crates/$name/out/rlib/$name.rlib")
        else
            words+=(--extern "$name=$kit/rlibs/$name.rlib")
        fi
    done
    for name in $(awk -v crate=unixvol -f tools/crate_lines.awk crates.txt | sed 's/[: ].*//; /^unixvol$/d'); do
        words+=(-L "dependency=$PWD/crates/$name/out/rlib")
    done
}

# build_program FLAG [LEVEL]: proves the program and compiles it for the machine of FLAG, as $room/unixvol.o, and leaves its module as $room/module.bc. If only
# the module is wanted, the LEVEL -O0 saves time.
build_program() {
    echo "${2-}" >"$room/level"
    (cd crates/unixvol && "$kit/bin/rattle" build "${words[@]}" "$1" -o "$room/unixvol.o")
}

# module_for FLAG..: prints the module as text for the machine that these flags of clang name: with its layout, and without what is of x86 processors
module_for() {
    local target
    target=$("$clang" "$@" -x c /dev/null -S -emit-llvm -o - | grep '^target ')
    "$clang" -x ir "$room/module.bc" -S -emit-llvm -Xclang -disable-llvm-passes -O1 -Wno-override-module -o - | TARGET=$target awk '
        /^target datalayout/ { print ENVIRON["TARGET"]; next }
        /^target triple/ { next }
        /^attributes/ { gsub(/"(target-cpu|target-features|tune-cpu)"="[^"]*"/, "") }
        # A hint to the processor in a loop that waits.
        /@llvm\.x86\.sse2\.pause\(\)/ { next }
        { print }'
}

# How `rt ci` is run here. It is read with `.` at the top of the repository.

# rt reckons with far more memory than a check takes, and so often runs one where four would fit. The largest takes up to 7 GB.
memory=$(($(sed -n 's/^MemTotal: *\([0-9]*\) kB$/\1/p' /proc/meminfo) / 7000000)) processors=$(nproc)
export RT_JOBS=${RT_JOBS:-$((memory < 1 ? 1 : memory < processors ? memory : processors))}

# copy_crates CRATE..: makes a repository of these crates and those that they need, without wrong bodies, in the folder `room`, which is removed when the
# script ends. There `rt ci` proves them side by side. If the toolchain keeps proofs, it takes those that are there, and the gate takes these.
copy_crates() {
    local crate
    room=$(mktemp -d)
    trap 'rm -rf "$room"' EXIT
    for crate; do
        awk -v crate="$crate" -f tools/crate_lines.awk crates.txt
    done | sort -u >"$room/crates.txt"
    sed 's/[: ].*//; s#^#crates/#' "$room/crates.txt" |
        tar -cf - --exclude='crates/*/out' --exclude='crates/*/must-fail' -T - HANDLES | tar -xf - -C "$room"
    git init -q "$room"
}

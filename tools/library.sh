#!/usr/bin/env bash
# Proves and builds the library for C, Python and Rust, and leaves it in bindings/out: libunixvol.a, libunixvol.so, unixvol.pc, and in python/ the package with
# the shared object. It needs only `rt`, since the archiver and the linker are the toolchain's.
# BACKEND names the compiler: llvm or rattle. OUT names another folder than bindings/out. OUT/sources is the checksum of the sources (tools/sources.sh), if the
# compiler is the one of releases, llvm.
# MACHINE names another machine than x86_64, for which the toolchain has no C library: MACHINE-linux-gnu-gcc and its C library are then needed too.
set -euo pipefail
cd "$(dirname "$0")/.."
rt=$(realpath "$(command -v "${RT:-rt}")")
kit=${rt%/bin/rt}
out=$(realpath -m "${OUT:-bindings/out}")
machine=${MACHINE:-x86_64}
sources=$(tools/sources.sh unixvol_c)
(cd crates/unixvol_c && "$rt" lib --backend "${BACKEND:-llvm}" --target "$machine-unknown-linux-gnu")
rm -rf "$out"/libunixvol.* "$out"/python/unixvol "$out/sources"
mkdir -p "$out/python/unixvol"

# One archive, with three functions over malloc, realloc and free: the toolchain's, or those of ports/heap.c.
if [ "$machine" = x86_64 ]; then
    heap="addlib $kit/c/liblibc_c.a" c_library=$kit/toolchain/lib/libc.so.6
else
    "$machine-linux-gnu-gcc" -std=c11 -O2 -fPIC -Wall -Wextra -Werror -c ports/heap.c -o "$out/heap.o"
    heap="addmod $out/heap.o" c_library=$("$machine-linux-gnu-gcc" -print-file-name=libc.so.6)
fi
"$kit/toolchain/bin/llvm-ar" -M <<END
create $out/libunixvol.a
addlib crates/unixvol_c/out/libunixvol_c.a
$heap
save
end
END
rm -f "$out/heap.o"

# The shared object exports only what unixvol.h declares, and needs only the C library.
echo '{ global: unixvol_*; local: *; };' >"$out/exports"
"$kit/toolchain/bin/ld.lld" -shared -soname libunixvol.so.0 --version-script="$out/exports" -z text -z defs -z now -z noexecstack --strip-all \
    -o "$out/libunixvol.so.0" --whole-archive "$out/libunixvol.a" --no-whole-archive "$c_library"
rm "$out/exports"
ln -s libunixvol.so.0 "$out/libunixvol.so"

version=$(sed -n 's/^version = "\(.*\)"$/\1/p' bindings/python/pyproject.toml)
cat >"$out/unixvol.pc" <<END
prefix=\${pcfiledir}/../..
libdir=\${prefix}/lib
includedir=\${prefix}/include
Name: unixvol
Description: Volumes of Sixth and Seventh Edition Unix
Version: $version
Libs: -L\${libdir} -lunixvol
Cflags: -I\${includedir}
END

cp LICENSE bindings/python/pyproject.toml bindings/python/make_wheel.py "$out/python"
cp bindings/python/unixvol/*.py bindings/python/unixvol/py.typed "$out/python/unixvol"
cp "$out/libunixvol.so.0" "$out/python/unixvol"
[ "$machine" = x86_64 ] || printf '\n[tool.unixvol]\nmachine = "%s"\n' "$machine" >>"$out/python/pyproject.toml"
[ "${BACKEND:-llvm}" != llvm ] || echo "$sources" >"$out/sources"
echo "$out: libunixvol.a ($(wc -c <"$out/libunixvol.a") bytes), libunixvol.so ($(wc -c <"$out/libunixvol.so") bytes)"

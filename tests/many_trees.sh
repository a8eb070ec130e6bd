#!/usr/bin/env bash
# Imports archives of many random trees, and compares them with what is exported: the same members, each with its kind, permissions, owner, time of
# modification, links and bytes. An export that is imported into an empty volume, also of the other edition, reads as the same tree.
# Usage: tests/many_trees.sh PROGRAM [TREES]. It prints a line for each row that fails, and ends with 'N passed, N failed'.
trees=${2:-60}
. "$(dirname "$0")/rows.sh"

# Writes the archive of a random tree with this number: directories, files with and without bytes, further names, odd names and permissions.
cat > make.py << 'PYTHON'
import io, random, sys, tarfile
number, file = int(sys.argv[1]), sys.argv[2]
chance = random.Random(number)
LETTERS = "abcxyz019._-+ ~#"

def name(taken):
    while True:
        length = chance.choice((1, 2, 3, 7, 14))
        text = "".join(chance.choice(LETTERS) for _ in range(length))
        if text not in taken and text not in (".", "..") and text.strip():
            taken.add(text)
            return text

def member(path, kind):
    it = tarfile.TarInfo(path)
    it.type = kind
    it.uid, it.gid = chance.choice(((0, 0), (3, 1), (255, 255), (7, 0)))
    it.mode = chance.choice((0o644, 0o755, 0o600, 0o4711, 0o2755, 0o1777, 0, 0o7777))
    it.mtime = chance.choice((0, 1, 100000000, 2**31, 2**32 - 1))
    return it

with tarfile.open(file, "w", format=tarfile.USTAR_FORMAT) as archive:
    folders, files, taken = [""], [], {"": set()}
    for _ in range(chance.randrange(1, 40)):
        parent = chance.choice(folders)
        path = parent + name(taken[parent])
        kind = chance.choice("ddfffffl")
        if kind == "d" and len(path) < 60:
            archive.addfile(member(path, tarfile.DIRTYPE))
            folders.append(path + "/")
            taken[path + "/"] = set()
        elif kind == "l" and files:
            it = member(path, tarfile.LNKTYPE)
            it.linkname = chance.choice(files)
            archive.addfile(it)
        else:
            size = chance.choice((0, 1, 511, 512, 513, 4096, 4097, 5633, 20000))
            body = chance.randbytes(size) if chance.random() < 0.7 else bytes(size)
            it = member(path, tarfile.REGTYPE)
            it.size = size
            archive.addfile(it, io.BytesIO(body))
            files.append(path)
PYTHON

# Prints each difference between the tree of an archive that was imported and that of its export.
cat > compare.py << 'PYTHON'
import sys, tarfile

def tree(file):
    """What each path leads to: its kind, what it has, and all paths of the same file."""
    found, first = {}, {}
    with tarfile.open(file) as archive:
        for it in archive:
            path = it.name.rstrip("/")
            if it.islnk():
                first[path] = first[it.linkname]
                continue
            first[path] = path
            body = archive.extractfile(it).read() if it.isfile() else None
            found[path] = (it.type, it.mode, it.uid, it.gid, it.mtime, body)
    same = {path: sorted(other for other in first if first[other] == first[path]) for path in first}
    return {path: (found[first[path]], same[path]) for path in first}

wanted, got = tree(sys.argv[1]), tree(sys.argv[2])
for path in sorted(wanted.keys() | got.keys()):
    if wanted.get(path) != got.get(path):
        print(path, "differs")
PYTHON

for edition in 6 7; do
    "$program" mkfs "$edition" "new.v$edition" 2000 40 0 0 1000
done
for ((number = 1; number <= trees; number++)); do
    edition=$((6 + number % 2))
    other=$((13 - edition))
    python3 make.py "$number" made.tar
    cp "new.v$edition" disk.img
    "$program" import "$edition" disk.img < made.tar > output 2> error
    has "the import of tree $number" '0 ' "$? $(cat error)"
    "$program" export "$edition" disk.img > exported.tar
    has "the tree $number" '' "$(python3 compare.py made.tar exported.tar | head -n 3)"
    for again in "$edition" "$other"; do
        cp "new.v$again" again.img
        "$program" import "$again" again.img < exported.tar > output 2> error
        "$program" export "$again" again.img > again.tar
        has "tree $number, exported and imported into edition $again" '' "$(python3 compare.py exported.tar again.tar | head -n 3)"
        "$program" check "$again" again.img > output
        has "the rules of the volume into which tree $number was imported" 0 $?
    done
done

echo "$passed passed, $failed failed"
[ "$failed" = 0 ]

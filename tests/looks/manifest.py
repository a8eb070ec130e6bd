# Prints the manifest of a tree, as `sums` shows it. It is made of a tar archive of the tree and of the sizes of directories, which a listing in JSON has
# and an archive doesn't: manifest.py ARCHIVE LISTING. Or it is that in JSON from standard input: manifest.py --json.
import datetime
import hashlib
import json
import stat
import sys
import tarfile

KINDS = {"file": stat.S_IFREG, "directory": stat.S_IFDIR, "character": stat.S_IFCHR, "block": stat.S_IFBLK}


def line(checksum, kind, permissions, uid, gid, size, modified, path):
    """Returns the line of a node; the path is text, and `size` the size or the numbers of a device."""
    mode = stat.filemode(KINDS[kind] | permissions)
    time = datetime.datetime.fromtimestamp(modified, datetime.timezone.utc).strftime("%Y-%m-%d %H:%M:%S")
    column = "%6d,%3d" % size if isinstance(size, tuple) else "%10d" % size
    return f"{checksum or '-'} {mode} {uid:5} {gid:5} {column} {time} {path}"


def escaped(name):
    """Returns a name with unprintable bytes escaped."""
    return "".join("\\\\" if it == 92 else chr(it) if 32 <= it < 127 else f"\\{it:03o}" for it in name.encode("latin-1"))


def of_archive(archive, sizes):
    """Prints the manifest of an archive."""
    for member in archive:
        path, node = escaped(member.name), member
        if member.islnk():
            node = archive.getmember(member.linkname)
        kind = "file" if node.isfile() else "directory" if node.isdir() else "block" if node.isblk() else "character"
        checksum, size = None, node.size
        if kind == "file":
            checksum = hashlib.sha256(archive.extractfile(node).read()).hexdigest()
        elif kind == "directory":
            size = sizes["/" + path]
        else:
            size = (node.devmajor, node.devminor)
        print(line(checksum, kind, member.mode, member.uid, member.gid, size, int(member.mtime), path))


def of_json(nodes):
    """Prints the manifest that JSON has."""
    for node in nodes:
        size = (node["major"], node["minor"]) if "major" in node else node["size"]
        print(line(node["sha256"], node["kind"], int(node["permissions"], 8), node["uid"], node["gid"], size, node["mtime"], node["path"][1:]))


if sys.argv[1] == "--json":
    of_json(json.load(sys.stdin)["entries"])
else:
    of_archive(tarfile.open(sys.argv[1], encoding="latin-1"), {node["path"]: node["size"] for node in json.load(open(sys.argv[2]))["entries"]})

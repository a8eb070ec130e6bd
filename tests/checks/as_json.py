# Prints for each row of the files `i_nodes` and `supers` its values as JSON, as docs/JSON.md defines it, on one
# line.
import json
import re
import sys


NAMES = {"i-node": "ino", "nlink": "links"}
SPECIAL = {1: "character", 3: "block"}


def kind(mode, word):
    """Returns the word for a kind; that of a special file is by the type in its mode."""
    if word != "special":
        return word
    return "multiplexor" if int(mode, 8) >> 12 in (3, 7) else SPECIAL[int(mode, 8) >> 13 & 3]


def whole(words):
    """Returns the numbers in these words."""
    return [int(word) for word in words]


def extent(line):
    """Returns the object of a line for a range of blocks."""
    first, last, levels, logical = re.match(r"block (\d+)(?:-(\d+))?: (?:pointers, level (\d), from )?logical (\d+)", line).groups()
    count = int(last) - int(first) + 1 if last else 1
    inside = not line.endswith(", no data block")
    return {"level": int(levels or 0), "logical": int(logical), "block": int(first), "count": count, "inside": inside}


def inode(lines):
    """Returns the object of an i-node."""
    found = {"ctime": None, "extents": [], "format": 1}
    for line in lines:
        name, *words = line.split(" ")
        if name == "mode":
            found.update(mode=words[0], kind=kind(words[0], words[1]), permissions=words[2])
        elif name == "addr":
            found[name] = whole(words)
        elif name == "block":
            found["extents"].append(extent(line))
        else:
            found[NAMES.get(name, name)] = int(words[0])
    return found


def super_block(lines):
    """Returns the object of a super-block."""
    found = {"format": 1, "free": [], "free_fault": None, "cache": []}
    for line in lines:
        name, *words = line.split(" ")
        if counts := re.match(r"(data blocks|i-nodes) (\d+), free (\d+)$", line):
            found["data_blocks" if name == "data" else "inodes"] = int(counts[2])
            found["free_blocks" if name == "data" else "free_inodes"] = int(counts[3])
        elif name == "free":
            found["free_fault"] = {"fault": f"{name} {words[0]}", "number": int(words[1])}
        elif name.endswith("]"):
            name, index = name[:-1].split("[")
            name = "cache" if name == "inode" else name
            if int(index) != len(found[name]):
                sys.exit(f"{line}: not the next index")
            found[name] += whole(words)
        else:
            found[name] = int(words[0])
    return found


for path in sys.argv[1:]:
    with open(path) as text:
        rows = "".join(line for line in text if line[0] != "#").split("\n\n")
    for row in rows:
        lines = row.strip("\n").split("\n")[1:]
        if lines:
            value = inode(lines) if lines[0].startswith("i-node") else super_block(lines)
            print(json.dumps(value, sort_keys=True, separators=(",", ":")))

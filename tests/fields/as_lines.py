# Prints the lines of `diff --fields` again, from what it prints with --json on standard input.
import json
import sys

ARRAYS = ("free", "inode", "addr", "entry")
WORDS = {"chain": "chain block", "free": "free", "lost": "lost", "named twice": "named twice", "system": "no data block", "outside": "no data block"}


def role_text(role):
    """Returns the role of a block as in the line of its change."""
    use = role["use"]
    if use == "directory":
        return "directory {ino}, logical {logical}".format(**role)
    if use == "file":
        return "data of i-node {ino}, logical {logical}".format(**role)
    if use == "pointer":
        return "pointers of i-node {ino}, level {level}, from logical {logical}".format(**role)
    return WORDS[use]


def part_text(it):
    """Returns the part of the volume that a field is in."""
    block, role = it["block"], it["role"]
    if it["field"] == "past":
        return "after the last block"
    if it["ino"] is not None:
        return "i-node %d" % it["ino"]
    if block < 2:
        return ("boot block", "super-block")[block]
    if role["use"] == "directory" and role["logical"] == 0:
        return "directory %d" % role["ino"]
    if role["use"] == "named twice":
        return "block %d, named twice" % block
    if role["use"] in ("chain", "free", "lost"):
        return {"chain": "chain block", "free": "free block", "lost": "lost block"}[role["use"]] + " %d" % block
    return role_text(role)


def name_text(it):
    """Returns the name of a field after its part."""
    field = it["field"]
    if field in ("boot", "data", "past", "bytes"):
        return ""
    if field in ARRAYS:
        return " %s[%d]" % (field, it["index"])
    return " slot %d %s" % (it["index"], field) if field in ("i-number", "name") else " " + field


def value_text(it, value):
    """Returns a value of a field."""
    if it["field"] == "name":
        return '"%s"' % value
    return "0" if value == "00" else str(value)


def line_of(it):
    """Returns the line of an item."""
    kind = it["line"]
    if kind == "length":
        return "image: {old} -> {new} bytes".format(**it)
    if kind == "role":
        first, count = it["block"], it["count"]
        blocks = "block %d" % first if count == 1 else "blocks %d to %d" % (first, first + count - 1)
        return "%s: %s -> %s" % (blocks, role_text(it["old"]), role_text(it["new"]))
    if kind == "fields":
        return "%s %s[%d..%d]: %d differ" % (part_text(it), it["field"], it["index"], it["last_index"], it["count"])
    if kind == "bytes":
        count, first, last = it["count"], it["first_byte"], it["last_byte"]
        places = "1 byte differs, %d" % first if count == 1 else "%d bytes differ, %d to %d" % (count, first, last)
        return "%s%s: %s" % (part_text(it), name_text(it), places)
    old = "(was %s)" % it["was"] if it["old"] is None else value_text(it, it["old"])
    return "%s%s %s -> %s" % (part_text(it), name_text(it), old, value_text(it, it["new"]))


report = json.load(sys.stdin)
if sorted(report) != ["format", "lines"] or report["format"] != 1:
    sys.exit("another object")
for it in report["lines"]:
    print(line_of(it))

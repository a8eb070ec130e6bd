# Makes the document that `play --json` prints of the report that `play` prints: as_json.py [--journal] SCRIPT.. reads the report from standard input. An `ok`
# has an i-number if the script's line makes a node, and a count of bytes if it writes.
import json
import re
import sys


def escaped(text):
    """Returns bytes as printable ASCII: others as a backslash and three octal digits, and a backslash doubled."""
    return re.sub(r"[^ -~]", lambda byte: f"\\{ord(byte[0]):03o}", text.replace("\\", "\\\\"))


def of_line(line, call, word, rest):
    """Returns what the object of a line has besides its place. `call` is the call or query in the script."""
    if word == "ok":
        key = {"create": "ino", "mkdir": "ino", "mknod": "ino", "write": "count"}.get(call)
        if key is None:
            assert rest == ["0"], line
            return {"line": "ok"}
        return {"line": "ok", key: int(rest[0])}
    if word == "stat":
        kind, permissions = rest[1], rest[2]
        names = ["ino", None, None, "links", "uid", "gid", "size"]
        numbers = {name: int(number) for name, number in zip(names, rest) if name}
        return {"line": word, "kind": {"dir": "directory"}.get(kind, kind), "permissions": f"0{int(permissions, 8):o}", **numbers}
    if word == "read":
        return {"line": word, "hex": "" if rest[0] == "-" else rest[0]}
    if word in ("list", "cut"):
        return {"line": word, {"list": "count", "cut": "record"}[word]: int(rest[0])}
    return {"line": "refused", "refusal": " ".join([word, *rest])}


names = [name for name in sys.argv[1:] if name != "--journal"]
scripts = [open(name, encoding="latin-1", newline="").read().split("\n") for name in names]
document = {"format": 1, "gone": None, "journal": [] if "--journal" in sys.argv else None, "lines": []}
for line in sys.stdin.buffer.read().decode("latin-1").split("\n")[:-1]:
    first, *rest = line.split(" ")
    if place := re.fullmatch(r"(\d+)\.(\d+)", first):
        script, number = map(int, place.groups())
        call = scripts[script - 1][number - 1].split(" ")[3]
        document["lines"].append({"script": script, "line_number": number, **of_line(line, call, rest[0], rest[1:])})
    elif first in ("records", "confirmed", "gone"):
        document[first] = int(rest[0])
    else:
        document["journal"].append(escaped(line))
print(json.dumps(document, sort_keys=True, separators=(",", ":")))

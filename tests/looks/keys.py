# Compares the keys of JSON with those that docs/JSON.md has: keys.py PAGE COMMAND reads from standard input what the command printed, a line for each run.
# It prints each key that was printed though the command's item of the list doesn't have it, or the reverse; and each key of the item that has no row in
# the table.
import json
import re
import sys


def keys(value):
    """Returns the keys of a value, and of all values in it."""
    if isinstance(value, dict):
        return set(value).union(*map(keys, value.values()))
    return set().union(*map(keys, value)) if isinstance(value, list) else set()


page, command = open(sys.argv[1]).read(), sys.argv[2]
table = set(re.findall("`([^`]+)`", " ".join(re.findall(r"^\| (`[^|]+)\|", page, re.M))))
item = re.search(rf"^- `{command}`:((?:.+\n(?!- ))*.+)", page, re.M)
listed = set(re.findall("`([^`]+)`", item[1])) if item else set()
printed = set().union(*(keys(json.loads(line)) for line in sys.stdin))
for key in sorted(printed ^ listed | listed - table):
    print(key, *[word for word, has in [("printed", printed), ("listed", listed), ("in the table", table)] if key in has])

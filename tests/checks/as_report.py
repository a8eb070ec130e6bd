# Prints the report in JSON from standard input as the text of `check`, and checks its keys.
import json
import sys

WORDS = {"ino": "i-node", "entry_count": "entries"}

report = json.load(sys.stdin)
if list(report) != ["edition", "format", "other_edition", "rules", "sound"]:
    sys.exit(f"the keys of a report: {list(report)}")
if report["sound"] != all(rule["holds"] is True for rule in report["rules"]):
    sys.exit("the report says of a volume that breaks a rule that it is sound, or the reverse")
for rule in report["rules"]:
    if list(rule) != ["at", "finding", "holds", "needs", "rule"]:
        sys.exit(f"the keys of a rule: {list(rule)}")
    outcome = {True: "holds", False: rule["finding"], None: "not asked"}[rule["holds"]]
    at = rule["at"] or {}
    names = [name for name in ["ino", "directory", "slot", "number", "block", "entry_count", "links"] if name in at]
    if len(names) != len(at):
        sys.exit(f"the keys of a place: {list(at)}")
    if names == ["number"]:
        outcome += f": {at['number']}"
    elif names:
        outcome += ": " + ", ".join(f"{WORDS.get(name, name)} {at[name]}" for name in names)
    print(f"{rule['rule']} {rule['needs']}: {outcome}")
if report["other_edition"]:
    print(f"note: rules 1 and 2 hold for edition {report['other_edition']}")

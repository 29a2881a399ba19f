"""Prints the last state of each row, from the lines of `binlogfeed read` with full row images."""
import json
import sys

rows = {}
for line in sys.stdin:
    change = json.loads(line)
    if change["before"]:
        rows.pop((change["table"], json.dumps(change["before"])), None)
    if change["after"]:
        rows[change["table"], json.dumps(change["after"])] = change["after"]
for (table, _), row in rows.items():
    print(table, row)

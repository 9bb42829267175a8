#!/usr/bin/env python3
"""Refuses a must-fail edit that cannot be applied, and a list of wrong bodies that names an edit which isn't there.

An edit changes one line of a crate, which the edit has as it stands, so a change of that line leaves the edit without a place. The gate
tells of such an edit and passes it. Here it fails. docs/PROOF.md lists the bodies that have to be refused: each row names the crate and
the edit that shows it (`sg_log/gate_left_closed`), or says which test does, or that there is none. A line for each thing that is wrong says
what to do. The status is 0 where none is.

    checks/edits.py [FOLDER]      the repository in FOLDER, and without it this one
"""
import glob
import os
import re
import sys

HEADING = "## Wrong bodies that must be refused"
# A row of the list has its edits in the last cell.
ROW = re.compile(r"^\| [^|]+\|[^|]+\| ([^|]+)\|$")
EDIT = re.compile(r"`(sg_\w+)/([\w-]+)`")
WITHOUT = re.compile(r"(none|a test): ")


def why_not(edit):
    """Returns why an edit cannot be applied to its crate, or None."""
    crate = os.path.dirname(os.path.dirname(edit))
    path, old, texts, pairs = None, None, {}, 0
    with open(edit, encoding="utf-8") as file:
        lines = file.read().split("\n")
    for line in lines:
        if line.startswith("file: "):
            path = line[len("file: ") :].strip()
            if path not in texts:
                if not os.path.isfile(f"{crate}/{path}"):
                    return f"there is no file {path}"
                with open(f"{crate}/{path}", encoding="utf-8") as file:
                    texts[path] = file.read()
        elif line.startswith("old: "):
            old = line[len("old: ") :]
        elif line.startswith("new:"):
            if not (path and old):
                return "a line 'new:' has no 'file:' or no 'old:' before it"
            found = texts[path].count(old)
            if found != 1:
                return f"'{old.strip()}' stands {found} times in {path}, and not once"
            new = line[len("new:") :]
            texts[path] = texts[path].replace(old, new[1:] if new.startswith(" ") else new)
            old, pairs = None, pairs + 1
    return None if pairs else "it changes nothing"


def wrong_rows(document, edits):
    """Returns how many rows the list of wrong bodies has, and what is wrong with them."""
    _, found, rest = document.partition(HEADING)
    if not found:
        return 0, [f"docs/PROOF.md has no '{HEADING}'"]
    rows = [ROW.match(line) for line in rest.partition("\n## ")[0].split("\n") if line.startswith("| ")]
    wrong = [f"docs/PROOF.md: a row of wrong bodies hasn't three cells: row {number}" for number, row in enumerate(rows) if not row]
    cells = [row[1] for row in rows[1:] if row]
    for cell in cells:
        named = EDIT.findall(cell)
        if not named and not WITHOUT.match(cell):
            wrong.append(f"docs/PROOF.md: a row of wrong bodies names no edit, and says neither 'none: ..' nor 'a test: ..': {cell.strip()}")
        wrong += [f"docs/PROOF.md names {crate}/{edit}, which isn't there" for crate, edit in named if (crate, edit) not in edits]
    return len(cells), wrong


def main(top):
    files = sorted(glob.glob(f"{top}/crates/*/must-fail/*.edit"))
    edits = {(file.split("/")[-3], os.path.basename(file)[: -len(".edit")]): file for file in files}
    reasons = [(name, why_not(file)) for name, file in edits.items()]
    wrong = [f"{'/'.join(name)}: {why}: mend the edit" for name, why in reasons if why]
    with open(f"{top}/docs/PROOF.md", encoding="utf-8") as file:
        rows, of_rows = wrong_rows(file.read(), edits)
    for it in wrong + of_rows:
        print(f"edits: FAILED: {it}")
    if wrong or of_rows:
        return 1
    print(f"edits: passed: {len(edits)} edits have their place, {rows} wrong bodies have theirs")
    return 0


if __name__ == "__main__":
    sys.exit(main(sys.argv[1] if len(sys.argv) > 1 else os.path.dirname(os.path.dirname(os.path.realpath(__file__)))))

#!/usr/bin/env python3
"""Refuses a document that names what isn't there: a link whose file or heading is missing, a path of the repository between backticks, and in
docs/PROOF.md a clause that no crate of its row has. A line for each thing that is wrong; the status is 0 where none is.

    checks/documents.py [FOLDER]      the repository in FOLDER, and without it this one
"""
import glob
import os
import re
import sys

LINK = re.compile(r"\[[^\]]*\]\(([^)\s]+)\)")
# A path from the top, or one from the crates on. What stands for a name is in capitals, and what a build makes is in out/.
PATH = re.compile(r"`((?:crates|docs|bench|checks|tools|clients|examples)/[\w./-]+|sg_\w+/(?:src|specs|proofs|must-fail)/[\w./-]+)`")
MADE = re.compile(r"/out/|\b[A-Z]+\b(?=/|\.edit)")
# The names of clauses or fields that stand in brackets behind what they say.
NAMES = re.compile(r"\(((?:`\w+`(?:, | of )?)+)\)")


def read(path):
    with open(path, encoding="utf-8") as file:
        return file.read()


def anchors(path):
    """The words by which a link names the headings of a document."""
    text = re.sub(r"^```.*?^```", "", read(path), flags=re.DOTALL | re.MULTILINE)
    return {re.sub(r"[^\w\- ]", "", it.strip().lower()).replace(" ", "-") for it in re.findall(r"^#{1,6} (.*)$", text, re.MULTILINE)}


def wrong_links(top, document):
    """Yields each link of a document that leads nowhere."""
    for target in LINK.findall(read(f"{top}/{document}")):
        path, _, heading = target.partition("#")
        file = os.path.normpath(f"{top}/{os.path.dirname(document)}/{path}") if path else f"{top}/{document}"
        if target.startswith("http"):
            continue
        if not os.path.exists(file):
            yield f"{document}: a link to {target}, which isn't there"
        elif heading and heading not in anchors(file):
            yield f"{document}: a link to {target}, which has no such heading"


def wrong_paths(top, document):
    """Yields each path of the repository that a document names and that isn't there. A file of specs/ or proofs/ may lack its ending."""
    for path in PATH.findall(read(f"{top}/{document}")):
        file = f"{top}/crates/{path}" if path.startswith("sg_") else f"{top}/{path}"
        if not MADE.search(path) and not os.path.exists(file) and not os.path.exists(f"{file}.antt"):
            yield f"{document}: it names {path}, which isn't there"


def has_name(text, name):
    return re.search(rf"\b(?:ensures|requires|ghost|pub|fn|record) {name}\b", text)


def wrong_clauses(top):
    """Yields each name of a clause in the rows of crates that none of the row's crates has."""
    part = read(f"{top}/docs/PROOF.md").partition("\n## By crate\n")[2].partition("\n## ")[0]
    for row in (line.split("|") for line in part.split("\n") if line.startswith("| `")):
        crates = re.findall(r"`(\w+)`", row[1])
        files = [it for crate in crates for end in ("src/**/*.rt", "specs/**/*.antt") for it in glob.glob(f"{top}/crates/{crate}/{end}", recursive=True)]
        text = "\n".join(map(read, files))
        if not files:
            yield f"docs/PROOF.md: a row of {', '.join(crates)}, which have no files"
        names = [name for group in NAMES.findall(row[2]) for name in re.findall(r"`(\w+)`", group)]
        yield from (f"docs/PROOF.md: no clause {name} in {', '.join(crates)}" for name in names if not has_name(text, name))


def main(top):
    documents = ["README.md", "CONTRIBUTING.md", "bench/README.md"] + sorted(os.path.relpath(it, top) for it in glob.glob(f"{top}/docs/*.md"))
    wrong = [it for document in documents for find in (wrong_links, wrong_paths) for it in find(top, document)] + list(wrong_clauses(top))
    for it in wrong:
        print(f"documents: FAILED: {it}")
    if not wrong:
        print(f"documents: passed: {len(documents)} documents name what is there")
    return 1 if wrong else 0


if __name__ == "__main__":
    sys.exit(main(sys.argv[1] if len(sys.argv) > 1 else os.path.dirname(os.path.dirname(os.path.realpath(__file__)))))

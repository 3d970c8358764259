#!/usr/bin/env python3
"""Looks that what docs/claims.md names stands in the code, and that each link of the documents leads to a file.

  check_claims.py

Of each row of a table in docs/claims.md: the file of the call is there, the call is a function in it, and each clause that the
row names is an `ensures` or `requires` of that call ('(unnamed)': it has an `ensures` without a name). Of each definition that a
row or a paragraph links: it is defined in that file of specs/. Of each Markdown document of the repository: the file of each
relative link is there. What is missing is printed, and the status is 1 then. What a clause says is not looked at.
"""
import argparse
import os
import re
import subprocess

TOP = os.path.join(os.path.dirname(os.path.abspath(__file__)), "..")
LINK = re.compile(r"\[(`?)([^\]`]+)`?\]\(([^)#\s]+)[^)]*\)")


def text_of(path):
    with open(path, encoding="utf-8") as opened:
        return opened.read()


def contracts(source, call):
    """The signatures with contracts of the functions of that name: all up to the body, or to the end of a trait's method."""
    name = call.split("::")[-1]
    end = r"(?:\n\s*\{\}?\n|[})>];\n|-> \w+;\n)"
    return re.findall(r"\bfn %s\b.*?%s" % (re.escape(name), end), source, re.S)


def missing_in_row(cells, source, call):
    found = contracts(source, call)
    if not found:
        return ["no function `%s`" % call]
    named = set(re.findall(r"\b(?:ensures|requires) (\w+) \{", "".join(found)))
    wanted = re.findall(r"`(\w+)`", cells[2])
    lost = ["no clause `%s` at `%s`" % (clause, call) for clause in wanted if clause not in named]
    if "(unnamed)" in cells[2] and not re.search(r"\bensures \{", "".join(found)):
        lost.append("no clause without a name at `%s`" % call)
    return lost if wanted or "(unnamed)" in cells[2] else ["no clause is named"]


def missing_in_line(line, folder, is_claim):
    cells = [cell.strip() for cell in line.strip().strip("|").split(" | ")]
    for ticked, name, target in LINK.findall(line):
        path = os.path.join(folder, target)
        if re.match(r"\w+:", target):
            continue
        if not os.path.exists(path):
            yield "no file %s" % target
        elif ticked and target.endswith(".antt"):
            if not re.search(r"^(?:\w+ )?pub (?:\w+ )?%s\b" % name, text_of(path), re.M):
                yield "no definition `%s` in %s" % (name, target)
        elif ticked and target.endswith(".rt") and is_claim and line.startswith("|"):
            yield from missing_in_row(cells, text_of(path), name)


def main():
    argparse.ArgumentParser(description=__doc__, formatter_class=argparse.RawDescriptionHelpFormatter).parse_args()
    listed = subprocess.run(["git", "ls-files", "-co", "--exclude-standard", "*.md"], cwd=TOP, capture_output=True, text=True, check=True)
    lost = rows = 0
    for name in sorted(listed.stdout.split()):
        path, is_claim = os.path.join(TOP, name), name == "docs/claims.md"
        for number, line in enumerate(text_of(path).splitlines(), 1):
            rows += is_claim and line.startswith("| ") and ".rt)" in line
            for what in missing_in_line(line, os.path.dirname(path), is_claim):
                lost += 1
                print("%s:%d: %s" % (name, number, what))
    print("%d rows, %d missing" % (rows, lost))
    return 1 if lost else 0


if __name__ == "__main__":
    raise SystemExit(main())

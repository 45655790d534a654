#!/usr/bin/env python3
"""Writes the numbers of docs/READING.md again: the lines of each file of its tables, their sums, and how many are empty or begin with `use`.

usage: python3 tools/reading_lines.py        at the top of the repository; then `bash docs/reading`
"""
import re

PAGE = "docs/READING.md"
ROW = re.compile(r"^\| `([a-z_]*/(specs|proofs)/[A-Za-z]*\.antt)` \| (\d+) \|", re.M)
SUM = re.compile(r"\*\*\d+ files, \d+ lines\*\*")


def lines_of(file):
    with open(f"crates/{file}", encoding="utf-8") as text:
        return text.read().splitlines()


def renumbered(part):
    return ROW.sub(lambda row: f"| `{row[1]}` | {len(lines_of(row[1]))} |", part)


def sum_of(part, kind):
    rows = [row for row in ROW.findall(part) if row[1] == kind]
    return f"**{len(rows)} files, {sum(int(row[2]) for row in rows)} lines**"


with open(PAGE, encoding="utf-8", newline="") as page:
    text = page.read()
at = text.index("\n## Theorems")
believed, theorems = renumbered(text[:at]), renumbered(text[at:])
bare = sum(line == "" or line.startswith("use ") for row in ROW.findall(believed) if row[1] == "specs" for line in lines_of(row[0]))
assert len(SUM.findall(believed)) == 1 and len(SUM.findall(theorems)) == 2, "another number of sums than 1 and 2"
believed = SUM.sub(sum_of(believed, "specs"), believed)
believed = re.sub(r"of which \d+ are empty", f"of which {bare} are empty", believed)
sums = iter([sum_of(theorems, "proofs"), sum_of(theorems, "specs")])
theorems = SUM.sub(lambda _: next(sums), theorems)
with open(PAGE, "w", encoding="utf-8", newline="") as page:
    page.write(believed + theorems)

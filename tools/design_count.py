#!/usr/bin/env python3
"""Counts the places of docs/DESIGN-PASS.md in crates/*/src, at a commit or as the files stand.

    tools/design_count.py [COMMIT] [-v]

Each rule is a pattern on a line, or a count of what a function's head says; -v prints the places. What a pattern can't see (twins, and what is one thing under two
names) is listed by name on the page."""
import re
import subprocess
import sys

NUMBER = r"(u8|u16|u32|u64|usize)"
RULES = [
    ("1a", "a field that is a flag or a number of a refusal beside a value", r"^\s*(pub )?(ok|status|held|refused|changed|named|material_status): (bool|u32),"),
    ("1b", "a constant that is a number for a refusal or a kind", r"const (OK|ERR_\w+|TAG_[A-Z_]+|BLOCKS|WORDS|COUNTER_BLOCKS|MESSAGE|LINES|ZERO|K1|EMPTY|TAG|FEEDS|DERIVED|PARTS|KEY|IV|ATTRIBUTES|LENT|HANDLE|STAGING): " + NUMBER + " ="),
    ("1c", "a number of a refusal tested or answered", r"\b(status|stream)::(OK|ERR_\w+)"),
    ("3", "a loop that counts by hand", r"^\s*while "),
    ("4", "a value of nothing, or a comparison, written by hand", r"fn (zero|refused\w*|no_\w+|not_\w+|bad_header|none_pending|zero_handle|unreadable|wide\w*|narrow|least|both|first)\("),
    ("5a", "the tables of AES as parameters", r"\b(mix|t|sub): &\[u(32|8); 256\]"),
    ("5b", "an area's kind as a parameter", r"\bkind: AreaKind"),
    ("5c", "the clause that an area is sized and intact, or sized", r"requires.*sized \(format_of kind\) |requires.*sized kv_format"),
    ("6", "a count or length beside an array in one struct", r"^\s*(pub )?(count|len|used|size|runs|numbers): (u8|usize),"),
    ("7", "a match on a number or letter that says what to do", r"match (index|kind|trial|place % 4|i) \{"),
]


def lines_of(commit):
    if commit is None:
        names = subprocess.run(["git", "ls-files", "crates/*/src/*.rt"], text=True, capture_output=True, check=True).stdout.split()
        for name in names:
            with open(name, encoding="utf-8") as f:
                yield name, f.read().splitlines()
        return
    names = subprocess.run(["git", "ls-tree", "-r", "--name-only", commit, "crates"], text=True, capture_output=True, check=True).stdout.split()
    for name in names:
        if "/src/" in name and name.endswith(".rt"):
            yield name, subprocess.run(["git", "show", f"{commit}:{name}"], text=True, capture_output=True, check=True).stdout.splitlines()


def main():
    args = [a for a in sys.argv[1:] if a != "-v"]
    verbose = "-v" in sys.argv
    files = list(lines_of(args[0] if args else None))
    for key, what, pattern in RULES:
        hits = [(n, i + 1, s.strip()) for n, ls in files for i, s in enumerate(ls) for _ in re.findall(pattern, s)]
        by = {}
        for n, _, _ in hits:
            crate = n.split("/")[1]
            by[crate] = by.get(crate, 0) + 1
        print(f"{key:3} {len(hits):4}  {what}: " + ", ".join(f"{c} {k}" for c, k in sorted(by.items())))
        if verbose:
            for n, i, s in hits:
                print(f"         {n}:{i}: {s}")


main()

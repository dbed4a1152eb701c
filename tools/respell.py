#!/usr/bin/env python3
"""Brings the repository's own definitions and lemmas to today's spelling, once, after port.py.

usage: python3 tools/respell.py    at the top of the repository

Words (definitions, fields, constructors, lemmas) are in snake case. A dash stays in a lemma's name where it joins two names, as in `length-drop`; in a field,
a definition of specs/, and elsewhere it becomes `_`. Types and modules keep their spelling, as do functions of src/ and whatever the library defines.
Names that a renaming would bring together are said, and nothing is written then.
"""
import collections
import glob
import os
import re
import sys

KIT = "/opt/rattle/rattle"
# Fields that would fall together with the definition that they are about.
FIELDS = {
    "affine-bit": "affine_by_bit",
    "all-zero": "is_all_zero",
    "iv-sized": "iv_is_sized",
    "key-sized": "key_is_sized",
    "name-length": "name_is_short",
    "no-mix": "is_no_mix",
    "payload-length": "payload_is_short",
    "record-written": "record_is_written",
    "send-in-range": "send_is_in_range",
    "staging-sized": "staging_is_sized",
    "well-formed": "is_well_formed",
}
TOKEN = re.compile(r"[^\s(){}\[\],.;:λ\"`|·…]+")
HEAD = re.compile(r"^(\s*)((?:abbrev |unfoldable |opaque |pub |ruleset |data |record )*)([^\s:(){}\[\],.;]+)\s*(?=[:({])")
NOT = re.compile(r"^\s*(use|mod|pub mod|--|let|in|module|open|elim)\b")

# Names bound within a definition.
LOCALS = ("nameBuf", "nameBuf'", "rbpSize", "kvSize", "mixBuf", "tagHeld", "keyBuf", "materialLength", "keyType", "enrollmentAlg", "dataSize", "floatAt")


def definitions(path):
    with open(path, encoding="utf-8", errors="replace") as f:
        for line in f:
            m = HEAD.match(line)
            if m and not NOT.match(line):
                yield len(m.group(1)), m.group(2), m.group(3)


def library():
    names = set()
    for folder in ("core", "std", "std_alloc", "std_collections", "std_io", "std_heap", "logic", "antt"):
        for p in glob.glob(f"{KIT}/{folder}/**/*.antt", recursive=True):
            names.update(n for _, _, n in definitions(p))
    return names


def snake(name):
    name = re.sub(r"(?<=[a-z0-9])(?=[A-Z])", "_", name)
    return name.lower() if name[:1].islower() else name


def part_of_proof(path):
    """Whether it is a file about one function, whose names follow the code."""
    return os.path.basename(path) in ("Proof.antt", "Invariants.antt", "Answers.antt")


def own(root):
    """Own names: those of specs/, and those of lemma files; fields with them."""
    specs, lemmas = set(), set()
    for p in sorted(glob.glob(f"{root}/crates/*/specs/**/*.antt", recursive=True)):
        specs.update(n for _, _, n in definitions(p))
    for p in sorted(glob.glob(f"{root}/crates/*/proofs/**/*.antt", recursive=True)):
        if part_of_proof(p):
            continue
        record = None
        for indent, words, name in definitions(p):
            if "record" in words.split():
                record = indent
                lemmas.add(name)
            elif record is not None and indent > record:
                specs.add(name)
            else:
                record = None
                lemmas.add(name)
    return specs, lemmas


def plan(root):
    std = library()
    specs, lemmas = own(root)
    new = {}
    for n in sorted(specs | lemmas):
        if n[:1].islower() and n not in std:
            new[n] = snake(n)
    known = std | set(new.values()) | {snake(n) for n in specs}
    for n in list(new):
        m = new[n]
        if "-" not in m.strip("-"):
            continue
        if n in FIELDS:
            new[n] = FIELDS[n]
            continue
        if n in specs:
            new[n] = m.replace("-", "_")
            continue
        parts = m.split("-")
        out = parts[0]
        word = parts[0]
        for p in parts[1:]:
            if word in known and p in known:
                out, word = out + "-" + p, p
            else:
                out, word = out + "_" + p, word + "_" + p
        new[n] = out
    return {a: b for a, b in new.items() if a != b}, specs, lemmas, std


def apart(new, specs, lemmas):
    """Gives a lemma that would have a definition's name, or another lemma's, the ending `_lem`; says what falls together all the same."""
    taken = collections.defaultdict(list)
    for n in sorted(specs | lemmas):
        taken[new.get(n, n)].append(n)
    for to, names in taken.items():
        if len(names) > 1:
            # A definition is spelled in camel case, and a lemma has a dash or is in snake case already.
            for n in names:
                if n in lemmas - specs and not re.search("[a-z0-9][A-Z]", n):
                    new[n] = to + "_lem"
    taken = collections.defaultdict(list)
    for n in sorted(specs | lemmas):
        taken[new.get(n, n)].append(n)
    return [(to, names) for to, names in sorted(taken.items()) if len(names) > 1]


def turn_code(text, new):
    return TOKEN.sub(lambda m: new.get(m[0], m[0]), text)


def turn_prose(text, new):
    """In prose only what no English word is spelled like."""
    return re.sub(r"(?<![\w'-])[a-z]+[a-z0-9]*[A-Z]\w*(?![\w'-])", lambda m: new.get(m[0], m[0]), text)


def turn(path, new):
    with open(path, encoding="utf-8") as f:
        text = f.read()
    mark = {".antt": "--", ".rt": "//"}.get(os.path.splitext(path)[1])
    out = []
    for line in text.split("\n"):
        if mark:
            at = 0 if line.lstrip().startswith(mark) else line.find(" " + mark + " ")
            at = len(line) if at < 0 else at
            out.append(turn_code(line[:at], new) + turn_prose(line[at:], new))
        elif path.endswith(".edit") and line.startswith(("old:", "new:")):
            out.append(turn_code(line.replace("\u2032", "'"), new))
        else:
            out.append(turn_prose(line, new))
    if "\n".join(out) != text:
        with open(path, "w", encoding="utf-8") as f:
            f.write("\n".join(out))
        return True
    return False


def files():
    for pattern in ("crates/*/specs/**/*.antt", "crates/*/proofs/**/*.antt", "crates/*/src/**/*.rt", "crates/*/must-fail/*.edit", "docs/**/*.md", "README.md", "tests/README.md"):
        yield from sorted(glob.glob(pattern, recursive=True))


def main():
    new, specs, lemmas, std = plan(".")
    fallen = apart(new, specs, lemmas)
    for to, names in fallen:
        print(f"together: {to} from {', '.join(names)}")
    if fallen:
        return 1
    new.update((n, snake(n)) for n in LOCALS)
    n = sum(turn(p, new) for p in files())
    for a, b in sorted(new.items()):
        print(a, b)
    print(f"{len(new)} names in {n} files", file=sys.stderr)
    return 0


if __name__ == "__main__":
    sys.exit(main())

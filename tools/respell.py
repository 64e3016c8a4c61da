#!/usr/bin/env python3
"""Brings this repository's own names in specs/, proofs/ and clauses to snake case, and its own types to camel case.

usage: python3 tools/respell.py      at the top, once, right after /opt/rattle/port/port.py

Renamed is what a file of specs/ or a lemma file of proofs/ names, and what an answer binds. What the library or the check names, functions of src/, strings and comments keep their names. It is for the old spelling alone: a second run stops, and changes nothing.
"""

import os
import re

NAME = r"[A-Za-z][\w']*(?:-[\w']+)*"
LOCAL = re.compile(r"\blet (" + NAME + r") [:=]|\bas (" + NAME + r")(?=[,}])")
OF_A_LIBRARY = re.compile(r"use (?!Rattle\.(?:measures|records|ends|split|forms|tariff|units|recovery|ledger|journal|desk|book)\.)\S*\.\{(.*)\}")
WORDS = re.compile(r'b?"(?:[^"\\]|\\.)*"|' + NAME)

# Names that would fall together, or that would not be words.
BY_HAND = {"all_digits": "digits_are_digits", "getD-firstFields": "get_or_first_fields", "getD-set-mapped": "get_or_set_mapped", "noticeIn": "notice_call_in"}


def files():
    for folder, dirs, names in os.walk("crates"):
        dirs[:] = sorted(d for d in dirs if d != "out")
        for name in sorted(names):
            if name.endswith((".antt", ".rt")):
                yield os.path.join(folder, name)


def is_lemmas(path):
    return path.endswith(".antt") and ("/specs/" in path or os.path.basename(path) not in ("Answers.antt", "Invariants.antt", "Proof.antt"))


def code_and_comment(path, line):
    mark = "--" if path.endswith(".antt") else "//"
    at = line.find(mark)
    return (line, "") if at < 0 else (line[:at], line[at:])


def is_type(name):
    return name[0].isupper() and "-" not in name


def snake(name):
    if name[0].isupper():
        return "".join(part[0].upper() + part[1:] for part in name.split("-"))
    return re.sub(r"(?<=[a-z0-9])[A-Z]", lambda m: "_" + m.group(0).lower(), name.replace("-", "_"))


def renamings():
    own, library = set(), set()
    for path in files():
        with open(path, encoding="utf-8") as f:
            for line in f:
                code = code_and_comment(path, line)[0]
                of_a_library = OF_A_LIBRARY.search(code)
                if of_a_library:
                    library |= {name.strip() for name in of_a_library.group(1).split(",")}
                elif is_lemmas(path):
                    own |= {m.group(0) for m in WORDS.finditer(code) if '"' not in m.group(0)}
                if path.endswith(".antt"):
                    own |= {name for names in LOCAL.findall(code) for name in names if name}
    to = {name: snake(name) for name in own - library if snake(name) != name and not is_type(name)}
    to |= {name: new for name, new in BY_HAND.items() if name in own}
    fallen = [(name, new) for name, new in to.items() if new in library or (new in own and new not in to) or list(to.values()).count(new) > 1]
    if fallen:
        raise SystemExit(f"these names would fall together: {fallen}")
    return to


def main():
    to = renamings()
    for path in files():
        with open(path, encoding="utf-8") as f:
            old = f.read()
        lines = []
        for line in old.splitlines(keepends=True):
            code, comment = code_and_comment(path, line)
            lines.append(WORDS.sub(lambda m: to.get(m.group(0), m.group(0)), code) + comment)
        new = "".join(lines)
        if new != old:
            with open(path, "w", encoding="utf-8") as f:
                f.write(new)
    print(f"respell: {len(to)} names")


main()

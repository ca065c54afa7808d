#!/usr/bin/env python3
"""Compares the tables of PROFILE.md with those of the code. Knows nothing of what a call does."""

import re
import sys
from pathlib import Path

TOP = Path(__file__).resolve().parent.parent
WORDS = TOP / "crates/gl_words"
TRACKED = TOP / "crates/gl_tracked"
SHADOW = TOP / "crates/client_shadow"
KINDS = {"Enum": "enumerant", "Unsigned": "unsigned", "Int": "integer", "Fixed": "fixed", "Truth": "truth", "Pointer": "address"}


def definition(path, name):
    """The equations of a definition by cases: what stands behind each call's name."""
    rows = {}
    for line in path.read_text().splitlines():
        found = re.match(rf"{name} \(?(\w+)[^=]*= (.*)$", line)
        if found and found.group(1) != ":":
            rows[found.group(1)] = found.group(2).strip()
    return rows


def calls(path):
    """What the rows of the table of calls say, by name: number, kinds, and whether the call is answered."""
    row = r"^row_of \(?gl\.(\w+)[^=]*=\s+(does|asks) (\d+) \(codes \"(\w+)\"\) (\[\]|\([^)]*\)) gl\.(\w+)"
    found = re.findall(row, path.read_text(), re.M)
    assert all(variant == name == made for variant, _, _, name, _, made in found)
    kinds = {name: re.findall(r"\w+", listed) for _, _, _, name, listed, _ in found}
    return {name: number for _, _, number, name, _, _ in found}, kinds, {name: part == "asks" for _, part, _, name, _, _ in found}


def table(title):
    """The rows of the first table below a heading of PROFILE.md, as lists of cells."""
    text = (TOP / "docs/PROFILE.md").read_text().split(f"## {title}\n", 1)[1].split("\n## ", 1)[0]
    rows = [[cell.strip() for cell in line.strip("|").split("|")] for line in text.splitlines() if line.startswith("|")]
    return rows[2:]


def numbers(path, *names):
    """The numbers, in hexadecimal, of the bodies of these definitions."""
    bodies = [re.search(rf"^{name}\b[^:=\n]*=(.*?)(?:\n\n|\Z)", path.read_text(), re.S | re.M).group(1) for name in names]
    return sorted(re.findall(r"0x[0-9A-F]{4}", "".join(bodies)))


def gets():
    """The numbers of the names that each get takes, by whether they are of tracked state, as the code has them."""
    path, tracked = TRACKED / "specs/Gets.antt", TRACKED / "specs/Tracked.antt"
    return {
        ("GetIntegerv", True): numbers(path, "mode_rows", "array_rows", "buffer_rows"),
        ("GetPointerv", True): numbers(path, "pointer_rows"),
        ("IsEnabled", True): numbers(path, "enabled_rows"),
        ("GetIntegerv", False): numbers(path, "other_integers"),
        ("GetFixedv", False): numbers(path, "fixed_names"),
        ("IsEnabled", False): numbers(tracked, "capabilities"),
    }


def classes(answering):
    """The calls of each class, as the code has them."""
    asked = re.findall(r"^number_asked tracked \((\w+)", (TRACKED / "specs/Step.antt").read_text(), re.M)
    finish = definition(SHADOW / "specs/Class.antt", "is_finish")
    waits = [name for name in answering if answering[name] or finish.get(name) == "true"]
    return {"Answer": sorted(asked), "Sync": sorted(waits), "Defer": sorted(set(answering) - set(waits))}


def main():
    call = WORDS / "specs/Call.antt"
    ids, kinds, answering = calls(call)
    wrong = []
    rows = table("Calls")
    for number, name, arguments, _, answered in rows:
        said = [] if arguments == "none" else [argument.split()[0] for argument in arguments.split(", ")]
        has = [KINDS[kind] for kind in kinds.get(name, [])]
        if ids.get(name) != number or said != has or (answered == "yes") != answering.get(name):
            wrong.append(f"PROFILE.md, Calls: {name} differs from crates/gl_words/specs/Call.antt")
    if sorted(ids) != sorted(row[1] for row in rows):
        wrong.append("PROFILE.md, Calls: not the calls of crates/gl_words/specs/Call.antt")
    said = {row[0]: sorted(row[1].split(", ")) for row in table("Which calls wait")}
    if said != classes(answering):
        wrong.append("PROFILE.md, Which calls wait: differs from crates/client_shadow/specs/Class.antt")
    rows = re.findall(r'codes "(\w+)", (\w+)', (WORDS / "specs/Names.antt").read_text())
    named = {name: int(number, 0) for name, number in rows}
    said = {}
    for row in table("Names of the gets"):
        if row[2:] and row[2].startswith("0x"):
            said.setdefault((row[0], len(row) == 4), []).extend(row[2].split(", "))
            if [named.get(name) for name in row[1].split(", ")] != [int(number, 0) for number in row[2].split(", ")]:
                wrong.append(f"PROFILE.md, Names of the gets: {row[1]} differs from crates/gl_words/specs/Names.antt")
    if {key: sorted(found) for key, found in said.items()} != gets():
        wrong.append("PROFILE.md, Names of the gets: differs from crates/gl_tracked/specs/Gets.antt")
    known = {}
    for row in table("Names"):
        known.update(zip(row[1].split(", "), row[2].split(", "), strict=True))
    for row in table("Names of the gets"):
        if row[2:] and row[2].startswith("0x"):
            known.update(zip(row[1].split(", "), row[2].split(", "), strict=True))
    if {name: int(number, 0) for name, number in known.items()} != named:
        wrong.append("PROFILE.md, Names: differs from crates/gl_words/specs/Names.antt")
    for line in wrong:
        print(line)
    print(f"docs/check_profile.py: {'FAILED' if wrong else 'the tables agree'}")
    return 1 if wrong else 0


if __name__ == "__main__":
    sys.exit(main())

#!/usr/bin/env python3
"""Judges the list `tests/plant.known`: each line has a reason, and its function is there.

The list has what `tests/outside/plant` finds and should find: mutants that are proved, and right; functions in which none
could be tried, and those without a contract. A reason is indented below the lines that it is of. No mutant is tried
here. The last line of output is `N as expected, M not`.
"""
import re
import sys
from pathlib import Path

sys.dont_write_bytecode = True
from telling import TOP, counted, tells

KNOWN = Path(f"{TOP}/tests/plant.known")


def known_lines():
    """The lines of the list, `crate: kind path function`, each with its reason."""
    text = re.sub(r"^(#.*)?\n", "", KNOWN.read_text(), flags=re.M)
    groups = re.findall(r"((?:^\S.*\n)+)((?:^\s.*\n)*)", text, re.M)
    return {line: reason.strip() for lines, reason in groups for line in lines.splitlines()}


def is_there(line):
    """Whether the function that a line names is in the crate's sources."""
    parts = re.fullmatch(r"(\w+): \S+ (src/\S+) (.*?)(?:\(\)|: \{.*)", line)
    path = Path(f"{TOP}/crates/{parts[1]}/{parts[2]}" if parts else "")
    return path.is_file() and bool(re.search(rf"\bfn {parts[3].split('::')[-1]}\b", path.read_text()))


def main():
    outcomes = []
    for line, reason in known_lines().items():
        outcomes.append(bool(reason) and is_there(line))
        if not outcomes[-1]:
            tells(f"a reason and the function of {line}", False)
    return counted(outcomes)


if __name__ == "__main__":
    sys.exit(main())

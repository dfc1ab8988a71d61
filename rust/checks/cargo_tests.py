#!/usr/bin/env python3
"""Tests the packages `rust/` and `rust/programs` by cargo alone, in the folder out/cargo. It needs no Rattle toolchain.

- rustc isn't older than rust/Cargo.toml allows.
- The tests of both packages pass.
- The programs pass `tests/program`, `tests/boot`, `tests/audit` and `tests/command_lines`, as the proved ones do.

`make test` runs it, and so does `rust/checks/package` in a folder of its own. The last line of output is `N as expected,
M not`.
"""
import os
import re
import shutil
import sys
from concurrent.futures import ThreadPoolExecutor
from pathlib import Path

sys.dont_write_bytecode = True
from listings import TOP, ends_well
import rustc
from telling import counted, tells

PACKAGE = f"{TOP}/rust"
LEAST_TESTS, LEAST_ROWS = 120, 1830
# Warnings are errors.
STRICT = {"RUSTFLAGS": "-D warnings", "RUSTDOCFLAGS": "-D warnings"}


def is_row(line):
    """Whether a line of a file of rows is one."""
    return bool(line) and not line.startswith("#")


def tests(target):
    """Whether the tests of the packages pass, and how many there are. One test answers a file of rows."""
    passed, output = ends_well("the tests pass", ["cargo", "test", "--locked", "--workspace"], PACKAGE, target, **STRICT)
    yield passed
    count = sum(map(int, re.findall(r"test result: ok\. (\d+) passed", output)))
    rows = sum(is_row(line) for path in Path(PACKAGE, "tests").rglob("*.rows") for line in path.read_text().splitlines())
    enough = f"{count} tests ran, at least {LEAST_TESTS}, over {rows} rows, at least {LEAST_ROWS}"
    yield tells(enough, count >= LEAST_TESTS and rows >= LEAST_ROWS)


def cases(target):
    """Whether the programs pass the tests of the proved ones."""
    for name in "program", "boot", "audit", "command_lines":
        words = [f"{TOP}/tests/{name}/run", "--programs", f"{target}/release"]
        yield ends_well(f"the programs pass tests/{name}", words, PACKAGE, target)[0]


def outcomes(target):
    version, fault = rustc.version(os.environ.get("RUSTC", "rustc"))
    yield tells(f"{version}, where {rustc.oldest()} is the oldest", fault, None)
    build = ["cargo", "build", "--locked", "--workspace", "--release"]
    yield ends_well("the programs build", build, PACKAGE, target, **STRICT)[0]
    with ThreadPoolExecutor() as pool:
        for found in pool.map(lambda of: [*of(target)], (tests, cases)):
            yield from found


def main():
    if not shutil.which("cargo") or not shutil.which("rustc"):
        sys.exit("cargo_tests: cargo or rustc isn't installed")
    return counted(outcomes(f"{TOP}/out/cargo"))


if __name__ == "__main__":
    sys.exit(main())

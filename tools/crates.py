"""The lines of a `crates.txt`. Each names a crate, its kind, and the libraries that it uses."""
import glob
import os
import typing

TOP = os.path.dirname(os.path.dirname(os.path.realpath(__file__)))


class Line(typing.NamedTuple):
    """A line: its text, the words between the crate's name and the colon, and the libraries that it names."""

    text: str
    kind: list
    uses: list


def read(top=TOP):
    """Returns the lines of a repository's `crates.txt` by the names of the crates, in order; none if there is no file."""
    lines = {}
    if os.path.isfile(f"{top}/crates.txt"):
        with open(f"{top}/crates.txt", encoding="utf-8") as file:
            for text in (line.partition("#")[0].strip() for line in file):
                head, _, uses = text.partition(":")
                if head.strip():
                    name, *kind = head.split()
                    lines[name] = Line(text, kind, uses.split())
    return lines


def below(lines, name):
    """Returns the repository's libraries that a crate uses, each after those that it uses."""
    found = []
    for use in lines[name].uses:
        if use in lines:
            found += [it for it in [*below(lines, use), use] if it not in found]
    return found


def is_of_tests(name):
    """Whether a crate is one of tests, which are functions or rows, or for them alone."""
    return name.endswith(("_tests", "_rows")) or name.startswith("test_") or name == "rows"


def is_for_users(name):
    """Whether a crate is no crate of tests, examples or measures."""
    return not is_of_tests(name) and not name.endswith(("_examples", "_bench"))


def sources(name):
    """Gives the paths and texts of the files of a crate's code, but its tests."""
    for path in sorted(glob.glob(f"{TOP}/crates/{name}/src/**/*.rt", recursive=True)):
        if "tests" not in path.removeprefix(f"{TOP}/crates/{name}/"):
            with open(path, encoding="utf-8") as file:
                yield os.path.relpath(path, TOP), file.read()


def tests_of(lines, name):
    """Returns the crates that test a crate, in order: itself if it has tests, else those of its tests and of its rows, else those that use it; nothing for an unknown one."""
    if name not in lines:
        return []
    tests = [it for it in lines if it.endswith(("_tests", "_rows"))]
    own = [it for it in tests if it.rpartition("_")[0] == name.removeprefix("uefi_")]
    users = [it for it in tests if name in lines[it].uses]
    has_tests = os.path.isfile(f"{TOP}/crates/{name}/src/tests.rt")
    return [name] if has_tests else own or users or [name]

"""What the tests share: a line for each outcome, the counts at the end, and copies of a crate. It finds the modules of `tools`."""
import os
import shutil
import subprocess
import sys
from pathlib import Path

TOP = os.path.dirname(os.path.dirname(os.path.realpath(__file__)))
sys.path.insert(0, f"{TOP}/tools")
import crates

# The test, by its path in the repository without `tests/` and `run`.
TEST = os.path.relpath(os.path.realpath(sys.argv[0]), TOP).removeprefix("tests/").removesuffix("/run")
# So much of what came out is printed where it is not as expected.
SHOWN = 2000


def tells(name, got, expected=True):
    """Whether something came out as expected. Prints a line on it."""
    is_same = got == expected
    outcome = "as expected" if is_same else f"{str(got)[:SHOWN]}, where {str(expected)[:SHOWN]} was expected"
    print(f"{TEST}: {name}: {outcome}", flush=True)
    return is_same


def call(folder, *words):
    """Runs a command in a folder. Whether it ended well, and all that it printed."""
    how = {"stdin": subprocess.DEVNULL, "stdout": subprocess.PIPE, "stderr": subprocess.STDOUT, "text": True}
    ran = subprocess.run(words, cwd=folder, check=False, **how)
    return ran.returncode == 0, ran.stdout


def copy_crate(room, name):
    """Copies a crate and the libraries below it, with what was proved of them, into an empty folder."""
    known = crates.read()
    names = [*crates.below(known, name), name]
    for it in names:
        shutil.copytree(f"{TOP}/crates/{it}", f"{room}/crates/{it}")
    Path(f"{room}/crates.txt").write_text("".join(f"{known[it].text}\n" for it in names))


def counted(outcomes):
    """Prints the last line that `./check` reads, and returns the exit status."""
    outcomes = list(outcomes)
    print(f"{sum(outcomes)} as expected, {len(outcomes) - sum(outcomes)} not")
    return 0 if outcomes and all(outcomes) else 1

"""Golden cases: runs programs, and compares what they end with with the tables of cases (`tests/case_table.py`)."""
import difflib
import os
import shlex
import subprocess
import sys
import tempfile

from case_table import ANY, cases, end_lines, shown
from telling import TEST, TOP, counted

# A run that takes more seconds hangs.
SECONDS = 600


def program_named(name):
    """A program's path: the script that runs it, or, where the command line begins with `--programs DIR`, the
    one in this folder."""
    if sys.argv[1:2] == ["--programs"]:
        return os.path.abspath(f"{sys.argv[2]}/{name}")
    return f"{TOP}/{name}"


def build(name):
    """Whether a program is proved and built, which is done where it isn't yet. Standard error says how far it is."""
    return subprocess.run([f"{TOP}/tools/ensure_built", name], check=False).returncode == 0


def case_names():
    """The cases that the command line names."""
    return sys.argv[3 if sys.argv[1:2] == ["--programs"] else 1:]


def end_of(program, args, stdin=b"", **how):
    """The status and the streams that a program ends with."""
    streams = {"input": stdin, "stdout": subprocess.PIPE, "stderr": subprocess.PIPE}
    ran = subprocess.run([program, *args], check=False, timeout=SECONDS, **{**streams, **how})
    return ran.returncode, ran.stdout, ran.stderr


def is_end(found, wanted):
    """Whether a program ended as a case says."""
    return found[0] == wanted[0] and all(it if text == ANY else it == text for it, text in zip(found[1:], wanted[1:]))


def tells_end(case, found):
    """Whether a program ended as a case says. Prints a line on it, and if it didn't, the lines that differ: those that
    were wanted after `-`, those that were found after `+`."""
    if is_end(found, case.end()):
        print(f"{TEST}: {case.name}: as expected", flush=True)
        return True
    args = shlex.join(shown(it) for it in case.args)
    print(f"{TEST}: {case.name}: not as expected\n$ {args}", flush=True)
    lines = end_lines(case.end()), end_lines(found)
    print("\n".join(difflib.unified_diff(*lines, f"{case.name}: wanted", "found", lineterm="")), flush=True)
    return False


def is_as_expected(program, case):
    """Whether a program ends as a case says, in a folder with the case's files."""
    with tempfile.TemporaryDirectory(prefix="golden-") as room:
        case.write(room)
        return tells_end(case, end_of(program, case.args, case.stdin, cwd=room))


def run(program, folder, *checks):
    """Tries a folder's cases and then the checks, in an empty folder; or the cases that the command line names. Prints
    the counts, and returns the exit status."""
    found, names = cases(folder), case_names()
    if unknown := [it for it in names if it not in found]:
        sys.exit(f"{TEST}: there is no case {unknown[0]}")
    if not os.path.exists(program):
        sys.exit(f"{TEST}: there is no program {program}")
    if os.path.dirname(program) == TOP and not build(os.path.basename(program)):
        sys.exit(f"{TEST}: {program} can't be built")
    outcomes = [is_as_expected(program, found[it]) for it in names or found]
    with tempfile.TemporaryDirectory(prefix="golden-") as room:
        os.chdir(room)
        for check in () if names else checks:
            outcomes += check()
    return counted(outcomes)

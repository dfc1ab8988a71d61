#!/usr/bin/env python3
"""The one file that knows the toolchain from inside: its Python functions, its marks of what is built, its compilers.

`rt run`, `rt lib` and `rt check` do the same as these functions, more slowly. Where the toolchain lacks one of them,
`inside` says so in one line and returns None, and each caller goes on by these commands.

  tools/toolchain.py at_once           prints how many proofs `rt ci` is to run at a time, by the variable RT_JOBS
  tools/toolchain.py clear             removes the built libraries, unless all are of their present sources
  tools/toolchain.py keep              marks the libraries that `rt ci` proved, so that `rt` doesn't prove them again
  tools/toolchain.py TOOL ARGUMENT..   runs a tool of LLVM, as `clang`, `ld.lld` or `llvm-objdump`

The variable CLANG names the program that is run as `clang`.
"""
import contextlib
import importlib
import os
import pathlib
import re
import shutil
import subprocess
import sys

sys.dont_write_bytecode = True
sys.path.insert(0, os.path.dirname(os.path.realpath(__file__)))
import crates
from proving import at_once

# What is used of the module beside `rt`, and of its class for a crate.
NEEDED = ("Crate", "KEPT", "RATTLE", "guarded", "lock")
NEEDED_OF_A_CRATE = ("below", "has_kept", "is_built", "makes_rlib", "stamp", "words")
NEEDED_FIELDS = ("deps", "folder", "name", "rlib")
# The system's tools that take the place of LLVM's; of `llvm-NAME` that is NAME.
OTHERS = {"clang": ["clang", "gcc", "cc"], "ld.lld": ["ld.lld", "ld"]}


def say(text):
    print(f"{os.path.basename(sys.argv[0])}: {text}", file=sys.stderr, flush=True)


def load():
    """Returns the module that `rt` is made of, or None if there is none."""
    sys.path.append(os.path.dirname(os.path.realpath(shutil.which("rt") or "")))
    try:
        return importlib.import_module("rtlib")
    except Exception:
        return None


def inside(instead, top=crates.TOP):
    """Returns the toolchain's functions over the crates of a repository. Without all of them it returns None, and says what is done instead."""
    module = load()
    missing = [it for it in NEEDED if not hasattr(module, it)]
    missing = missing or [it for it in NEEDED_OF_A_CRATE if not hasattr(module.Crate, it)]
    if not missing:
        made = Inside(module, top)
        missing = [it for it in NEEDED_FIELDS for crate in made.crates.values() if not hasattr(crate, it)]
    if missing:
        say(f"the toolchain has no function `{missing[0]}`: {instead}")
        return None
    # Threads start processes that end with this one; the first thread alone can prepare that.
    module.guarded()
    return made


class Inside:
    """The toolchain's functions over the crates of a repository."""

    def __init__(self, module, top):
        self.module, known = module, {}
        self.crates = {name: module.Crate(f"{top}/crates/{name}", top, known) for name in crates.read(top)}

    def command(self, *arguments):
        """Returns the words of a call of the prover, which ends with this process."""
        return [*self.module.guarded(), self.module.RATTLE, *arguments]

    @contextlib.contextmanager
    def locked(self, some):
        """Keeps other runs of `rt` out of the folders of some crates."""
        held = self.module.lock(some)
        try:
            yield
        finally:
            for it in held:
                os.close(it)

    def prove_library(self, library, jobs, run):
        """Proves a library over those below it, by a function that runs words in a folder. Returns its status and lines.

        A library leaves its statements alone to those above it, as in `rt ci`, so that they needn't load its proofs.
        One that was built before is being worked on: what `rt` keeps of its proof is used, and kept.
        """
        stamp, folder = library.stamp(), os.path.dirname(library.rlib)
        words = self.command("build", *library.words(["--jobs", str(jobs)], keeps=False))
        was_built = os.path.isfile(mark(library)) or library.has_kept()
        words += self.module.KEPT if was_built else ["--statements"]
        shutil.rmtree(folder, ignore_errors=True)
        os.makedirs(folder)
        status, lines = run([*words, "-o", library.rlib], library.folder)
        if status == 0 and stamp == library.stamp():
            mark_as_built(library, stamp)
        return status, lines

    def clear(self):
        """Removes the built libraries, unless all are of their present sources.

        `rt ci` puts back a library that was there before it ran, in place of the one that it proves. One of other
        sources would be proved again, and so would those above it: they fit only the libraries that they were built over.
        """
        libraries = [it for it in self.crates.values() if it.makes_rlib()]
        if not all(it.is_built() for it in libraries):
            for it in libraries:
                shutil.rmtree(os.path.dirname(it.rlib), ignore_errors=True)

    def keep(self):
        """Marks each library that is newer than its sources and than all below it, where all below is marked by the same call.

        `rt ci` leaves no marks. It puts back a library that was there before it ran, and what it proved stands on its own.
        """
        marked = []
        for it in sorted(self.crates.values(), key=lambda crate: len(crate.below())):
            stands_on_marked = all(below.name in marked for below in it.below())
            if it.makes_rlib() and not it.is_built() and stands_on_marked and is_current(it):
                mark_as_built(it, it.stamp())
                marked.append(it.name)
        return marked


def work_of(number):
    """Returns the crate that a process of `rt ci` works on, and whether on its proof or its tests; None for another process."""
    try:
        words = pathlib.Path(f"/proc/{number}/cmdline").read_text(errors="replace").split("\0")[:-1]
    except OSError:
        return None
    # The program of a crate's tests, and what runs it.
    if run := next(filter(None, (re.fullmatch(r".*/bin/(\w+)_tests", word) for word in words)), None):
        return run[1], "tests"
    if "--crate-name" not in words:
        return None
    name = words[words.index("--crate-name") + 1]
    return name, "tests" if f"out/{name}_tests.o" in words else "proof"


def mark(library):
    """Where `rt` keeps the mark by which it knows what a library was built from."""
    return f"{os.path.dirname(library.rlib)}/stamp"


def mark_as_built(library, stamp):
    with open(mark(library), "w", encoding="utf-8") as file:
        file.write(stamp)


def changed(folders):
    """When the last of the files in folders was written, added or removed; 0 where there are none."""
    walked = (walk for folder in folders for walk in os.walk(folder))
    # A file that `rt` takes from an earlier run keeps its time, but the folder is new.
    return max((os.stat(it).st_mtime for at, _, names in walked for it in [at, *(f"{at}/{name}" for name in names)]), default=0)


def is_current(library):
    """Whether a library was built after the last change of its sources and of the libraries below it."""
    rlibs = [it.rlib for it in library.below()]
    if not all(map(os.path.isdir, [library.rlib, *rlibs])):
        return False
    return changed([library.rlib]) > changed([*(f"{library.folder}/{it}" for it in ("src", "specs", "proofs")), *rlibs])


def kit():
    """Returns the folder of the toolchain, or None where there is no `rt`."""
    if not shutil.which("rt"):
        return None
    return os.path.dirname(subprocess.run(["rt", "doc"], capture_output=True, text=True, check=True).stdout.strip())


def own_tools():
    """Returns the program of the toolchain that is all tools of LLVM, by the name that it is called, or None."""
    folder = kit()
    program = f"{folder}/toolchain/bin/clang"
    return program if folder and os.access(program, os.X_OK) else None


def chosen(name):
    """Returns the program that the variable CLANG names, if that is the tool, or None."""
    return os.environ.get("CLANG") or None if name == "clang" else None


def lacking(names):
    """Returns the tools of LLVM that neither the toolchain nor PATH has, and the one of CLANG if it can't be run."""
    own = own_tools()
    return [it for it in names if not (shutil.which(chosen(it)) if chosen(it) else own or shutil.which(it))]


def run_tool(name, *arguments, **how):
    """Runs a tool of LLVM: the one that CLANG names, the toolchain's, or else the system's."""
    if program := chosen(name):
        if not shutil.which(program):
            say(f"CLANG is {program}, which can't be run")
            sys.exit(2)
        return subprocess.run([program, *arguments], **how)
    if program := own_tools():
        return subprocess.run([name, *arguments], executable=program, **how)
    others = map(shutil.which, OTHERS.get(name, [name, name.removeprefix("llvm-")]))
    program = next(filter(None, others), None)
    if not program:
        say(f"neither a toolchain nor PATH has {name}")
        sys.exit(2)
    if kit():
        say(f"the toolchain has no {name}: taking {program}")
    return subprocess.run([program, *arguments], **how)


def main(words):
    if not words:
        sys.exit(__doc__)
    if words == ["at_once"]:
        print(at_once())
        return 0
    if words == ["clear"]:
        if made := inside("what was built stays, and may be proved again"):
            made.clear()
        return 0
    if words != ["keep"]:
        return run_tool(*words).returncode
    if made := inside("what was proved is proved again"):
        print(f"toolchain: {len(made.keep())} libraries that were proved are marked as built")
    return 0


if __name__ == "__main__":
    sys.exit(main(sys.argv[1:]))

"""Proves the libraries that a program or an archive uses, side by side, and says on standard error how far it is.

Libraries for which the most functions wait come first. How many run at a time follows from the processors and the
free memory.
"""
import concurrent.futures
import math
import os
import pathlib
import re
import subprocess
import sys
import threading
import time

import crates

TOP = crates.TOP
# What one proof is planned to take of memory, in bytes.
MEMORY_OF_A_PROOF = 4_000_000_000
# Lines of `rt` that only say how much of which library was read.
READING = re.compile("(statements|library|logic|note:) ")


def functions_in(name):
    """About how many functions a crate has, those that are derived among them."""
    text = "".join(text for _, text in crates.sources(name))
    derived = " ".join(re.findall(r"derive\(([^)]*)\)", text))
    written = re.findall(r"\bfn [a-z_0-9]+", text)
    return len(written) + len(re.findall(r"\b(PartialEq|PartialOrd|Ord|Debug|Default|Hash)\b", derived))


def at_once():
    """How many proofs the processors and the free memory have room for."""
    free = 1024 * int(re.search(r"MemAvailable:\s+(\d+)", pathlib.Path("/proc/meminfo").read_text())[1])
    return max(1, min(len(os.sched_getaffinity(0)), free // MEMORY_OF_A_PROOF))


class Progress:
    """Which crates are proved, and how far the others are."""

    def __init__(self, program, totals, uses, at_once):
        self.program, self.totals, self.uses, self.at_once = program, totals, uses, at_once
        self.proved, self.began, self.took = dict.fromkeys(totals, 0), {}, {}
        self.ended = threading.Event()

    def say(self, text):
        sys.stderr.write(f"{self.program}: {text}\n")

    def begin(self, name):
        self.began[name] = time.monotonic()
        self.say(f"proving {name}, {self.totals[name]} functions")

    def read(self, name, line):
        """Takes a line that the prover wrote while it worked on a crate."""
        if far := re.match(r"(?:so far:|checked \S+,) (\d+) of (\d+)\b", line):
            self.proved[name], self.totals[name] = int(far[1]), int(far[2])
        elif re.match(r"fn \S+: proved", line):
            self.proved[name] = min(self.proved[name] + 1, self.totals[name])

    def finish(self, name, is_proved):
        self.took[name] = time.monotonic() - self.began[name]
        self.proved[name] = self.totals[name]
        outcome = "is proved" if is_proved else "is NOT proved"
        self.say(f"{name} {outcome}, {self.totals[name]} functions in {self.took[name]:.0f} seconds; {self.left()}")

    def pace(self):
        """The seconds that a function took in the crates that are done; 0 without any."""
        return sum(self.took.values()) / sum(map(self.totals.get, self.took)) if self.took else 0

    def open(self, name):
        """How many functions of a crate are left. The prover doesn't always say: then the time that has passed does."""
        if name in self.took:
            return 0
        passed = time.monotonic() - self.began.get(name, time.monotonic())
        guessed = min(passed / self.pace(), 0.9 * self.totals[name]) if self.took else 0
        return self.totals[name] - max(self.proved[name], guessed)

    def chain(self, name):
        """How many functions are left of a crate and, one after another, of those that wait for it."""
        return self.open(name) + max((self.chain(it) for it in self.totals if name in self.uses[it]), default=0)

    def left(self):
        """The minutes that are left at the pace so far; where they are few or unknown, the crates that are."""
        names = [it for it in self.totals if it not in self.took]
        minutes = math.ceil(self.pace() * max(map(self.chain, names), default=0) / 60)
        return f"about {minutes} minutes left" if minutes > 1 else f"left: {' '.join(names) or 'none'}"

    def tell(self):
        while not self.ended.wait(30):
            proved, total = sum(self.proved.values()), sum(self.totals.values())
            self.say(f"{proved} of about {total} functions proved, {self.left()}")

    def run(self, name, words, folder, given=b""):
        """Runs a command of the toolchain in a crate's folder. Its status, and its lines but those on reading."""
        streams = {"stdin": subprocess.PIPE, "stdout": subprocess.PIPE, "stderr": subprocess.STDOUT}
        lines = []
        with subprocess.Popen(words, cwd=folder, **streams) as ran:
            ran.stdin.write(given)
            ran.stdin.close()
            for line in ran.stdout:
                line = line.decode(errors="replace").rstrip("\n")
                self.read(name, line)
                if not READING.match(line):
                    lines.append(line)
        return ran.returncode, lines


def prove_library(inside, library, jobs, progress):
    """Proves a library over those that were proved before it."""
    progress.begin(library.name)
    status, lines = inside.prove_library(library, jobs, lambda words, folder: progress.run(library.name, words, folder))
    progress.finish(library.name, status == 0)
    return status, lines


def prove_libraries(inside, libraries, progress):
    """Proves libraries, each as soon as those that it uses are. The lines of one that failed, or none."""
    waiting, running = sorted(libraries, key=lambda it: progress.chain(it.name), reverse=True), {}
    with concurrent.futures.ThreadPoolExecutor(progress.at_once) as pool:
        while waiting or running:
            under_way = {*waiting, *(library for library, _ in running.values())}
            free = max(0, progress.at_once - sum(jobs for _, jobs in running.values()))
            ready = [it for it in waiting if under_way.isdisjoint(it.below())][:free]
            last = max((it.name for it in under_way), key=progress.chain, default=None)
            for it in ready:
                # Processors that have nothing else to do help with a library. All help with the one for which the most
                # functions wait, also while others run: once it runs, it can't be given more.
                jobs = progress.at_once if it.name == last else free // len(ready)
                waiting.remove(it)
                running[pool.submit(prove_library, inside, it, jobs, progress)] = it, jobs
            done, _ = concurrent.futures.wait(running, return_when=concurrent.futures.FIRST_COMPLETED)
            for it in done:
                (library, _), (status, lines) = running.pop(it), it.result()
                if status:
                    waiting.clear()
                    return lines or [f"the proof of {library.name} ended with status {status}"]
    return []


def to_prove(libraries):
    """Those of the libraries, each after what it uses, that aren't built, or use one that isn't."""
    found = []
    for it in libraries:
        if not it.is_built() or not set(found).isdisjoint(it.below()):
            found.append(it)
    return found


def prove(name, inside, finish):
    """Proves the libraries of a crate, then calls `finish` with the progress. Returns the status, and the lines of what failed.

    Without the toolchain's own functions, `finish` proves the libraries too.
    """
    uses = crates.read()
    libraries = to_prove(inside.crates[name].below()) if inside else []
    totals = {it.name: functions_in(it.name) for it in libraries}
    totals[name] = functions_in(name) if inside else sum(map(functions_in, [*crates.below(uses, name), name]))
    progress = Progress(name, totals, {it: uses[it].uses for it in totals}, at_once())
    teller = threading.Thread(target=progress.tell)
    teller.start()
    try:
        if libraries:
            with inside.locked(inside.crates[name].below()):
                if lines := prove_libraries(inside, libraries, progress):
                    return 1, lines
        progress.begin(name)
        status, lines = finish(progress)
        progress.finish(name, status == 0)
        return status, lines
    finally:
        progress.ended.set()
        teller.join()

"""The stack that calls of the library for C take: by what they wrote to, no more than tools/inspect_archive says."""
import re
import subprocess

from telling import TOP, tells

SOURCE = "tests/c_interface/stack.c"
LOG = f"{TOP}/samples/ovmf-efi-event.log"
# What docs/FIRMWARE.md says of the calls without a bound, those of texts.
WITHOUT_BOUND = 4096


def stated(archive):
    """How many bytes of the stack a call of each function takes, as tools/inspect_archive says."""
    ran = subprocess.run([f"{TOP}/tools/inspect_archive", archive], stdout=subprocess.PIPE, text=True, check=False)
    bounds = re.findall(r"^(\w+): (?:(\d+) bytes of stack|stack without a bound)$", ran.stdout, re.M)
    return {name: int(count or WITHOUT_BOUND) for name, count in bounds}


def rows(name, archive, program):
    """Whether no call of a program over an archive takes more. `program` returns its exit status and what it prints."""
    status, printed, *_ = program(LOG)
    taken = [(call, int(count)) for call, count in re.findall(r"^(\w+) (\d+)$", (printed or b"").decode(), re.M)]
    most = stated(archive)
    above = [f"{call} takes {count}, {most.get(call)} are stated" for call, count in taken if count > most.get(call, 0)]
    yield tells(f"{name}, the stack of {len(taken)} calls", (status, bool(taken), above), (0, True, []))

"""What `c/examples/replay.c` has to say of logs that are whole, and of others."""
import struct
from pathlib import Path

import c_statuses
from telling import TOP

LOG = f"{TOP}/samples/ovmf-efi-event.log"
# The offset of the log's last event, and that of the one before it.
LAST, BEFORE = 4792, 4600
SHA256 = "11"


def little(*numbers):
    return struct.pack(f"<{len(numbers)}I", *numbers)


def many_rows(count):
    """A log that is a header alone, with so many rows."""
    header = b"Spec ID Event03\0" + bytes(8) + little(count) + bytes(4 * count) + b"\0"
    return little(0, 3) + bytes(20) + little(len(header)) + header


def end_of_events(log):
    """Where the last whole event of a version 1 log ends."""
    at = 0
    while len(log) - at >= 32 and len(log) - at - 32 >= (length := struct.unpack_from("<I", log, at + 28)[0]):
        at += 32 + length
    return at


def write(room, name, content):
    """The path of a file with this content."""
    path = Path(f"{room}/{name}")
    path.write_bytes(content)
    return str(path)


def refused(room):
    """The arguments of each run over what is no whole log, and the message."""
    log, program = Path(LOG).read_bytes(), Path("/bin/ls").read_bytes()[:4096]
    runs = {
        (write(room, "empty", b""), SHA256): (0, c_statuses.NO_EVENT),
        (write(room, "program", program), SHA256): (end_of_events(program), c_statuses.LEFT_OVER),
        (write(room, "cut", log[:-1]), SHA256): (LAST, c_statuses.LEFT_OVER),
        (write(room, "rows", many_rows(257)), SHA256): (0, c_statuses.TOO_MANY_ALGORITHMS),
        (LOG, SHA256, str(LAST - 1)): (BEFORE, c_statuses.LEFT_OVER),
        (write(room, "between", log[:BEFORE]), SHA256, str(LAST)): (BEFORE, c_statuses.LEFT_OVER),
        (write(room, "until", log[:LAST]), SHA256, str(LAST)): (LAST, c_statuses.LEFT_OVER),
        (LOG, SHA256, str(1 << 30)): (len(log), c_statuses.LEFT_OVER),
        (LOG, SHA256, "1"): (0, c_statuses.NO_EVENT),
    }
    found = {given: f"replay: this is no whole log, at {at}: {why}\n".encode() for given, (at, why) in runs.items()}
    return found | {(LOG, "39"): f"replay: algorithm 39: {c_statuses.NO_HASH}\n".encode()}


def whole(room):
    """The arguments of each run over the log, or what is as good."""
    log = Path(LOG).read_bytes()
    yield LOG, SHA256
    yield LOG, SHA256, str(LAST)
    yield write(room, "zeros", log + bytes(100)), SHA256
    yield write(room, "ones", log + b"\xff" * 7), SHA256
    yield write(room, "more", log + b"more"), SHA256, str(LAST)

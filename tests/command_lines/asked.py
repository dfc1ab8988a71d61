"""What arguments ask for, and which are wrong, stated by hand from docs/AUDIT.md and docs/FORMATS.md.

`asked` has a command line after `$`, in the words of bash, and what shows that the program does what it asks for: after
`>` a text that is in standard output, after `>-` one that isn't, after `!` one that is in standard error, after `=` the
status. `wrong` has a command line a row: it ends with status 2, and prints to standard error alone.

The logs are made here, but for those of `run`: their events and what is asked of them are chosen so that another
number, bank, file or format prints something else.
"""
import hashlib
import os
import re
import shutil
import struct
from pathlib import Path

from telling import tells

HERE = Path(os.path.realpath(__file__)).parent
ACTION, NO_ACTION = 5, 3
SHA1, SM3 = (4, 20), (0x12, 32)
# Names beside those that `run` gives files.
SAME = {"pcrs": "pcrs.txt", "q": "a.quote", "c.log": "b.log"}


def event_v1(pcr, kind, digest, data):
    """An event of a version 1 log."""
    return struct.pack("<II20sI", pcr, kind, digest, len(data)) + data


def log_v2(algorithms, algorithm, digest, data):
    """A version 2 log under a header with these algorithms, of one event, of PCR 4."""
    rows = b"".join(struct.pack("<HH", *row) for row in algorithms)
    header = b"Spec ID Event03\0" + struct.pack("<IBBBBI", 0, 0, 2, 0, 2, len(algorithms)) + rows + b"\0"
    event = struct.pack("<IIIH", 4, ACTION, 1, algorithm) + digest + struct.pack("<I", len(data)) + data
    return event_v1(0, NO_ACTION, bytes(20), header) + event


def fill(room):
    """Writes the files and folders that the rows name."""
    for name, other in SAME.items():
        shutil.copy(f"{room}/{other}", f"{room}/{name}")
    for name in ("three", "rows", "sm3", "trailing", "apart"):
        os.mkdir(f"{room}/{name}")
    sha1 = hashlib.sha1(b"ab").digest()
    # Three events of 34 bytes, and padding.
    Path(f"{room}/three/a.log").write_bytes(3 * event_v1(4, ACTION, sha1, b"ab") + bytes(6))
    others = [(0x8000 + number, 1) for number in range(256)]
    Path(f"{room}/rows/a.log").write_bytes(log_v2([SHA1, *others], SHA1[0], sha1, b"ab"))
    Path(f"{room}/sm3/a.log").write_bytes(log_v2([SM3], SM3[0], bytes(32), b"ab"))
    for name in ("a.log", "b.log"):
        Path(f"{room}/trailing/{name}").write_bytes(Path(f"{room}/{name}").read_bytes() + b"trailing")
    # PCRs 8 and 14 aren't those of the log.
    shutil.copy(f"{room}/a.log", f"{room}/apart/a.log")
    pcrs = Path(f"{room}/pcrs").read_text()
    Path(f"{room}/apart/pcrs").write_text(re.sub(r"^( +(8 |14): 0x)00", r"\g<1>01", pcrs, flags=re.MULTILINE))


def asked():
    """The command lines of `asked`, each with its marks and texts."""
    found = {}
    for line in (HERE / "asked").read_text().splitlines():
        mark, _, text = line.partition(" ")
        if mark == "$":
            facts = found.setdefault(text, [])
        elif mark and mark != "#":
            facts.append((mark, text))
    return found


def differing(facts, ended):
    """The facts that don't hold of how a program ended."""
    status, out, err = ended
    holds = {
        ">": lambda text: text in out,
        ">-": lambda text: text not in out,
        "!": lambda text: text in err,
        "=": lambda text: text == str(status),
    }
    return [f"{mark} {text}" for mark, text in facts if not holds[mark](text)]


def outcomes(ends):
    """Whether each command line ends as stated, by a function that runs one."""
    for row, facts in asked().items():
        ended = ends(row)
        wrong = differing(facts, ended)
        yield tells(row, (wrong, ended) if wrong else [], [])
    for row in (HERE / "wrong").read_text().splitlines():
        if row and not row.startswith("#"):
            status, out, err = ends(row)
            yield tells(f"{row}, which asks for nothing", (status, out, bool(err)), (2, "", True))

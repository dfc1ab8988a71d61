r"""Golden cases: what a program is given, and what it has to print. The cases of a program are in the tables of a folder.

A table is a text. A line at its margin begins a case, or bytes that cases share. What belongs to it is indented by two
spaces or more. Empty lines, and lines that begin with `#`, are for the reader.

    # A comment.
    TWO_NODES = a0b0 0600 0a0b  a1b1 0600 0c0d  7fff 0400

    case path-of-two-nodes
      $ path /dev/stdin
      < TWO_NODES
      > instance 16
      >   a0 b0 0a0b
      >   a1 b1 0c0d
      > path 16

    case stride-of-zero
      $ map memory.map 0
      file memory.map = 00*48
      > refused InvalidSize
      = 1

| line | has |
|---|---|
| `$ WORDS` | the arguments, as a shell splits them |
| `< BYTES` | standard input |
| `file NAME = BYTES` | a file of the folder that the program runs in |
| `samples NAME..` | files of `samples/` that are in the folder too |
| `> LINE` | a line of standard output |
| `! LINE` | a line of standard error |
| `stdout = BYTES`, `stderr = BYTES` | the same as bytes |
| `= NUMBER` | the exit status, if it isn't 0 |
| `source TEXT` | where the expected output comes from |

What is given twice is joined, in order. The only line `*` of a stream is any text but none.

BYTES are pieces with spaces between them: hex digits; a text, such as `"Exit Boot Services"`, or `u"Boot0001"` in
UTF-16LE; the name of shared bytes; or `samples/NAME`. `PIECE*3` is a piece three times. More pieces follow on lines that
are indented further, where `| LINE` is a line of a text. A name is valid in all tables of the folder.

In a line, a text and an argument `\\` is a backslash and `\x1b` a byte, in a text `\n` also a line break and `\"` a quote.
A line that ends with `\` has no line break: so is one written that is too long, or that ends the output without one.

`tests/audit/run CASE..`, and likewise those of `boot` and `program`, tries cases with the proved program. Where it isn't
built, it is proved first, which takes long. `--programs DIR`, before the cases, has another one: that of `rust/programs`, by
cargo.

`tests/case_table.py TABLES FOLDER CASE..` writes what cases are given: for each a folder of its name, in which `words` has
each argument before a zero byte, `stdin` standard input, and `files` the files.
"""
import re
import shlex
import sys
from pathlib import Path

TOP = Path(__file__).resolve().parent.parent
# A text, or hex or a name, perhaps so many times.
PIECE = re.compile(r'(?:(?P<wide>u?)"(?P<text>(?:[^"\\]|\\.)*)"|(?P<word>[^\s"*]+))(?:\*(?P<count>\d+))?(?:\s+|$)')
ESCAPE = re.compile(rb'\\(?:x([0-9a-f]{2})|(.)|$)')
ESCAPED = {b"\\": b"\\", b'"': b'"', b"n": b"\n"}
# A stream that may have any text but none.
ANY = b"*\n"


def unescaped(text):
    """The bytes of a text with escapes."""
    return ESCAPE.sub(lambda it: bytes.fromhex(it[1].decode()) if it[1] else ESCAPED[it[2]], text.encode())


def line_bytes(text):
    """The bytes of a line of a stream, with its line break if it has one."""
    has_break = (len(text) - len(text.rstrip("\\"))) % 2 == 0
    return unescaped(text) + b"\n" if has_break else unescaped(text[:-1])


def shown(stream):
    """The text of a stream with escapes: of each backslash, of each byte that doesn't print, and of a line's last space."""
    def escape(character):
        return "".join(f"\\x{byte:02x}" for byte in character.encode(errors="surrogateescape"))

    text = stream.decode(errors="surrogateescape").replace("\\", "\\\\")
    text = "".join(it if it.isprintable() or it == "\n" else escape(it) for it in text)
    return re.sub(" $", r"\\x20", text, flags=re.M)


def lines_of(stream, mark):
    """The lines of a stream as a table has them, each after a mark."""
    *lines, last = shown(stream).split("\n")
    lines += [f"{last}\\"] if last else []
    return [f"{mark} {line}" if line else mark for line in lines]


def blocks(lines):
    """Each line that isn't indented, with the lines below it that are, without two spaces of their indent."""
    found = []
    for line in lines:
        if line.startswith("  ") and line.strip() and found:
            found[-1][1].append(line[2:])
        elif line.strip() and not line.startswith("#"):
            found.append((line, []))
    return found


class Shared:
    """The bytes that cases share, by their names: lines of pieces, which are read where they are asked for."""

    def __init__(self):
        self.lines = {}

    def piece(self, found):
        """The bytes of a piece."""
        word, text = found["word"], found["text"]
        if text is not None:
            made = unescaped(text)
            made = made.decode().encode("utf-16-le") if found["wide"] else made
        elif word in self.lines:
            made = self.joined(self.lines[word])
        elif word.startswith("samples/"):
            made = (TOP / word).read_bytes()
        elif re.fullmatch("([0-9a-f]{2})+", word):
            made = bytes.fromhex(word)
        else:
            raise ValueError(f"{word} is neither hex nor the name of shared bytes")
        return made * int(found["count"] or 1)

    def line(self, line):
        """The bytes of a line of pieces, or of text."""
        line = line.strip(" ")
        if line == "|" or line.startswith("| "):
            return line_bytes(line[2:])
        if "".join(it[0] for it in PIECE.finditer(line)) != line:
            raise ValueError("these are no bytes")
        return b"".join(self.piece(it) for it in PIECE.finditer(line))

    def joined(self, lines):
        """The bytes of lines of pieces."""
        return b"".join(self.line(it) for it in lines if not it.lstrip().startswith("#"))


class Case:
    """What a program is given: arguments, standard input, files by their names, names of samples; and what it has to end
    with."""

    def __init__(self, name):
        self.name, self.args, self.stdin, self.files, self.samples = name, [], b"", {}, []
        self.status, self.stdout, self.stderr, self.source = 0, b"", b"", []

    def add(self, line, more, shared):
        """Adds a line of a table, and those below it that are indented further."""
        mark, _, rest = line.partition(" ")
        if mark == "$":
            self.args = [unescaped(it) for it in shlex.split(rest)]
        elif mark == "<":
            self.stdin += shared.joined([rest, *more])
        elif mark == "file":
            name, _, pieces = rest.partition(" =")
            self.files[unescaped(*shlex.split(name))] = shared.joined([pieces, *more])
        elif mark == "samples":
            self.samples += rest.split()
        elif mark == "source":
            self.source.append(rest)
        elif mark == "=":
            self.status = int(rest)
        else:
            self.expect(mark, rest, more, shared)

    def expect(self, mark, rest, more, shared):
        """Adds a line of a stream."""
        if mark in ("stdout", "stderr") and rest[:1] == "=":
            made = shared.joined([rest[1:], *more])
        elif mark in (">", "!") and not more:
            made = line_bytes(rest)
        else:
            raise ValueError("a case has no such line")
        if mark in (">", "stdout"):
            self.stdout += made
        else:
            self.stderr += made

    def write(self, folder):
        """Writes the files that the program runs beside."""
        named = {Path(name.decode(errors="surrogateescape")): made for name, made in self.files.items()}
        named |= {Path(name): (TOP / "samples" / name).read_bytes() for name in self.samples}
        Path(folder).mkdir(parents=True, exist_ok=True)
        for name, made in named.items():
            path = Path(folder) / name
            path.parent.mkdir(parents=True, exist_ok=True)
            path.write_bytes(made)

    def end(self):
        """The status and the streams that the program has to end with."""
        return self.status, self.stdout, self.stderr


def end_lines(end):
    """The lines of a table for a status and two streams."""
    status, out, err = end
    return [*lines_of(out, ">"), *lines_of(err, "!"), f"= {status}"]


def case_of(path, name, lines, shared):
    """Returns the case of the lines below its name."""
    case = Case(name)
    for line, more in blocks(lines):
        try:
            case.add(line, more, shared)
        except (ValueError, KeyError, TypeError, OSError) as fault:
            sys.exit(f"{path}: case {name}: {line}: {fault}")
    return case


def cases(folder):
    """The cases of a folder's tables by their names, in order."""
    shared, found = Shared(), {}
    for path in sorted(Path(folder).glob("*.table")):
        for head, lines in blocks(path.read_text(encoding="utf-8").split("\n")):
            kind, _, rest = head.partition(" ")
            where, name = (found, rest) if kind == "case" else (shared.lines, kind)
            if name in where or kind != "case" and rest[:1] != "=":
                sys.exit(f"{path}: {head}: there is another of this name, or this is no case and no shared bytes")
            where[name] = (path, lines) if kind == "case" else [rest[1:], *lines]
    return {name: case_of(path, name, lines, shared) for name, (path, lines) in found.items()}


def main(tables, folder, *names):
    """Writes what cases are given."""
    found = cases(tables)
    for name in names:
        room = Path(folder, name)
        found[name].write(room / "files")
        (room / "words").write_bytes(b"".join(it + b"\0" for it in found[name].args))
        (room / "stdin").write_bytes(found[name].stdin)


if __name__ == "__main__":
    main(*sys.argv[1:])

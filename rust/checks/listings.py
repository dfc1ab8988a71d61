"""Listings of the proved uefi_list and uefi_boot, and of those of the package rust/programs, over the same inputs."""
import os
import random
import struct
import subprocess
import sys
import tempfile
from concurrent.futures import ThreadPoolExecutor
from pathlib import Path

TOP = os.path.dirname(os.path.dirname(os.path.dirname(os.path.realpath(__file__))))
sys.path[:0] = [f"{TOP}/tests", f"{TOP}/tools"]
from case_table import cases
from golden import build
from telling import tells

# For each program the folder of its cases, one in how many listings at least is no refusal, and the arguments after FILE
# that each command, with its options, is tried with, over files of any kind.
PROGRAMS = {
    "uefi_list": ("program", 4, {
        "path": [[]], "time": [[]], "pci": [[]], "config": [[]], "info": [["0"], ["80"], ["LENGTH"]],
        "map": [["40"], ["48"], ["41"]], **{log: [["LENGTH"], ["81"], ["5294"], ["-"]] for log in ("log1", "log2", "log2after")},
    }),
    "uefi_boot": ("boot", 8, {"text": [[]], "text --json": [[]], "option": [[]], "option --json": [[]]}),
}
MUTATED = 300
SEED = 46


def proved(name):
    """The proved program, without the script that runs it."""
    return f"{TOP}/crates/{name}/out/{name}"


def mutated(rng, row):
    """Changes some bytes, of which there is one or more."""
    row = bytearray(row * rng.choice([1, 1, 2]))
    for _ in range(rng.randint(1, 4)):
        row[rng.randrange(len(row))] = rng.choice([0, 1, 2, 4, 8, 0x7F, 0x80, 0xFF, rng.randrange(256)])
    return bytes(row)


def of_files(name):
    """What both programs are given as standard input: (command with its options, arguments after FILE, bytes)."""
    folder, _, commands = PROGRAMS[name]
    known = cases(f"{TOP}/tests/{folder}/cases").values()
    rows = []
    for it in known:
        if it.stdin and b"/dev/stdin" in it.args:
            command, _, words = b" ".join(it.args).decode().partition(" /dev/stdin")
            rows.append((command, words.split(), it.stdin))
    files = list(dict.fromkeys(row for _, _, row in rows))
    files += [path.read_bytes() for path in sorted(Path(f"{TOP}/samples").rglob("*")) if path.is_file()]
    yield from rows
    for row in files:
        yield from ((command, words, row) for command in commands for words in commands[command])
    for command, words, row in rows:
        if len(row) < 130 and len(set(row)) > 1:
            yield from ((command, words, row[:length]) for length in range(len(row)))
    rng = random.Random(SEED)
    for _ in range(MUTATED):
        command, words, row = rng.choice(rows)
        yield command, words, mutated(rng, row)


def of_texts():
    """The arguments of `uefi_boot path`: the texts of its cases, each prefix of one, and mutated ones."""
    known = cases(f"{TOP}/tests/boot/cases").values()
    texts = [it.args[1] for it in known if it.args[:1] == [b"path"] and len(it.args) == 2]
    longest = max(texts, key=len)
    rng = random.Random(SEED)
    changed = [bytearray(rng.choice([it for it in texts if it])) for _ in range(MUTATED)]
    for text in changed:
        text[rng.randrange(len(text))] = rng.choice(longest)
    given = [*texts, *(longest[:length] for length in range(len(longest))), *changed]
    return [[*command, bytes(it)] for command in (["path"], ["path", "--json"]) for it in given]


def of_folders(room):
    """The arguments of `uefi_boot list`, over folders that this makes: those of its cases, and some of mutated files."""
    known = cases(f"{TOP}/tests/boot/cases")
    folders = [name for name, it in known.items() if it.args == [b"list", b"efivars"]]
    for name in folders:
        known[name].write(f"{room}/{name}")
    rng = random.Random(SEED)
    options = [row for it in known.values() for name, row in it.files.items() if row and b"/Boot0" in name]
    for name in map(str, range(MUTATED // 30)):
        os.mkdir(f"{room}/{name}")
        for number in range(MUTATED):
            Path(room, name, f"Boot{number:04X}").write_bytes(mutated(rng, rng.choice(options)))
        order = struct.pack("<I4H", 7, *(rng.randrange(MUTATED + 2) for _ in range(4)))
        Path(room, name, "BootOrder").write_bytes(rng.choice([order, mutated(rng, order)]))
    made = [*(f"{room}/{name}/efivars" for name in folders), *(f"{room}/{it}" for it in range(MUTATED // 30))]
    return [[*command, folder] for command in (["list"], ["list", "--json"]) for folder in made]


def end_of(program, words, row=b""):
    """The status and the streams that a program ends with."""
    ran = subprocess.run([program, *words], input=row, stdout=subprocess.PIPE, stderr=subprocess.PIPE, check=False)
    return ran.returncode, ran.stdout, ran.stderr


def inputs(name, room):
    """What both programs are given: (arguments, standard input)."""
    for command, words, row in of_files(name):
        yield [*command.split(), "/dev/stdin", *(it.replace("LENGTH", str(len(row))) for it in words)], row
    if name == "uefi_boot":
        yield from ((words, b"") for words in [*of_texts(), *of_folders(room)])


def agree(label, folder):
    """Whether the programs of a folder print what the proved ones print, and enough of it is listings."""
    for name, (_, least, _) in PROGRAMS.items():
        build(name)
        with tempfile.TemporaryDirectory(prefix="listings-") as room, ThreadPoolExecutor(os.cpu_count()) as threads:
            given = list(inputs(name, room))
            mine, theirs = (list(threads.map(lambda it: end_of(program, *it), given)) for program in (f"{folder}/{name}", proved(name)))
        different = [(*case, one, other) for case, one, other in zip(given, mine, theirs) if one != other]
        yield tells(f"{label}{len(given)} listings are those of the proved {name}", different[:1], [])
        yield tells(f"{label}more than one in {least} is no refusal", sum(ended[0] == 0 for ended in theirs) > len(given) / least)


def ends_well(name, command, folder, target, **more):
    """Whether a command ends with status 0 in a folder, with a folder for what cargo makes; and what it wrote."""
    environment = {**os.environ, "CARGO_TARGET_DIR": target, "CARGO_NET_OFFLINE": "true", **more}
    ran = subprocess.run(command, cwd=folder, env=environment, stdout=subprocess.PIPE, stderr=subprocess.STDOUT, text=True, check=False)
    if ran.returncode:
        lines = [line for line in ran.stdout.splitlines() if not line.endswith(": as expected")]
        print("\n".join(lines)[-3000:])
    return tells(name, ran.returncode, 0), ran.stdout

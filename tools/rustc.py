"""The rustc that compiles `rust/`: the oldest version that may, as rust/Cargo.toml has it, the oldest that compiles `core`
for an archive, and the version of a program."""
import os
import re
import subprocess

TOP = os.path.dirname(os.path.dirname(os.path.realpath(__file__)))
# The options by which rust/capi/build_archive compiles `core` aren't stable: an older rustc hasn't all of them.
OLDEST_OF_CORE = "1.95"


def oldest():
    """Returns the oldest version that compiles the packages, as `1.85`."""
    with open(f"{TOP}/rust/Cargo.toml", encoding="utf-8") as file:
        return re.search(r'^rust-version = "(.*)"$', file.read(), re.M)[1]


def numbers(version):
    return [int(it) for it in re.findall(r"\d+", version)[:2]]


def version(rustc, least=None):
    """Returns what a rustc prints as its version, and why it can't compile `rust/`, or None if it can. `least` is the oldest
    version for something else."""
    try:
        ran = subprocess.run([rustc, "--version"], capture_output=True, text=True, check=False)
    except OSError as error:
        return "", f"{rustc} can't be run: {error.strerror}"
    # A library of it may be missing.
    if ran.returncode:
        return "", f"{rustc} --version fails: {ran.stderr.strip()}"
    found, least = ran.stdout.strip(), least or oldest()
    return found, None if numbers(found) >= numbers(least) else f"{rustc} is {found}, older than {least}"


def source(rustc):
    """Returns the folder where the source of a rustc's libraries is, if it is installed."""
    ran = subprocess.run([rustc, "--print", "sysroot"], stdout=subprocess.PIPE, text=True, check=True)
    return f"{ran.stdout.strip()}/lib/rustlib/src/rust/library"

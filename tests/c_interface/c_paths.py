"""The inline function uefi_path_at of the library for C, before a page that can't be read. It needs no archive."""
import os
import shutil
import subprocess
import tempfile

from telling import TOP, tells

SOURCE = f"{TOP}/tests/c_interface/path_at.c"
FLAGS = "-std=gnu11 -Wall -Wextra -Werror -ffreestanding -fno-stack-protector -fno-builtin -fno-pie".split()
LEVELS = ["-O0", "-O2", "-O3"]
TOOLCHAIN = f"{TOP}/tools/toolchain.py"
TARGETS = ["x86_64-linux-gnu", "i686-linux-gnu"]


def compilers():
    """The words of each compiler: the toolchain's clang for each processor that runs here, and those of the machine."""
    own = ["-nostdinc", f"-isystem{TOP}/tests/c_headers"]
    return [*([TOOLCHAIN, "clang", f"--target={it}", *own] for it in TARGETS), *([it] for it in ("gcc", "clang") if shutil.which(it))]


def outcome(words, include, level):
    """The exit status of the program as a compiler has it, or what the compiler complains of."""
    with tempfile.TemporaryDirectory(prefix="c_paths-") as room:
        ran = subprocess.run([*words, *FLAGS, level, "-I", include, "-c", "-o", f"{room}/path_at.o", SOURCE], capture_output=True, text=True)
        if ran.returncode:
            return ran.stderr + ran.stdout
        subprocess.run([TOOLCHAIN, "ld.lld", "-static", "-o", f"{room}/path_at", f"{room}/path_at.o"], check=True)
        return subprocess.run([f"{room}/path_at"], check=False).returncode


def rows(include):
    """Whether the function reads no byte too many and returns what it should, by each compiler and as it optimizes."""
    for words in compilers():
        found = {level: outcome(words, include, level) for level in LEVELS}
        name = " ".join(os.path.basename(it) for it in words if not it.startswith(("-nostdinc", "-isystem")))
        yield tells(f"uefi_path_at by {name}", found, dict.fromkeys(LEVELS, 0))

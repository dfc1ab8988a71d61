"""Programs of one call over an archive of the library for C: a linker leaves out what they don't use, and firmware loads
one that has all."""
import os
import shutil
import struct
import subprocess
import tempfile

from telling import TOP, tells

SOURCE = f"{TOP}/tests/c_interface/one_call.c"
TOOLCHAIN = f"{TOP}/tools/toolchain.py"
FLAGS = f"-std=c11 -Wall -Wextra -Werror -O2 -ffreestanding -fno-stack-protector -mno-red-zone -nostdinc -isystem {TOP}/tests/c_headers".split()
EFI, LINUX = ["--target=x86_64-unknown-windows"], ["--target=x86_64-linux-gnu", "-DLINUX"]
CALLS = ["uefi_path", "uefi_path_next_node"]
MOST_BYTES = 12 << 10


def run(*words):
    """Runs a command, which has to end well."""
    subprocess.run(words, check=True)


def compile_to(made, prefix, words):
    """Compiles the program for a target."""
    run(TOOLCHAIN, "clang", *words, *FLAGS, "-I", f"{prefix}/include", "-c", "-o", made, SOURCE)


def of_linux(room, prefix, archive):
    """The exit status of a program for Linux, and its bytes."""
    program = f"{room}/one_call"
    compile_to(f"{program}.o", prefix, LINUX)
    run(TOOLCHAIN, "ld.lld", "-static", "-s", "--gc-sections", "-o", program, f"{program}.o", archive)
    return subprocess.run([program], check=False).returncode, os.path.getsize(program)


def of_efi(room, prefix, formats):
    """The path of a program for EFI, linked as docs/FIRMWARE.md has it."""
    program = f"{room}/one_call.efi"
    compile_to(f"{program}.o", prefix, EFI)
    link = ["ld", "-m", "i386pep", "--subsystem", "10", "-e", "efi_main", "-s", "-o", program]
    run(*link, f"{program}.o", "-b", "elf64-x86-64", formats)
    return program


def called_part(room, archive):
    """What a program for EFI needs of an archive."""
    run("ld", "-r", "--gc-sections", *(word for it in CALLS for word in ("-u", it)), "-o", f"{room}/formats.o", archive)
    return f"{room}/formats.o"


def is_loaded(program):
    """Whether the headers of a program for EFI end before its first section, as firmware wants: those of very many sections
    don't."""
    with open(program, "rb") as file:
        content = file.read()
    optional = struct.unpack_from("<I", content, 0x3c)[0] + 24
    alignment, headers = struct.unpack_from("<I", content, optional + 32)[0], struct.unpack_from("<I", content, optional + 60)[0]
    return headers <= alignment


def rows(name, prefix, archive):
    """Whether programs that read paths are small."""
    with tempfile.TemporaryDirectory(prefix="c_sections-") as room:
        yield from rows_in(room, name, prefix, archive)


def rows_in(room, name, prefix, archive):
    """The same, with a folder for what is made."""
    status, size = of_linux(room, prefix, archive)
    yield tells(f"{name}, a program for Linux that reads a path", (status, size < MOST_BYTES), (0, True))
    if not shutil.which("ld"):
        print("skipped: tests/c_interface: a program for EFI that reads a path: binutils isn't installed", flush=True)
        return
    size = os.path.getsize(of_efi(room, prefix, called_part(room, archive)))
    yield tells(f"{name}, an EFI program that reads a path, of {size} bytes", size < MOST_BYTES)
    yield tells(f"{name}, an EFI program with the whole archive is loaded", is_loaded(of_efi(room, prefix, archive)))

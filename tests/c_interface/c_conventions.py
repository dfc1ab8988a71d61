"""Calls of the library for C by compilers whose functions follow another calling convention than the archive does."""
import os
import shutil
import subprocess
import tempfile

from telling import TOP, tells

SOURCE = f"{TOP}/tests/c_interface/calls.c"
FLAGS = "-std=gnu11 -Wall -Wextra -Werror -O2 -ffreestanding -fno-stack-protector -fno-builtin -fshort-wchar -nostdinc"
TOOLCHAIN = f"{TOP}/tools/toolchain.py"
# clang for Windows writes ELF where it is asked to, so that its programs run here. The first has Microsoft's extensions,
# with which gnu-efi's headers make `__attribute__` a macro.
WINDOWS = ["--target=x86_64-pc-windows-msvc-elf"], ["--target=x86_64-w64-windows-gnu-elf"]
TARGETS = {"x86_64": [["--target=x86_64-linux-gnu"], *WINDOWS], "i686": [["--target=i686-linux-gnu"], ["--target=i686-linux-gnu", "-mregparm=3"]]}
OF_GCC = {"x86_64": [[], ["-mabi=ms"]], "i686": []}
# What a program may include beside the header, and where gnu-efi's headers are wanted for it. In Linux there are no
# others than its own.
KERNEL = ["-D__KERNEL__"]
WITHOUT_EFI = [], ["-DMACRO"], KERNEL
WITH_EFI = ["-DEFI_FIRST"], ["-DEFI_LAST"]
# What no archive can be called by, and a word of what the header says of it.
REFUSED = {("--target=x86_64-linux-gnux32",): "x32", ("--target=x86_64-linux-gnu", "-D__attribute(x)="): "before the header"}


def compilers(processor):
    """The words of each compiler with its options: the toolchain's clang, and those of the machine."""
    clangs = [[TOOLCHAIN, "clang"], *([it] for it in ["clang"] if shutil.which(it))]
    gccs = [["gcc"]] if shutil.which("gcc") else []
    return [[*it, *words] for it in clangs for words in TARGETS[processor]] + [[*it, *words] for it in gccs for words in OF_GCC[processor]]


def folders(include, efi, words):
    """The folders of headers: the library's, those of the tests, and gnu-efi's where they are; or Linux's."""
    systems = [f"{TOP}/tests/c_headers", *([efi, f"{efi}/x86_64"] if efi else [])]
    if set(KERNEL) <= set(words):
        systems = [f"{TOP}/tests/c_interface/kernel"]
    return ["-I", include, *(f"-isystem{it}" for it in systems)]


def compiled(words, made, include, efi):
    """What a compiler says of the source, or None if it has no complaint."""
    ran = subprocess.run([*words, *FLAGS.split(), *folders(include, efi, words), "-c", "-o", made, SOURCE], capture_output=True, text=True)
    return ran.stderr + ran.stdout if ran.returncode else None


def outcome(words, prefix, archive, efi):
    """The exit status of the calls as a compiler has them, or what it complains of."""
    with tempfile.TemporaryDirectory(prefix="c_conventions-") as room:
        if complaint := compiled(words, f"{room}/calls.o", f"{prefix}/include", efi):
            return complaint
        subprocess.run([TOOLCHAIN, "ld.lld", "-static", "-o", f"{room}/calls", f"{room}/calls.o", archive], check=True)
        return subprocess.run([f"{room}/calls"], check=False).returncode


def rows(name, prefix, archive, efi, processor):
    """Whether the calls over an archive have the right results, by each compiler and with each order of headers; and
    whether what can't be called is an error. `efi` is the folder of gnu-efi's headers, or None."""
    variants = [*WITHOUT_EFI, *(WITH_EFI if efi and processor == "x86_64" else ())]
    for words in compilers(processor):
        found = {" ".join(more): outcome([*words, *more], prefix, archive, efi) for more in variants}
        yield tells(f"{name}, calls by {' '.join(map(os.path.basename, words))}", found, dict.fromkeys(found, 0))
    for words, said in REFUSED.items() if processor == "x86_64" else ():
        complaint = compiled([TOOLCHAIN, "clang", *words], os.devnull, f"{prefix}/include", None) or ""
        yield tells(f"{name}, {' '.join(words)} is refused", "uefi_formats.h: " in complaint and said in complaint)

"""The header of the library for C: that it compiles in each dialect without a warning, also where its macros and inline
functions are used, that compilers refuse and warn of what it says they do, and that an archive exports the functions that it
declares."""
import os
import re
import shutil
import subprocess
from pathlib import Path

from telling import TOP, tells

TOOLCHAIN = f"{TOP}/tools/toolchain.py"
HEADERS = ["uefi_formats.h", *(f"uefi_formats/{it}" for it in sorted(os.listdir(f"{TOP}/c/uefi_formats")))]
STRICT = ["-Wall", "-Wextra", "-Wpedantic", "-Werror", "-ffreestanding", "-c", "-o", os.devnull]
C, CXX = ["c99", "c11", "c17"], ["c++11", "c++17", "c++20"]
CONVERSIONS = ["-Wconversion", "-Wsign-conversion", "-Wcast-qual"]
# gcc alone knows the last one.
OF_CXX, OF_GCC = ["-Wold-style-cast"], ["-Wuseless-cast"]
# Each macro that has a value of the caller's, and each inline function.
USES = """#include "uefi_formats.h"
int use(const void *start, void *room, int (*print)(const char *, ...));
int use(const void *start, void *room, int (*print)(const char *, ...)) {
    UefiBytes path = uefi_bytes(start, 4);
    UefiBuffer buffer = uefi_buffer(room, 4);
    if (uefi_path_at(start, buffer.n, &path) != UEFI_OK || uefi_last_entry(1, 2) == UEFI_EMPTY_LOG)
        return UEFI_FORMATS_VERSION;
    return print("%.*s", UEFI_TEXT(path));
}
"""
TARGETS_OF_CLANG = ["x86_64-linux-gnu", "i686-linux-gnu", "aarch64-linux-gnu", "x86_64-unknown-windows"]
# Statements of which a compiler warns, each with a word of the warning.
WARNED = {
    "uefi_map_check(uefi_bytes(0, 0), 48);": "unused-result",
    "return (int)uefi_time(uefi_bytes(0, 0), (UefiTime *)0);": "nonnull",
}
# An option with which the header is an error, and a word of it. Enumerations of Windows have four bytes with it too.
REFUSED, REASON, WINDOWS = "-fshort-enums", "uefi_status_has_four_bytes", "windows"


def compilers():
    """The words of each compiler by its name: the toolchain's clang for each target, and those of the machine."""
    own = ["-nostdinc", f"-isystem{TOP}/tests/c_headers"]
    found = {f"clang {it}": [TOOLCHAIN, "clang", f"--target={it}", *own] for it in TARGETS_OF_CLANG}
    found |= {it: [it] for it in ("gcc", "clang") if shutil.which(it)}
    return found | ({f"gcc {it}": ["gcc", it] for it in ("-m32", "-mabi=ms")} if shutil.which("gcc") else {})


def complaint(words, source):
    """What a compiler says of a source, or None if it has no complaint."""
    ran = subprocess.run([*words, "-"], input=source, capture_output=True, text=True)
    return ran.stderr if ran.returncode else None


def dialect(name, compiler=""):
    """The options of a dialect of C or C++, with the warnings that the compiler has for it."""
    warnings = [*CONVERSIONS, *(OF_CXX if "+" in name else []), *(OF_GCC if "+" in name and compiler.startswith("gcc") else [])]
    return ["-x", "c++" if "+" in name else "c", f"-std={name}", *warnings]


def rows(include):
    """Whether the header, and each file of it alone, compiles; and what it warns of and refuses."""
    for name, words in compilers().items():
        words = [*words, "-I", include, *STRICT]
        variants = [(it, f'#include "{header}"\n') for it in (C[0], CXX[0]) for header in HEADERS]
        variants += [(it, USES) for it in (*C, *CXX)]
        found = {(it, source): complaint([*words, *dialect(it, name)], source) for it, source in variants}
        yield tells(f"{name}: the header in {len(C) + len(CXX)} dialects", {it: said for it, said in found.items() if said}, {})
        for statement, word in WARNED.items():
            said = complaint([*words, *dialect("c11")], f'#include "uefi_formats.h"\nint f(void);\nint f(void) {{ {statement} return 0; }}\n')
            yield tells(f"{name}: {word} is warned of", word in (said or ""))
        said = complaint([*words, *dialect("c11"), REFUSED], '#include "uefi_formats.h"\n')
        yield tells(f"{name}: {REFUSED} is refused", WINDOWS in name or REASON in (said or ""))


def declared(include):
    """The functions that the header declares."""
    text = "".join(Path(f"{include}/{it}").read_text(encoding="utf-8") for it in HEADERS)
    text = re.sub(r"/\*.*?\*/|^#.*?$", "", text, flags=re.S | re.M)
    return sorted(re.findall(r"\bUEFI_CALL\b[^;()]*?\b(uefi_\w+)\(", text))


def exported(archive):
    """The names that an archive has for others."""
    ran = subprocess.run([TOOLCHAIN, "llvm-nm", "--defined-only", "-g", archive], capture_output=True, text=True, check=True)
    return sorted(line.split()[-1] for line in ran.stdout.splitlines() if len(line.split()) == 3)


def exports(name, include, archive):
    """Whether an archive exports the functions of the header, and nothing else."""
    yield tells(f"{name}, the names that are exported", exported(archive), declared(include))

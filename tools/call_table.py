"""The table of docs/FIRMWARE.md with the code and the stack of each call, in bytes, by archive."""
import re

ARCHIVES = ["libuefi_formats.a", "libuefi_formats_user.a", "x86_64-unknown-none"]
TABLE = re.compile(r"(?<=\n## Each call\n)(.*?```\n)(.*?)(?=```\n)", re.S)
WIDTHS = (10, 8)


def of_page(text):
    """The numbers of each call, by archive."""
    rows = [line.split() for line in TABLE.search(text)[2].splitlines()[2:]]
    return {name: {archive: tuple(numbers[2 * i : 2 * i + 2]) for i, archive in enumerate(ARCHIVES)} for name, *numbers in rows}


def shown(calls):
    """The lines of the table."""
    width = max(map(len, calls))
    yield " " * width + "".join(f"{archive:>{sum(WIDTHS) + 6}}" for archive in ARCHIVES)
    yield " " * width + f"{'code':>{WIDTHS[0] + 6}}{'stack':>{WIDTHS[1]}}" * len(ARCHIVES)
    for name, numbers in sorted(calls.items()):
        yield f"{name:<{width}}" + "".join(f"{code:>{WIDTHS[0] + 6}}{stack:>{WIDTHS[1]}}" for code, stack in (numbers.get(it, ("-", "-")) for it in ARCHIVES))


def with_archive(text, archive, numbers):
    """The page with these numbers of an archive's calls; other archives keep theirs."""
    old = of_page(text)
    new = {name: old.get(name, {}) | {archive: tuple(map(str, it))} for name, it in numbers.items()}
    lines = "".join(f"{line.rstrip()}\n" for line in shown(new))
    return TABLE.sub(lambda found: found[1] + lines, text)

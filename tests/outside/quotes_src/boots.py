"""Boots by shim and GRUB: what firmware, shim and GRUB measure, and the logs that say so.

Events are those of the TCG PC Client Platform Firmware Profile 1.06, 10.4, and of GRUB's `tpm` module, which measures a
command without `grub_cmd: `, and a file by its bytes, where the event's data are its name.
"""
import struct
import uuid
from collections import namedtuple

from event_log import SEPARATOR, made_event, made_log

CRTM_VERSION, IPL = 0x08, 0x0D
VARIABLE, BOOT_VARIABLE, APPLICATION, ACTION, BLOB, AUTHORITY = (0x80000000 + it for it in (1, 2, 3, 7, 8, 0xE0))
GLOBAL = uuid.UUID("8be4df61-93ca-11d2-aa0d-00e098032b8c").bytes_le
SECURITY = uuid.UUID("d719b2cb-3d3a-4596-a3bc-dad00e67656f").bytes_le
# An end-entire node.
NO_PATH = bytes.fromhex("7fff0400")
QUIET = "linux /vmlinuz root=/dev/sda2 ro quiet"
SHELL = "linux /vmlinuz root=/dev/sda2 ro init=/bin/sh"

# An event: what its data say, and what was measured.
Row = namedtuple("Row", "pcr kind data measured")


def row(pcr, kind, data, measured=None):
    return Row(pcr, kind, data, data if measured is None else measured)


def variable(name, value, guid=GLOBAL, kind=VARIABLE):
    """A variable of PCR 7, by all of its data."""
    head = struct.pack("<QQ", len(name), len(value))
    return row(7, kind, guid + head + name.encode("utf-16-le") + value)


def blob(pcr, measured):
    """Firmware's own code, by an address and a length that say nothing of it."""
    return row(pcr, BLOB, struct.pack("<QQ", 0xFFC00000, len(measured)), measured)


def command(text):
    """A command that GRUB runs, in bytes if it isn't UTF-8."""
    text = text if isinstance(text, bytes) else text.encode()
    return row(8, IPL, b"grub_cmd: " + text + b"\0", text)


def file(name, content):
    """A file that GRUB reads."""
    return row(9, IPL, name.encode() + b"\0", content)


def action(pcr, text):
    return row(pcr, ACTION, text.encode())


def secure_boot(state):
    """What firmware measures of its policy."""
    keys = [variable("PK", b"platform key"), variable("KEK", b"exchange key")]
    lists = [variable("db", b"certificates", SECURITY), variable("dbx", b"revoked", SECURITY)]
    return [variable("SecureBoot", bytes([state])), *keys, *lists, row(7, SEPARATOR, bytes(4))]


def boot_option(options=""):
    """The order of one boot option, and that option, with a text for what it starts."""
    optional = (options + "\0").encode("utf-16-le") if options else b""
    option = struct.pack("<IH", 1, len(NO_PATH)) + "Linux\0".encode("utf-16-le") + NO_PATH + optional
    for name, value in (("BootOrder", bytes(2)), ("Boot0000", option)):
        head = struct.pack("<QQ", len(name), len(value)) + name.encode("utf-16-le")
        yield row(1, BOOT_VARIABLE, GLOBAL + head + value, value)


def firmware(policy, options=""):
    """What firmware measures before it starts shim."""
    return [
        row(0, CRTM_VERSION, "1.0\0".encode("utf-16-le")), blob(0, b"firmware"), *policy,
        *boot_option(options), action(4, "Calling EFI Application from Boot Option"),
        *(row(pcr, SEPARATOR, bytes(4)) for pcr in range(7)),
    ]


def loaders(policy=(), commands=(QUIET,)):
    """What is measured of shim and GRUB, and by them."""
    image = struct.pack("<QQQQ", 0x70000000, 0x100000, 0, len(NO_PATH)) + NO_PATH
    return [
        *policy, row(4, APPLICATION, image, b"shim"), row(14, IPL, b"MokList\0", b"owner's keys"),
        row(4, APPLICATION, image, b"grub"), file("(hd0,gpt2)/boot/grub/grub.cfg", b"menu"),
        *map(command, commands), file("/vmlinuz", b"linux"), command("initrd /initrd.img"), file("/initrd.img", b"initrd"),
    ]


# What firmware measures when the kernel takes over.
EXIT = [action(5, "Exit Boot Services Invocation"), action(5, "Exit Boot Services Returned with Success")]
SIGNED = [variable("db", b"certificate of shim", SECURITY, AUTHORITY)]


def clean():
    return [*firmware(secure_boot(1)), *loaders(SIGNED), *EXIT]


def with_commands(*commands):
    """A boot in which GRUB ran other commands first."""
    return [*firmware(secure_boot(1)), *loaders(SIGNED, commands), *EXIT]


def with_options(text):
    """A boot whose option has this text, as a kernel that firmware starts has its command line."""
    return [*firmware(secure_boot(1), text), *loaders(SIGNED), *EXIT]


def without_secure_boot():
    return [*firmware(secure_boot(0)), *loaders(), *EXIT]


def log_of(rows, banks=("sha256",)):
    """The log of these events, in these banks."""
    return made_log(*(made_event(it.pcr, it.kind, it.data, banks, it.measured) for it in rows), names=banks)


def log_of_both(shown, booted):
    """The log of a boot with the data, and the digests of SHA-1, of another one."""
    measured = [{"sha1": it.measured, "sha256": true.measured} for it, true in zip(shown, booted, strict=True)]
    return log_of([it._replace(measured=both) for it, both in zip(shown, measured)], ["sha1", "sha256"])

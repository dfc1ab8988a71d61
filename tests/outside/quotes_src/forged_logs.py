"""Logs that lead to the PCRs of a quote, with data and types that no digest covers. `verify` can't tell, so that `check`,
`events` or `diff` has to."""
import hashlib
import re

import boots
import event_log
from attacks import QUOTED, ends_well, quote_of, says
from boots import BLOB, IPL, QUIET, SHELL, row
from telling import tells

CLEAN_NAME = b"(hd0,gpt2)/boot/grub/x86_64-efi/normal.mod\0"
CHECK = ["check", "boot.log", "--quote", "boot.quote"]
EVENTS = ["events", "--text", "boot.log"]
DIFF = ["diff", "clean.log", "boot.log"]


def attacked(procedure, name, forged, booted, later=()):
    """A machine that booted, had PCRs extended later by root, and sends a forged log: `verify` agrees."""
    machine = procedure.machine
    machine.path("clean.log").write_bytes(boots.log_of(boots.clean()))
    procedure.tpm.boot(boots.log_of(booted))
    if later:
        procedure.tpm.extend(event_log.measured(boots.log_of(later)))
    return ends_well(f"{name}: verify", procedure.verify(boots.log_of(forged)))


def true_commands(booted):
    return [it for it in booted if it.pcr == 8]


def relabelled(procedure):
    """Commands that GRUB ran are called files in the log. Those of a clean boot are extended once the kernel runs."""
    booted, clean = boots.with_commands(SHELL), boots.clean()
    later = true_commands(clean)
    called = [row(8, IPL, CLEAN_NAME, it.measured) if it.pcr == 8 else it for it in booted]
    at_exit = called.index(boots.EXIT[0])
    for place, forged in [
        ("after the kernel's start", [*called, *later]),
        ("before the kernel's start", [*called[:at_exit], *later, *called[at_exit:]]),
    ]:
        name = f"commands called files, clean ones {place}"
        yield attacked(procedure, name, forged, booted, later)
        machine = procedure.machine
        reasons = [r"EV_IPL, PCR 8\) is out of place"]
        yield says(f"{name}: diff", machine.run(*DIFF), {1}, r"PCR 8.*EV_IPL.*normal\.mod.* isn't in clean\.log")
        yield says(f"{name}: check", machine.run(*CHECK), {1}, *reasons)
        yield says(f"{name}: events", machine.run(*EVENTS), {0}, r"normal\.mod")


def retyped(procedure):
    """Secure Boot was off. Its events are called firmware in the log, and those of a clean boot are extended later."""
    booted, clean = boots.without_secure_boot(), boots.clean()
    later = [it for it in clean if it.pcr == 7]
    called = [row(7, BLOB, bytes(16), it.measured) if it.pcr == 7 else it for it in booted]
    rest = [it for it in called if it.pcr != 7]
    for place, forged in [
        ("after the kernel's start", [*called, *later]),
        ("first", [*(it for it in called if it.pcr == 7), *later, *rest]),
    ]:
        name = f"PCR 7 called firmware, clean events {place}"
        yield attacked(procedure, name, forged, booted, later)
        machine = procedure.machine
        yield says(f"{name}: check", machine.run(*CHECK), {1}, r"EV_EFI_PLATFORM_FIRMWARE_BLOB, PCR 7\) is out of place")
        yield says(f"{name}: diff", machine.run(*DIFF), {1}, r"PCR 7.*EV_EFI_PLATFORM_FIRMWARE_BLOB.* isn't in clean\.log")


# What stands before `init=` in a command: a character outside of ASCII, one that isn't seen, one that turns the direction,
# those that a terminal takes for its own, a line's end, and a byte that is no UTF-8.
BEFORE_INIT = [
    "\N{LATIN SMALL LETTER E WITH ACUTE} ", "\N{ZERO WIDTH SPACE}", "\N{RIGHT-TO-LEFT OVERRIDE}", "\x1b[8m ", "\x07 ", "\x9b8m ",
    "\nboot.log: event 99 at offset 9: PCR 9 ", b"\xff ",
]


def hidden(procedure):
    """A command with a character that hides what follows it."""
    for before in BEFORE_INIT:
        name = f"{before!r} before init="
        before = before if isinstance(before, bytes) else before.encode()
        booted = boots.with_commands(b"linux /vmlinuz root=/dev/sda2 ro " + before + b"init=/bin/sh")
        yield attacked(procedure, name, booted, booted)
        status, out, err = procedure.machine.run(*EVENTS)
        blocks = re.findall(r"PCR 8, .*\n(?:  .*\n)*", out)
        shown = any("init=/bin/sh" in it for it in blocks)
        yield tells(f"{name}: events", (status, shown, "" if shown else blocks[:1]), (0, True, ""))
        unseen = [it for it in out + err if it != "\n" and not it.isprintable()]
        yield tells(f"{name}: what isn't printable", unseen, [])
        yield says(f"{name}: diff", procedure.machine.run(*DIFF), {1}, "^PCR 8.*init=/bin/sh")


def wide(procedure):
    """A command line in UTF-16."""
    booted = boots.with_options("root=/dev/sda2 ro init=/bin/sh")
    yield attacked(procedure, "UTF-16", booted, booted)
    status, out, _ = procedure.machine.run(*EVENTS)
    blocks = re.findall(r"PCR 1, .*\n  sha.*\n  variable Boot0000.*\n(?:  .*\n)*", out)
    shown = any("init=/bin/sh" in it for it in blocks)
    yield tells("UTF-16: events", (status, shown, "" if shown else blocks[:1]), (0, True, ""))


def long(procedure):
    """A command that is longer than a line of `diff`."""
    text = "linux /vmlinuz root=/dev/sda2 " + "ro quiet splash nomodeset=1 " * 3 + "init=/bin/sh"
    booted = boots.with_commands(QUIET, text)
    yield attacked(procedure, "a long command", booted, booted)
    ending = procedure.machine.run(*DIFF)
    yield says("a long command: diff", ending, {1}, r"init=/bin/sh|\.\. ?\(?\d+")
    yield says("a long command: events", procedure.machine.run(*EVENTS), {0}, "init=/bin/sh")


def uncovered(procedure):
    """PCRs that the quote doesn't cover, with any data and their hashes."""
    booted = boots.with_commands(SHELL)
    forged = [it for it in booted if it.pcr not in (8, 9)] + [it for it in boots.clean() if it.pcr in (8, 9)]
    machine = procedure.machine
    machine.path("clean.log").write_bytes(boots.log_of(boots.clean()))
    procedure.tpm.boot(boots.log_of(booted))
    procedure.verify(boots.log_of(forged), quote_of("sha256:0,1,2,3,4,5,6,7,14"))
    ending = machine.run("verify", "boot.log", "--quote", "boot.quote", "--any-nonce", "--pcrs", "sha256:0-7,14")
    yield says("PCRs that aren't covered: verify", ending, {0}, "agrees")
    status, out, err = machine.run(*CHECK)
    matching = re.search(r"^EV_IPL: (\d+) match", out, re.M)
    found = status in (0, 1), matching and matching[1], "not covered" in out + err
    yield tells("PCRs that aren't covered: check", (*found, "" if all(found) else out + err), (True, "0", True, ""))


def added_pcrs(procedure):
    """A quote of more PCRs than are asked for: of a bank that firmware doesn't extend, and of one that can be reset. The
    machine extends them by what a forged log says."""
    quiet, shell = ((f"root=/dev/sda2 {it}\0").encode("utf-16-le") for it in ("quiet", "init=/bin/sh"))
    booted, clean = [*boots.clean(), row(12, IPL, shell)], [*boots.clean(), row(12, IPL, quiet)]
    machine, tpm = procedure.machine, procedure.tpm
    for name, added, extended, forged in [
        ("another bank", "sha1:12", f"12:sha1={hashlib.sha1(quiet).hexdigest()}", boots.log_of(clean, ["sha1", "sha256"])),
        ("PCR 16", "sha256:16", f"16:sha256={hashlib.sha256(quiet).hexdigest()}",
         boots.log_of([*boots.clean(), row(16, IPL, quiet)])),
    ]:
        tpm.boot(boots.log_of(booted))
        tpm.tool("tpm2_pcrextend", extended)
        yield ends_well(f"{name} added: verify", procedure.verify(forged, quote_of(f"{QUOTED}+{added}")))
        # The quote covers what the machine chose.
        yield says(f"{name} added: check --quote", machine.run(*CHECK), {0}, "^EV_IPL: 3 match")
        asked = ["check", "boot.log", "--pcrs", "sha256:0-9,14"]
        yield says(f"{name} added: check --pcrs", machine.run(*asked), {0}, "^EV_IPL: 2 match.*1 not covered")


def not_shown(procedure):
    """A command under a type without a text, and a boot option with a character outside of ASCII: in hex, so that
    `diff` has to tell."""
    machine = procedure.machine
    text = "linux /vmlinuz \N{LATIN SMALL LETTER E WITH ACUTE} init=/bin/sh"
    booted = boots.with_commands(text)
    later = true_commands(boots.clean())
    called = [row(8, boots.VARIABLE, it.measured) if it.pcr == 8 else it for it in booted]
    yield attacked(procedure, "commands called variables", [*called, *later], booted, later)
    reason = r"^PCR 8: EV_EFI_VARIABLE_DRIVER_CONFIG.* isn't in clean\.log"
    yield says("commands called variables: diff", machine.run(*DIFF), {1}, reason)
    booted = boots.with_options(text)
    yield attacked(procedure, "a boot option in hex", booted, booted)
    yield says("a boot option in hex: diff", machine.run(*DIFF), {1}, r"^PCR 1.*variable Boot0000.*optional data")
    yield says("a boot option in hex: events", machine.run(*EVENTS), {0}, "69006e0069007400")


def other_digests(procedure):
    """Data whose hash is an event's digest in a bank that the quote doesn't cover."""
    booted, clean = boots.with_commands(SHELL), boots.clean()
    procedure.tpm.boot(boots.log_of(booted))
    forged = boots.log_of_both(clean, booted)
    machine = procedure.machine
    machine.path("clean.log").write_bytes(boots.log_of(clean, ["sha1", "sha256"]))
    yield ends_well("digests of SHA-1 of other data: verify", procedure.verify(forged))
    yield says("digests of SHA-1 of other data: check", machine.run(*CHECK), {1}, r"EV_IPL, PCR 8\)")
    yield says("digests of SHA-1 of other data: diff", machine.run(*DIFF), {1}, "^PCR 8.*sha256")


ATTACKS = [relabelled, retyped, hidden, wide, long, uncovered, added_pcrs, not_shown, other_digests]

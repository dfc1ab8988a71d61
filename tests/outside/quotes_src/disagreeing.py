"""Quotes, signatures and messages that don't agree with a log, and the reasons that have to be named."""
import re
import struct

import event_log
from event_log import made_event, made_log
from machine import ends_with, listed
from telling import tells

NONCE = bytes(range(20))


def reference(machine, name, log):
    """A quote of each bank's PCRs 0 to 7, without those that the TPM doesn't reach."""
    pcrs = [pcr for pcr in event_log.reachable(log) if pcr < 8]
    chosen = [(bank, pcrs) for bank in event_log.banks(log)]
    return machine.quote(f"{name}.reference", "rsa", chosen, NONCE)


def written(machine, file, content):
    machine.path(file).write_bytes(content)
    return file


def first_bitmap(message, bank):
    """The offset of the bitmap of a bank's PCRs in a quote, after the number of its algorithm and its size."""
    return message.index(struct.pack(">HB", event_log.NUMBERS[bank], 3)) + 3


def nonces(machine, name, log):
    """Other nonces than a quote's, none, and one that isn't hex."""
    quoted, other = reference(machine, name, log), NONCE[::-1]
    first = f"{quoted.file}: has nonce 0x{NONCE.hex()}, not nonce 0x{other.hex()}\n"
    found = machine.verify(name, quoted.file, "--any-pcrs", "--nonce", other.hex())
    yield tells(f"{name}: another nonce", (found[0], found[1].startswith(first)), (1, True))
    for what, asked in (("a prefix of the nonce", NONCE[:-1]), ("a longer nonce", NONCE + b"\0")):
        ending = machine.verify(name, quoted.file, "--any-pcrs", "--nonce", asked.hex())
        yield ends_with(f"{name}: {what}", ending, 1, f"{quoted.file}: has nonce 0x{NONCE.hex()}, not ")
    yield ends_with(f"{name}: no nonce asked for", machine.verify(name, quoted.file, "--any-pcrs"), 4, "--any-nonce")
    for text in ("", "0g", "123", "0x00"):
        yield ends_with(f"{name}: the nonce {text}", machine.verify(name, quoted.file, "--any-pcrs", "--nonce", text), 2, "--nonce")


def extended_once_more(machine, name, log):
    """A PCR that was extended once more than a log says."""
    names = event_log.banks(log)
    before = reference(machine, name, log)
    leads_to = machine.digest(before)
    digests = ",".join(f"{bank}={'5a' * event_log.size(bank)}" for bank in names)
    machine.tpm.tool("tpm2_pcrextend", f"7:{digests}")
    machine.tpm.registers(f"{name}.txt", names)
    quoted = machine.quote(f"{name}.extended", "ecc", before.selections, NONCE)
    text = machine.difference(name, quoted, leads_to, event_log.start_locality(log))
    yield tells(f"{name}: PCR 7 extended once more", machine.judge(name, quoted)[:2], (1, text))
    status, out, _ = machine.judge(name, quoted, "--registers", f"{name}.txt")
    named = re.findall(r": (\w+) PCR (\d+) held", out)
    found = status, out.startswith(text), named
    yield tells(f"{name}: PCR 7 extended once more, --registers", found, (1, True, [(bank, "7") for bank in names]))


def selections(machine, name, log):
    """Another selection than is asked for, and none."""
    bank = event_log.banks(log)[0]
    quoted = machine.quote(f"{name}.selection", "ecc", [(bank, [1, 2, 3])], NONCE)
    for asked, status, reason in [
        (f"{bank}:1-7", 4, f"{quoted.file}: states no {bank} PCR 7, which is asked for"),
        (f"{bank}:4", 4, f"{quoted.file}: states no {bank} PCR 4, which is asked for"),
        ("sm3_256:1", 4, f"{quoted.file}: states no sm3_256 PCR 1, which is asked for"),
        (f"{bank}:1-3", 0, "agrees"),
        (f"{bank}:2", 0, "agrees"),
    ]:
        ending = machine.judge(name, quoted, "--pcrs", asked)
        yield ends_with(f"{name}: --pcrs {asked} of {listed(quoted.selections)}", ending, status, reason)
    for chosen in ([(bank, [])], [(it, []) for it in event_log.banks(log)]):
        empty = machine.quote(f"{name}.empty", "rsa", chosen, NONCE)
        ending = machine.judge(name, empty)
        yield ends_with(f"{name}: {len(chosen)} empty selections", ending, 4, f"{empty.file}: covers no PCR")


def signatures(machine, name, log):
    """Signatures of other keys and over other bytes, which OpenSSL doesn't verify."""
    quoted, tpm = reference(machine, name, log), machine.tpm
    signature = f"{quoted.file}.signature"
    other = machine.quote(f"{name}.other", "rsa-sha384", quoted.selections, NONCE)
    for what, key, signed in [
        ("another key", tpm.keys["ecc"], signature),
        ("another key of its kind", other.key._replace(hash="sha256"), signature),
        ("the signature of another quote", quoted.key, f"{other.file}.signature"),
    ]:
        yield tells(f"{name}: {what}: openssl", tpm.is_signed(key, quoted.file, signed), False)
    message = machine.path(quoted.file).read_bytes()
    at = first_bitmap(message, event_log.banks(log)[0])
    for pcr in (1, 7):
        changed = written(machine, "relabelled", message[:at] + bytes([message[at] ^ 1 << pcr]) + message[at + 1 :])
        yield tells(f"{name}: relabelled, PCR {pcr}: openssl", tpm.is_signed(quoted.key, changed, signature), False)
        ending = machine.verify(name, changed, "--any-pcrs", "--nonce", NONCE.hex())
        yield ends_with(f"{name}: relabelled, PCR {pcr}", ending, 1, f"{name}: differs: ")


def messages(machine, name, log):
    """Messages that aren't quotes: cut at each byte, with more bytes, and other attestations of the key."""
    quoted, tpm = reference(machine, name, log), machine.tpm
    message = machine.path(quoted.file).read_bytes()
    for length in range(len(message)):
        file = written(machine, "cut", message[:length])
        ending = machine.verify(name, file, "--any-nonce", "--any-pcrs")
        yield ends_with(f"{name}: cut at {length}", ending, 3, file, "too few bytes")
    handle, how = quoted.key.handle, ["-g", "sha256", "-f", "plain"]
    tpm.tool("tpm2_certify", "-C", handle, "-c", handle, *how, "-o", "certified", "-s", "certified.signature")
    tpm.tool("tpm2_gettime", "-c", handle, *how, "--attestation", "time", "-o", "time.signature")
    written(machine, "sized", len(message).to_bytes(2, "big") + message)
    written(machine, "longer", message + b"\0")
    for file, reason in [
        ("certified", "an attestation of type 0x8017"),
        ("time", "an attestation of type 0x8019"),
        ("sized", "no TPM_GENERATED_VALUE"),
        (f"{quoted.file}.signature", "no TPM_GENERATED_VALUE"),
        ("longer", "bytes after the quote"),
    ]:
        yield ends_with(f"{name}: {file}", machine.verify(name, file, "--any-nonce", "--any-pcrs"), 3, file, reason)
    yield ends_with(f"{name}: no file", machine.verify(name, "missing", "--any-nonce", "--any-pcrs"), 3, "missing")


def hashes(machine, name, log):
    """Hash functions that are given, another than the key's and its own."""
    quoted = reference(machine, name, log)
    for given, status, verdict in [
        ("sha256", 0, "agrees"),
        ("sha1", 1, "differs"),
        ("sha384", 1, "differs"),
        ("sm3_256", 1, "differs"),
    ]:
        ending = machine.judge(name, quoted, "--quote-hash", given)
        yield ends_with(f"{name}: --quote-hash {given}", ending, status, f"hash {given}", verdict)


def changed_logs(machine, name, log):
    """A log that lacks one of its events, for each that extends a quoted PCR."""
    reached = event_log.reachable(log)
    quoted = machine.quote(f"{name}.all", "ecc", [(bank, reached) for bank in event_log.banks(log)], NONCE)
    for event in (it for it in event_log.measured(log) if it.pcr in reached):
        changed = written(machine, "lacking", log[: event.start] + log[event.end :])
        ending = machine.judge(changed, quoted)
        yield ends_with(f"{name}: without the event at offset {event.start}", ending, 1, "lacking: differs: ")


def banks(machine):
    """Logs that lack a bank, and one in which a PCR is undetermined."""
    rows = [(pcr, event_log.SEPARATOR, bytes(4)) for pcr in range(8)]
    whole = made_log(*(made_event(*row) for row in rows))
    written(machine, "sha1", made_log(*(made_event(*row, names=["sha1"]) for row in rows), names=["sha1"]))
    short = made_event(7, event_log.SEPARATOR, bytes(4), names=["sha1"])
    written(machine, "undetermined", whole + short)
    machine.tpm.boot(whole)
    for bank, log, status, reason in [
        ("sha1", "sha1", 0, "agrees"),
        ("sha256", "sha1", 4, "no event has a digest of the bank sha256"),
        ("sha512", "sha1", 4, "no event has a digest of the bank sha512"),
        ("sha256", "undetermined", 4, "PCR 7 is undetermined"),
    ]:
        quoted = machine.quote("banks", "rsa", [(bank, list(range(8)))], NONCE)
        yield ends_with(f"{bank}: the log {log}", machine.judge(log, quoted), status, reason)
    quoted = machine.quote("banks", "rsa", [("sha256", list(range(7)))], NONCE)
    yield ends_with("an undetermined PCR that isn't quoted", machine.judge("undetermined", quoted), 0, "agrees")

"""Quotes of a TPM that a log's events extended, which have to agree with the log."""
import hashlib
import itertools

import event_log
from event_log import PCRS
from machine import listed
from telling import tells

# The lengths of nonces; `tpm2_quote` takes none above 64.
NONCES = [20, 0, 32, 64, 1]


def selections(log):
    """What is quoted of a log: each bank, banks in an order that isn't that of their numbers, all PCRs, PCRs of a
    dynamic launch, a bank in several selections, and one of which no PCR is selected."""
    names, extended = event_log.banks(log), {it.pcr for it in event_log.measured(log)}
    yield from ([(name, range(8))] for name in names)
    yield [(names[-1], extended), (names[0], [0, 7])]
    yield [(name, PCRS) for name in names]
    yield [(names[-1], [0, 1, 17, 22, 23])]
    yield [(names[0], [0, 1]), (names[0], [1, 7, 17]), (names[-1], [7]), (names[0], [2])]
    yield [(names[0], []), (names[-1], [0, 7])]


def quotes(machine, name, log):
    """Quotes of the PCRs of each selection that the TPM reaches, by each of the keys in turn."""
    keys, lengths, reached = itertools.cycle(machine.tpm.keys), itertools.cycle(NONCES), event_log.reachable(log)
    for index, (selected, key, length) in enumerate(zip(selections(log), keys, lengths)):
        chosen = [(bank, [pcr for pcr in reached if pcr in pcrs]) for bank, pcrs in selected]
        nonce = hashlib.shake_128(f"{name} {index}".encode()).digest(length)
        yield key, machine.quote(f"{name}.{index}", key, chosen, nonce)


def agreements(machine, name, log):
    """Whether each quote is signed, and agrees with the log; as text, and beside all PCRs, which agree, as text and as JSON."""
    machine.tpm.registers(f"{name}.txt", event_log.banks(log))
    registers, locality = ["--registers", f"{name}.txt"], event_log.start_locality(log)
    for key, quoted in quotes(machine, name, log):
        what = f"{name}: {listed(quoted.selections)} by the key {key}, a nonce of {len(quoted.nonce)} bytes"
        text, json_line = machine.agreement(name, quoted, locality), machine.json_line(name, quoted, locality)
        yield tells(f"{what}: openssl", machine.tpm.is_signed(quoted.key, quoted.file))
        yield tells(f"{what}: verify", machine.judge(name, quoted)[:2], (0, text))
        beside, beside_json = (machine.judge(name, quoted, *registers, *more)[:2] for more in ([], ["--json"]))
        yield tells(f"{what}: --registers", beside, (0, text))
        yield tells(f"{what}: --registers --json", beside_json, (0, json_line))


def localities(machine, name, log):
    """Whether a start at locality 3 that no event states is found, and another that is given differs."""
    machine.tpm.boot(log, locality=3)
    chosen = [(event_log.banks(log)[0], [0, 7])]
    quoted = machine.quote(f"{name}.locality", "ecc", chosen, b"locality")
    text = machine.agreement(name, quoted, 3)
    yield tells(f"{name}: a start at locality 3", machine.judge(name, quoted)[:2], (0, text))
    yield tells(f"{name}: --locality 3", machine.judge(name, quoted, "--locality", "3")[:2], (0, text))
    yield tells(f"{name}: --locality 0 of a start at 3", machine.judge(name, quoted, "--locality", "0")[0], 1)


def clocks(machine, name, log):
    """Whether the clock of a quote is printed after a restart, and after a loss of power."""
    for shutdown in ("state", None):
        machine.tpm.boot(log, shutdown=shutdown)
        quoted = machine.quote(f"{name}.clock", "rsa", [(event_log.banks(log)[0], [1])], b"")
        text = machine.agreement(name, quoted, 0)
        yield tells(f"{name}: shutdown {shutdown}", machine.judge(name, quoted)[:2], (0, text))

"""A software TPM beside the program that judges its quotes, and what the program has to print of them."""
import itertools
import json
from collections import namedtuple
from pathlib import Path

from event_log import NUMBERS, measured
from golden import end_of
from telling import tells

# A quote in a file, by a key of these, over selections, each a bank and its PCRs.
Quoted = namedtuple("Quoted", "file key nonce selections")


def ranges(pcrs):
    """PCRs as the program prints them: those that follow one another as a range, as in `0-7, 14`."""
    found = []
    for pcr in pcrs:
        if found and pcr == found[-1][-1] + 1:
            found[-1] = [found[-1][0], pcr]
        else:
            found.append([pcr])
    return ", ".join("-".join(map(str, it)) for it in found)


def listed(selections):
    """The PCRs of selections as the program prints them, those of neighbouring selections of a bank together."""
    named = [(bank, pcr) for bank, pcrs in selections for pcr in pcrs]
    banks = itertools.groupby(named, lambda it: it[0])
    return "; ".join(f"{bank}: {ranges(pcr for _, pcr in found)}" for bank, found in banks)


def ends_with(name, ending, status, *wanted):
    """Tells whether a run ends with a status, and prints these texts on one of its streams."""
    found, out, err = ending
    lacks = [it for it in wanted if it not in out + err]
    return tells(name, (found, out + err if lacks else ""), (status, ""))


class Machine:
    def __init__(self, tpm, program):
        self.tpm, self.program = tpm, program

    def path(self, file):
        return Path(f"{self.tpm.room}/{file}")

    def quote(self, file, key, selections, nonce):
        """Lets the TPM quote PCRs, into a file."""
        key = self.tpm.keys[key]
        self.tpm.quote(key, selections, nonce, file)
        return Quoted(file, key, nonce, selections)

    def run(self, *words):
        """The status and the texts that the program ends with."""
        status, out, err = end_of(self.program, words, cwd=self.tpm.room)
        return status, out.decode(), err.decode()

    def verify(self, log, file, *words):
        return self.run("verify", log, "--quote", file, *words)

    def judge(self, log, quoted, *words):
        """What the program ends with, asked for the nonce that a quote has, and for any PCRs if no others are asked for."""
        asked = ["--nonce", quoted.nonce.hex()] if quoted.nonce else ["--any-nonce"]
        asked += [] if "--pcrs" in words else ["--any-pcrs"]
        return self.verify(log, quoted.file, *asked, *words)

    def fields(self, quoted):
        return self.tpm.fields(quoted.file)

    def digest(self, quoted):
        return self.fields(quoted)["pcrDigest"]

    def head(self, quoted):
        """The line of a quote itself."""
        found = self.fields(quoted)
        nonce = f"nonce 0x{found['extraData']}" if found["extraData"] else "no nonce"
        safe = "safe" if found["safe"] == "1" else "not safe"
        counts = f"reset count {found['resetCount']}, restart count {found['restartCount']}"
        return f"{quoted.file}: hash {quoted.key.hash}, {nonce}, clock {found['clock']} ms, {safe}, {counts}\n"

    def agreement(self, log, quoted, locality):
        """What the program prints of a quote that agrees with a log."""
        verdict = f"{log}: agrees: {listed(quoted.selections)} (PCR 0 starts at locality {locality})\n"
        return self.head(quoted) + verdict

    def difference(self, log, quoted, leads_to, locality):
        """What it prints of a quote with another digest than the one that a log leads to."""
        digests = f"the quote has the digest 0x{self.digest(quoted)}, the log leads to 0x{leads_to}"
        verdict = f"{log}: differs: {listed(quoted.selections)}: {digests} (PCR 0 starts at locality {locality})\n"
        return self.head(quoted) + verdict

    def json_line(self, log, quoted, locality):
        """What it prints as JSON of a quote that agrees with a log."""
        found, digest = self.fields(quoted), self.digest(quoted)
        counts = {"reset_count": int(found["resetCount"]), "restart_count": int(found["restartCount"])}
        clock = {"clock": int(found["clock"]), **counts, "safe": found["safe"] == "1"}
        banks = [{"algorithm": bank, "pcrs": list(pcrs)} for bank, pcrs in quoted.selections]
        nonce = {"nonce": found["extraData"], "nonce_agrees": True if quoted.nonce else None}
        digests = {"digest": digest, "digest_agrees": True, "hash": quoted.key.hash, "leads_to": digest}
        verdict = {"agrees": True, "failed": [], "locality": locality, "log": log, **self.coverage(log, quoted)}
        line = {**verdict, "quote": {"banks": banks, "clock": clock, **digests, **nonce}}
        return json.dumps(line, sort_keys=True, separators=(",", ":")) + "\n"

    def coverage(self, log, quoted):
        """The PCRs that a quote covers, by banks, and those that a log's events extend and that it doesn't cover."""
        of_banks = {bank: [pcr for it, pcrs in quoted.selections if it == bank for pcr in pcrs] for bank in NUMBERS}
        every = {pcr for pcrs in of_banks.values() for pcr in pcrs}
        extended = sorted({it.pcr for it in measured(self.path(log).read_bytes())} - every)
        covered = [{"bank": bank, "pcrs": pcrs} for bank, pcrs in of_banks.items() if pcrs]
        return {"covered": covered, "not_covered": [{"bank": None, "pcrs": extended}] if extended else []}

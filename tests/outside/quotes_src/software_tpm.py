"""A software TPM (swtpm), the keys in it, and the tools that speak to it (tpm2-tools)."""
import os
import re
import socket
import struct
import subprocess
import time
from collections import namedtuple

import event_log
from event_log import HCRTM, LAUNCH_PCRS

# Commands of swtpm's control channel (`tpm_ioctl.h`), big-endian numbers with what follows them.
INIT, SET_LOCALITY, HASH_START, HASH_DATA, HASH_END = 2, 5, 6, 7, 8
# `TPM2_Startup(TPM_SU_CLEAR)`, `TPM2_Shutdown(TPM_SU_CLEAR)` and `TPM2_Shutdown(TPM_SU_STATE)`.
STARTUP = bytes.fromhex("8001 0000000c 00000144 0000")
SHUTDOWNS = {
    "clear": bytes.fromhex("8001 0000000c 00000145 0000"),
    "state": bytes.fromhex("8001 0000000c 00000145 0001"),
}
# The keys' algorithms, signature schemes and hash functions.
KEYS = {
    "rsa": ("rsa", "rsassa", "sha256"),
    "ecc": ("ecc", "ecdsa", "sha256"),
    "rsa-sha384": ("rsa", "rsassa", "sha384"),
    "ecc-sha512": ("ecc", "ecdsa", "sha512"),
    "rsa-sha1": ("rsa", "rsassa", "sha1"),
}
FIRST_HANDLE = 0x81010010
SECONDS = 20

# The handle of a key, the hash function of its signatures, and the file of its public part.
Key = namedtuple("Key", "handle hash file")


def free_port():
    """The first of two neighbouring ports that nobody listens at."""
    while True:
        with socket.socket() as first, socket.socket() as second:
            first.bind(("127.0.0.1", 0))
            port = first.getsockname()[1]
            try:
                second.bind(("127.0.0.1", port + 1))
                return port
            except (OSError, OverflowError):
                continue


class SoftwareTpm:
    def __init__(self, room, environment, keys=tuple(KEYS)):
        """Starts swtpm with an empty state in a folder, and makes these keys."""
        self.room, self.port = room, free_port()
        self.environment = {**environment, "TPM2TOOLS_TCTI": f"swtpm:host=127.0.0.1,port={self.port}"}
        os.makedirs(f"{room}/state")
        channels = [f"type=tcp,bindaddr=127.0.0.1,port={port}" for port in (self.port, self.port + 1)]
        words = ["--tpmstate", f"dir={room}/state", "--server", channels[0], "--ctrl", channels[1]]
        words = ["swtpm", "socket", "--tpm2", *words, "--flags", "not-need-init,startup-clear"]
        with open(f"{room}/swtpm.txt", "wb") as log:
            self.process = subprocess.Popen(words, env=self.environment, stdout=log, stderr=log)
        try:
            self.wait()
            self.keys = {name: self.make_key(name, FIRST_HANDLE + index) for index, name in enumerate(keys)}
        except BaseException:
            self.stop()
            raise

    def stop(self):
        self.process.terminate()
        self.process.wait()

    def wait(self):
        """Waits until swtpm listens."""
        end = time.monotonic() + SECONDS
        while True:
            try:
                return self.control(SET_LOCALITY, b"\0")
            except ConnectionRefusedError:
                if time.monotonic() > end or self.process.poll() is not None:
                    raise
                time.sleep(0.05)

    def send(self, port, message):
        """Sends bytes, and returns the answer."""
        with socket.create_connection(("127.0.0.1", port), SECONDS) as channel:
            channel.sendall(message)
            return channel.recv(4096)

    def control(self, command, body=b""):
        answer = self.send(self.port + 1, struct.pack(">I", command) + body)
        if answer[:4] != bytes(4):
            raise RuntimeError(f"swtpm: command {command} of the control channel: {answer.hex()}")

    def tpm_command(self, message):
        answer = self.send(self.port, message)
        if answer[6:10] != bytes(4):
            raise RuntimeError(f"swtpm: {message.hex()}: {answer.hex()}")

    def run(self, *words):
        """Runs a tool, and returns how it ended."""
        streams = {"capture_output": True, "text": True, "stdin": subprocess.DEVNULL}
        return subprocess.run(words, env=self.environment, cwd=self.room, check=False, **streams)

    def tool(self, *words):
        """Runs a tool that has to end well, and returns what it prints."""
        ran = self.run(*words)
        if ran.returncode:
            raise RuntimeError(f"{' '.join(words)}: {ran.stderr}")
        return ran.stdout

    def flush(self):
        """Removes what the tools left in the TPM."""
        for kind in ("-t", "-l", "-s"):
            self.tool("tpm2_flushcontext", kind)

    def make_key(self, name, handle):
        """Makes an attestation key that restarts of the TPM leave as it is."""
        algorithm, scheme, hash_name = KEYS[name]
        self.tool("tpm2_createek", "-c", "ek.context", "-G", algorithm, "-u", "ek.public")
        self.flush()
        how = ["-G", algorithm, "-s", scheme, "-g", hash_name, "-f", "pem", "-u", f"{name}.pem"]
        self.tool("tpm2_createak", "-C", "ek.context", "-c", "ak.context", *how)
        self.flush()
        self.tool("tpm2_evictcontrol", "-C", "o", "-c", "ak.context", f"{handle:#x}")
        self.flush()
        return Key(f"{handle:#x}", hash_name, f"{name}.pem")

    def hash_sequence(self, data):
        """Measures data as a processor does at locality 4: an H-CRTM before the start, else a dynamic launch."""
        self.control(HASH_START)
        self.control(HASH_DATA, struct.pack(">I", len(data)) + data)
        self.control(HASH_END)

    def restart(self, locality=0, hcrtm=(), shutdown=None):
        """Turns the TPM off and on, after a shutdown or without one, and starts it at a locality, after the data of
        an H-CRTM if there are any."""
        if shutdown:
            self.tpm_command(SHUTDOWNS[shutdown])
        self.control(INIT, struct.pack(">I", 0))
        for data in hcrtm:
            self.hash_sequence(data)
        self.control(SET_LOCALITY, bytes([locality]))
        self.tpm_command(STARTUP)
        self.control(SET_LOCALITY, b"\0")

    def boot(self, log, locality=None, shutdown="clear"):
        """Restarts the TPM at the locality that a log states, or at another one, and extends the PCRs that it reaches
        (`event_log.reachable`) as the events say."""
        reached = event_log.reachable(log)
        events = [it for it in event_log.measured(log) if it.pcr in reached]
        start = event_log.stated_locality(log) if locality is None else locality
        self.restart(start if 0 in reached else 0, [it.data for it in events if it.kind == HCRTM], shutdown)
        self.extend(events)

    def extend(self, events):
        """Extends the PCRs as events say, but for an H-CRTM's."""
        words = []
        for event in events:
            if event.pcr in LAUNCH_PCRS:
                self.hash_sequence(event.data)
            elif event.kind != HCRTM:
                digests = ",".join(f"{bank}={digest.hex()}" for bank, digest in event.digests.items())
                words.append(f"{event.pcr}:{digests}")
        self.tool("tpm2_pcrextend", *words)

    def quote(self, key, selections, nonce, file):
        """Writes a quote to a file, and its signature beside it."""
        chosen = "+".join(f"{bank}:{','.join(map(str, pcrs)) or 'none'}" for bank, pcrs in selections)
        nonces = ["-q", nonce.hex()] if nonce else []
        files = ["-m", file, "-s", f"{file}.signature", "-f", "plain"]
        self.tool("tpm2_quote", "-c", key.handle, "-l", chosen, *nonces, *files, "-g", key.hash)

    def is_signed(self, key, file, signature=None):
        """Whether OpenSSL verifies the signature beside a file, or another one."""
        words = ["openssl", "dgst", f"-{key.hash}", "-verify", key.file]
        ran = self.run(*words, "-signature", signature or f"{file}.signature", file)
        return (ran.returncode, ran.stdout) == (0, "Verified OK\n")

    def fields(self, file):
        """The fields of a quote by their names, as `tpm2_print` reads them."""
        text = self.tool("tpm2_print", "-t", "TPMS_ATTEST", file)
        return dict(re.findall(r"^ *(\w+): *(\w*)$", text, re.M))

    def registers(self, file, banks):
        """Writes what the PCRs of banks hold to a file, as `tpm2_pcrread` prints it."""
        text = self.tool("tpm2_pcrread", "+".join(f"{bank}:all" for bank in banks))
        with open(f"{self.room}/{file}", "w", encoding="ascii") as out:
            out.write(text)

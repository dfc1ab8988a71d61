"""The commands of docs/AUDIT.md by which a quote is verified, word for word, but for what the machine runs instead."""
import re
from collections import namedtuple
from pathlib import Path

from telling import TOP

PAGE = Path(f"{TOP}/docs/AUDIT.md")
# The handles that the page gives the endorsement key and the key that quotes.
EK, AK = "0x81010001", "0x81010002"
# The last command of a procedure that ran, whether all ended with 0, and all that they printed.
Ran = namedtuple("Ran", "last ended_well text")
# A vendor certifies the TPM's endorsement key, and writes the certificate into the TPM.
VENDOR = """
tpm2_createek -c ek.context -G rsa -u ek.key -f pem
tpm2_flushcontext -t
openssl req -x509 -newkey ec -pkeyopt ec_paramgen_curve:P-256 -keyout vendor.key -nodes -subj /CN=Vendor -out vendor.pem
openssl x509 -new -force_pubkey ek.key -subj /CN=EK -CA vendor.pem -CAkey vendor.key -outform DER -out certificate
tpm2_nvdefine 0x01c00002 -C p -s $(stat -c %s certificate) -a 'ppwrite|ppread|authread|ownerread|no_da|platformcreate'
tpm2_nvwrite 0x01c00002 -C p -i certificate
"""


def blocks():
    """The commands of each block of the section, with `$` before the verifier's and `#` before the machine's."""
    section = re.search(r"^## Verify a quote$(.*?)^## ", PAGE.read_text(encoding="utf-8"), re.M | re.S)[1]
    return [block.splitlines() for block in re.findall(r"^```$\n(.*?)^```$", section, re.M | re.S)]


def is_of_machine(command):
    return command.startswith("# ")


def tool_of(command):
    """The tool that a command begins with."""
    return command[2:].split()[0]


def script(commands, instead):
    """The script that runs the commands, and stops after the first that doesn't end with 0. What the machine runs
    instead of a command is named by its tool. The file `last` has the command that was run last."""
    yield "PATH=.:$PATH"
    for command in commands:
        run = command[2:]
        if is_of_machine(command):
            run = instead.get(tool_of(command), run)
        yield f"cat > last <<'END'\n{command[2:]}\nEND"
        yield f"{{ {run}\n}} || exit 1"
        if is_of_machine(command):
            # A TPM that no resource manager is in front of keeps what a tool loaded.
            yield "tpm2_flushcontext -t"


class Procedure:
    def __init__(self, machine):
        """The procedure on a machine, whose TPM gets a vendor's certificate."""
        self.machine, self.tpm = machine, machine.tpm
        self.keys, self.quote = blocks()
        self.has_ek = False
        machine.path("uefi_audit").symlink_to(machine.program)
        self.tpm.tool("bash", "-e", "-c", VENDOR)

    def run(self, commands, instead):
        ran = self.tpm.run("bash", "-c", "\n".join(script(commands, instead)))
        return Ran(self.machine.path("last").read_text().strip(), ran.returncode == 0, ran.stdout + ran.stderr)

    def make_key(self, instead=None, without=None):
        """Makes the key `ak.pem`, or ends with the command that doesn't accept what the machine sent. The verifier may
        leave out a command that begins so."""
        self.tpm.run("tpm2_evictcontrol", "-c", AK)
        for file in ("ak.pub", "ak.pem", "received"):
            self.machine.path(file).unlink(missing_ok=True)
        # A TPM makes the same endorsement key each time, and takes long.
        made = {"tpm2_createek": "true"} if self.has_ek else {}
        left_out = f"$ {without}"
        ran = self.run([it for it in self.keys if not it.startswith(left_out)], made | (instead or {}))
        self.has_ek = True
        self.tpm.flush()
        return ran

    def verify(self, log, instead=None):
        """Has PCRs quoted, and verifies the quote with a log, `boot.log`."""
        self.machine.path("boot.log").write_bytes(log)
        ran = self.run(self.quote, instead or {})
        self.tpm.flush()
        return ran

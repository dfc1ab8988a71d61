"""What someone who controls a machine can do: any command to its TPM, and any log."""
import hashlib
import re

import boots
import event_log
from procedure import AK, EK
from telling import tells

QUOTED = "sha256:0,1,2,3,4,5,6,7,8,9,14"
# Those that the page asks for.
ASKED = [*range(10), 14]
SIGNED_AND_AGREES = ["Verified OK\n", ": agrees: sha256: 0-9, 14 ("]
SESSION = "tpm2_startauthsession --policy-session -S own.ctx; tpm2_policysecret -S own.ctx -c e"


def quote_of(selection, nonce="-q $nonce"):
    """The machine's command that quotes another selection, or with another nonce."""
    return {"tpm2_quote": f"tpm2_quote -c {AK} -l {selection} {nonce} -g sha256 -f plain -m boot.quote -s boot.sig"}


def ends_well(name, ran):
    """Tells whether all commands of a procedure ended with 0."""
    return tells(name, (ran.ended_well, "" if ran.ended_well else ran.text), (True, ""))


def stops_at(name, ran, command, *reasons):
    """Tells whether a procedure stops at a command that begins so, and names each reason."""
    lacking = [it for it in reasons if not re.search(it, ran.text, re.M)]
    found = not ran.ended_well, ran.last.startswith(command), lacking
    return tells(name, (*found, "" if found == (True, True, []) else f"{ran.last}\n{ran.text}"), (True, True, [], ""))


def says(name, ending, statuses, *reasons):
    """Tells whether a run of the program ends with one of these statuses, and names each reason on one of its streams."""
    status, out, err = ending
    lacking = [it for it in reasons if not re.search(it, out + err, re.M)]
    found = status in statuses, lacking
    return tells(name, (*found, "" if found == (True, []) else f"{status}\n{out}{err}"), (True, [], ""))


def honest(procedure):
    """A machine that does as the page says agrees: by a key for RSASSA, and by the page's own."""
    log, machine = boots.log_of(boots.clean()), procedure.machine
    machine.path("clean.log").write_bytes(log)
    procedure.tpm.boot(log)
    rsa = f"tpm2_createak -C {EK} -c ak.ctx -G rsa -g sha256 -s rsassa -u ak.pub"
    for name, instead in (("RSASSA", {"tpm2_createak": rsa}), ("ECDSA", {})):
        yield ends_well(f"{name}: the key", procedure.make_key(instead))
        ran = procedure.verify(log)
        yield ends_well(f"{name}: the quote", ran)
        yield tells(f"{name}: what is printed", [it for it in SIGNED_AND_AGREES if it not in ran.text], [])
    yield says("a clean boot: check", machine.run("check", "boot.log", "--quote", "boot.quote"), {0}, "^EV_IPL: 2 match")
    yield says("a clean boot: diff", machine.run("diff", "clean.log", "boot.log"), {0})


def other_pcrs(procedure):
    """Quotes of other PCRs than are asked for, with the log of another boot that has those."""
    clean = boots.log_of(boots.clean())
    procedure.tpm.boot(boots.log_of(boots.with_commands(boots.SHELL)))
    for selection, reason in (("sha256:16", "PCR 0"), ("sha256:0,1,2,3,4,5,6,7,9,14", "PCR 8")):
        ran = procedure.verify(clean, quote_of(selection))
        yield stops_at(f"a quote of {selection}", ran, "uefi_audit verify", f"no sha256 {reason}", "asked for")
    ending = procedure.machine.run("verify", "boot.log", "--quote", "boot.quote", "--any-nonce")
    yield says("no PCRs asked for", ending, {2}, "--pcrs")
    ending = procedure.machine.run("verify", "boot.log", "--quote", "boot.quote", "--any-nonce", "--pcrs", "0-7")
    yield says("PCRs asked for without a bank", ending, {2}, "--pcrs")


def other_bank(procedure):
    """A bank that firmware leaves at its start values, and that the machine extends by a forged log."""
    forged = boots.log_of(boots.clean(), ["sha384"])
    procedure.tpm.boot(boots.log_of(boots.with_commands(boots.SHELL)))
    procedure.tpm.extend(event_log.measured(forged))
    both = boots.log_of(boots.clean(), ["sha256", "sha384"])
    for name, log in (("that bank alone", forged), ("both banks", both)):
        ran = procedure.verify(log, quote_of(QUOTED.replace("sha256", "sha384")))
        yield stops_at(f"the log has {name}", ran, "uefi_audit verify", "no sha256 PCR 0", "asked for")


def forge_quote(machine, log):
    """Writes what a TPM would sign after a log, in two parts around the nonce."""
    values = {pcr: bytes(32) for pcr in ASKED}
    for event in event_log.measured(log):
        if event.pcr in values:
            values[event.pcr] = hashlib.sha256(values[event.pcr] + event.digests["sha256"]).digest()
    digest = hashlib.sha256(b"".join(values[pcr] for pcr in ASKED)).digest()
    bitmap = sum(1 << pcr for pcr in ASKED).to_bytes(3, "little")
    machine.path("head").write_bytes(bytes.fromhex("ff544347 8018 0022 000b") + bytes(32) + b"\0\x14")
    clock, firmware = bytes(16) + b"\1", bytes(8)
    machine.path("tail").write_bytes(clock + firmware + bytes.fromhex("00000001 000b 03") + bitmap + b"\0\x20" + digest)


def signed_by(key):
    """The machine's commands that have a key sign the message that it wrote."""
    return {"tpm2_quote": rf"""{{ cat head; printf '%b' "$(sed 's/../\\x&/g' <<<$nonce)"; cat tail; }} > boot.quote
        tpm2_sign -c {key} -g sha256 -f plain -o boot.sig boot.quote || true"""}


def own_key(attributes):
    """The machine's commands that make a key with these attributes, beside a sound one."""
    return f"""{SESSION}
        tpm2_create -C {EK} -P session:own.ctx -G ecc:ecdsa -g sha256 -a '{attributes}' -u ak.pub -r ak.priv
        tpm2_flushcontext own.ctx; {SESSION}
        tpm2_load -C {EK} -P session:own.ctx -u ak.pub -r ak.priv -c ak.ctx; tpm2_flushcontext own.ctx"""


# A key in a file, and a public area of it that says that it is a restricted one of a TPM.
CLAIMED = r"""openssl ecparam -name prime256v1 -genkey -noout -out own.key
    openssl ec -in own.key -pubout -outform DER | tail -c 64 > point
    { printf '\x00\x58\x00\x23\x00\x0b\x00\x05\x00\x72\x00\x00\x00\x10\x00\x18\x00\x0b\x00\x03\x00\x10'
    printf '\x00\x20'; head -c 32 point; printf '\x00\x20'; tail -c 32 point; } > ak.pub"""


def weak_key(procedure):
    """A key in a file, which the TPM loads by its public area alone, and a key of a TPM that is short."""
    load = "tpm2_loadexternal -C n -u ak.pub -c ak.ctx"
    activate = f"{load}; tpm2_activatecredential -c ak.ctx -C {EK} -i credential -o received -P session:session.ctx"
    ran = procedure.make_key({"tpm2_createak": CLAIMED, "tpm2_evictcontrol": load, "tpm2_activatecredential": activate})
    yield stops_at("a public area that a TPM loads alone", ran, "tpm2_activatecredential", "not available")
    short = f"tpm2_createak -C {EK} -c ak.ctx -G rsa1024 -g sha256 -s rsassa -u ak.pub"
    yield stops_at("a key of 1024 bits", procedure.make_key({"tpm2_createak": short}), "openssl pkey")


def other_key(procedure):
    """Keys that sign what they are given, and what is sent in the place of their public areas."""
    log = boots.log_of(boots.clean())
    forge_quote(procedure.machine, log)
    procedure.tpm.boot(boots.log_of(boots.without_secure_boot()))
    unrestricted = own_key("fixedtpm|fixedparent|sensitivedataorigin|userwithauth|sign")
    ran = procedure.make_key({"tpm2_createak": unrestricted})
    yield stops_at("a key that isn't restricted", ran, "tpm2_print")
    # The attribute is bit 0 of the byte at offset 7.
    claimed = r"printf '\x05' | dd of=ak.pub bs=1 seek=7 conv=notrunc"
    ran = procedure.make_key({"tpm2_createak": f"{unrestricted}\n{claimed}"})
    yield stops_at("a key that isn't restricted, with a public area that says so", ran, "tpm2_activatecredential")
    # The attack is one: without the command that stopped it, all others end with 0.
    ran = procedure.make_key({"tpm2_createak": unrestricted}, without="tpm2_print -t TPM2B_PUBLIC ak.pub | grep")
    ran = procedure.verify(log, signed_by(AK)) if ran.ended_well else ran
    yield ends_well("a key whose attributes aren't looked at", ran)
    sound = next(it[2:] for it in procedure.keys if "tpm2_createak" in it)
    ran = procedure.make_key({"tpm2_createak": f"{unrestricted}\ncp ak.ctx own.key; tpm2_flushcontext -t\n{sound}"})
    yield ends_well("a sound key beside it", ran)
    for name, key in (("the sound key isn't given", AK), ("the other key signs", "own.key")):
        yield stops_at(f"a message that {name}", procedure.verify(log, signed_by(key)), "openssl dgst")


def other_tpm(procedure):
    """An endorsement key that no vendor certified, and the certificate of another TPM."""
    for name, signer, last in [
        ("an own", "-signkey own.pem", "openssl verify"),
        ("another TPM's", "-CA vendor.pem -CAkey vendor.key -force_pubkey own.pub", "tpm2_activatecredential"),
    ]:
        sent = f"""openssl genrsa -out own.pem 2048; openssl rsa -in own.pem -pubout -out own.pub
            openssl x509 -new -subj /CN=EK {signer} -out ek.crt"""
        yield stops_at(f"a certificate: {name}", procedure.make_key({"tpm2_getekcertificate": sent}), last)
    ran = procedure.make_key()
    yield ends_well("the TPM's own", ran)


# A CA that is in the folder of those that the verifier's system trusts, and certifies keys of machines.
HOUSE = """
mkdir system
openssl req -x509 -newkey ec -pkeyopt ec_paramgen_curve:P-256 -keyout house.key -nodes -subj /CN=House -out system/house.pem
openssl rehash system
"""


def other_authority(procedure):
    """The certificate of a key in a file, by a CA that isn't the vendor's, and that the verifier's system trusts."""
    tpm = procedure.tpm
    tpm.tool("bash", "-e", "-c", HOUSE)
    tpm.environment["SSL_CERT_DIR"] = f"{tpm.room}/system"
    sent = """openssl genrsa -out own.pem 2048; openssl rsa -in own.pem -pubout -out own.pub
        openssl x509 -new -force_pubkey own.pub -subj /CN=EK -CA system/house.pem -CAkey house.key -out ek.crt"""
    ran = procedure.make_key({"tpm2_getekcertificate": sent})
    yield stops_at("a certificate: by a CA that the system trusts", ran, "openssl verify")
    # The attack is one: it is trusted unless the command leaves those CAs out.
    trusted = tpm.run("openssl", "verify", "-CAfile", "vendor.pem", "ek.crt").returncode
    yield tells("a certificate: by a CA that isn't left out", trusted, 0)
    del tpm.environment["SSL_CERT_DIR"]


def replays(procedure):
    """Quotes of a clean boot, with another nonce and without one, once the machine booted otherwise."""
    log, machine, tpm = boots.log_of(boots.clean()), procedure.machine, procedure.tpm
    tpm.boot(log)
    tpm.registers("clean.txt", ["sha256"])
    for name, nonce in (("a replayed quote", "-q $nonce"), ("a quote without a nonce", "")):
        ran = procedure.verify(log, quote_of(QUOTED, nonce))
        yield tells(f"{name}: at its boot", ran.ended_well, bool(nonce))
        tpm.tool("cp", "boot.quote", f"{name}.quote")
        tpm.tool("cp", "boot.sig", f"{name}.sig")
    tpm.boot(boots.log_of(boots.with_commands(boots.SHELL)))
    for name in ("a replayed quote", "a quote without a nonce"):
        ran = procedure.verify(log, {"tpm2_quote": f"cp '{name}.quote' boot.quote; cp '{name}.sig' boot.sig"})
        yield stops_at(name, ran, "uefi_audit verify", "not nonce 0x")
        how = ["verify", "boot.log", "--quote", "boot.quote", "--pcrs", "sha256:0-9,14", "--nonce"]
        ending = machine.run(*how, "00" * 20, "--json")
        yield says(f"{name}, as JSON", ending, {1}, '"nonce_agrees":false')
        agrees = re.findall(r': agrees.*|"agrees":true', ending[1] + ran.text)
        yield tells(f"{name}: no verdict that it agrees", agrees, [])
        # The machine prints what it likes as its PCRs.
        ending = machine.run(*how, "00" * 20, "--registers", "clean.txt")
        yield tells(f"{name}, with PCRs: no verdict that it agrees", re.findall(": agrees.*", ending[1]), [])
        yield says(f"{name}, an empty nonce", machine.run(*how, ""), {2}, "--nonce")


ATTACKS = [honest, other_pcrs, other_bank, other_authority, other_tpm, replays, weak_key, other_key]

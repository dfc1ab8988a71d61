"""What `c/examples/quote.c` has to print: quotes, logs, and whether a quote is what was asked for and a log leads to it.

The quotes are those of a software TPM whose PCRs were extended as the logs say, by keys that hash by SHA-256. It was sent
no nonce for two of them.
"""
from pathlib import Path

import c_statuses

QUOTES = [
    "ff54434780180022000bde213066bcb2e45af5c1ef49eddb9df8b8141685d4d94a654f703f33f24bde3600080123456789ab"
    "cdef00000000000005d0000000010000000001201910230016363600000001000b03ff00000020312f22ee6b7daa0fcf66bf"
    "9e9b6c3e0d3b746c3aaa69ecf213b00cd7e68ce446",
    "ff54434780180022000bde213066bcb2e45af5c1ef49eddb9df8b8141685d4d94a654f703f33f24bde360000000000000000"
    "0614000000010000000001201910230016363600000001000b038100000020bdfd4926ecd611ee6fa67ceac3045f32b8e9c5"
    "b3b5fbebcfdbbaed1082f8ea52",
    "ff54434780180022000bde213066bcb2e45af5c1ef49eddb9df8b8141685d4d94a654f703f33f24bde360020001122334455"
    "66778899aabbccddeeff00112233445566778899aabbccddeeff000000000000064c00000001000000000120191023001636"
    "3600000002000403030000000b03810481002004e23d1d664f36ce1d0b99f1ace35d8c776073518dd55f1c7ac9c8fb6163e4"
    "a7",
    "ff54434780180022000b32536abaa9d80c180585b5fcd633c102aaa8a5914c4d2ba8e48e88dc477b4fae0002cafe00000000"
    "00000680000000010000000001201910230016363600000001000b03ffffff00203a5de426b8889dc1d03fe8e43f4080b209"
    "0f3529aa4bb450a7c8c401c472318b",
    "ff54434780180022000b32536abaa9d80c180585b5fcd633c102aaa8a5914c4d2ba8e48e88dc477b4fae0000000000000000"
    "06a6000000010000000001201910230016363600000001000c03004000002017b0761f87b081d5cf10757ccc89f12be355c7"
    "0e2e29df288b65b30710dcbcd1",
    "ff54434780180022000b32536abaa9d80c180585b5fcd633c102aaa8a5914c4d2ba8e48e88dc477b4fae0001ff0000000000"
    "0006cc000000010000000001201910230016363600000003000d03000080000403000100000b0300020000205b517952cbe9"
    "c4c147bc3f3434f9d82409e76d09ea58905aefe7fb5415912d9a",
]
# What is put into a quote without a nonce, and the offset at which.
NONCE, NONCE_AT = "a5", 42
# The banks and the PCRs of each, its clock and its nonce, as they are printed.
SHA1, SHA256, SHA384, SHA512 = (f"TPM_ALG_{it}" for it in ("SHA1", "SHA256", "SHA384", "SHA512"))
SHOWN = [
    ([f"{SHA256} 0 1 2 3 4 5 6 7"], 1488, "0123456789abcdef"),
    ([f"{SHA256} 0 7"], 1556, NONCE),
    ([f"{SHA1} 0 1", f"{SHA256} 0 7 10 16 23"], 1612, "00112233445566778899aabbccddeeff" * 2),
    ([f"{SHA256} {' '.join(map(str, range(24)))}"], 1664, "cafe"),
    ([f"{SHA384} 14"], 1702, NONCE),
    ([f"{SHA512} 23", f"{SHA1} 8", f"{SHA256} 9"], 1740, "ff"),
]
EXTENDED = {0: {4: b"\x33" * 20, 11: b"\x11" * 32}, 7: {11: b"\x22" * 32}}
SIZES = {4: 20, 11: 32}
AGREES, ANOTHER, NOT_COVERED = "the log agrees", "the nonce is another", "not covered:"
# For a quote, what is asked of it and what isn't covered.
ASKED = [
    (0, "sha256", "7", ""),
    (0, "sha256", "0,7,3", ""),
    (0, "sha256", "8", f"{SHA256} 8"),
    (0, "sha256", "23,0,7,9", f"{SHA256} 9 23"),
    (0, "sha1", "0", f"{SHA1} 0"),
    (0, "sm3_256", "0,1", "TPM_ALG_SM3_256 0 1"),
    (2, "sha1", "0,1", ""),
    (2, "sha1", "7", f"{SHA1} 7"),
    (2, "sha256", "1", f"{SHA256} 1"),
    (2, "sha256", "0,7,10,16,23", ""),
    (3, "sha256", "0,1,2,3,4,5,6,7,8,9,10,11,12,13,14,15,16,17,18,19,20,21,22,23", ""),
    (5, "sha512", "8", f"{SHA512} 8"),
]
# Arguments that are no bank, no PCRs and no nonce.
WRONG = [
    *((bank, "0", "01") for bank in ("", "sha", "SHA256", "sha3_256", "11")),
    *(("sha256", pcrs, "01") for pcrs in ("", ",", "0,", ",0", "0,,1", "24", "0,4294967296", "18446744073709551616", "0-7", "-1", "+1", " 1", "0x1", "1 ")),
    *(("sha256", "0", nonce) for nonce in ("", "1", "012", "0g", "g0", "+1", "0x01", "01 ", "not hex", "00" * 1025)),
]


def little(number, size):
    return number.to_bytes(size, "little")


def log_of(banks, events):
    """A version 2 log with these banks, and events of these PCRs, each with the digests of these banks."""
    table = b"".join(little(bank, 2) + little(SIZES[bank], 2) for bank in banks)
    header = b"Spec ID Event03\0" + bytes([0, 0, 0, 0, 0, 2, 0, 2]) + little(len(banks), 4) + table + b"\0"
    log = little(0, 4) + little(3, 4) + bytes(20) + little(len(header), 4) + header
    for pcr, kind, those in events:
        digests = b"".join(little(bank, 2) + EXTENDED[pcr][bank] for bank in those)
        log += little(pcr, 4) + little(kind, 4) + little(len(those), 4) + digests + little(0, 4)
    return log


# Both banks of the TPM, one of them, the other one in the event of another PCR, so that PCR 0 of SHA-1 is undetermined, and
# an event that extends nothing.
LOGS = {
    "both": log_of([4, 11], [(0, 8, [4, 11]), (7, 4, [11])]),
    "sha256": log_of([11], [(0, 8, [11]), (7, 4, [11])]),
    "lacking": log_of([4, 11], [(0, 8, [4, 11]), (7, 4, [11]), (0, 4, [11])]),
    "measures-nothing": log_of([4, 11], [(0, 3, [4, 11])]),
}
# What is said of a quote and a log, where the nonce is the one that was sent.
LACKS = "the log has no bank"
VERDICTS = {
    "both": [AGREES] * 4 + [f"{LACKS} {SHA384}", f"{LACKS} {SHA512}"],
    "sha256": [AGREES, AGREES, f"{LACKS} {SHA1}", AGREES, f"{LACKS} {SHA384}", f"{LACKS} {SHA512}"],
    "measures-nothing": [f"{LACKS} {banks[0].split()[0]}" for banks, _, _ in SHOWN],
}
UNDETERMINED = f"PCR 0 of bank {SHA1} is undetermined by event 2 at 191: {c_statuses.NO_DIGEST}"


def shown(index, verdict):
    banks, clock, nonce = SHOWN[index]
    lines = [*(f"bank {it}" for it in banks), f"clock {clock} resets 1 restarts 0", "firmware 2019102300163636", f"nonce {nonce}", verdict]
    return 0 if verdict == AGREES else 1, "".join(f"{it}\n" for it in lines).encode()


def with_nonce(quote):
    """A quote with a nonce, where the TPM was sent none."""
    empty = quote[NONCE_AT : NONCE_AT + 2] == bytes(2)
    return quote[:NONCE_AT] + b"\0\1" + bytes.fromhex(NONCE) + quote[NONCE_AT + 2 :] if empty else quote


def first_asked(index):
    """The first bank of a quote with its PCRs, and its nonce, as arguments."""
    bank, *pcrs = SHOWN[index][0][0].split()
    return [bank.removeprefix("TPM_ALG_").lower(), ",".join(pcrs), SHOWN[index][2]]


def written(room, name, content):
    Path(f"{room}/{name}").write_bytes(content)
    return f"{room}/{name}"


def rows(room):
    """The arguments of each run, and what it has to end with."""
    quotes = [written(room, f"quote{index}", with_nonce(bytes.fromhex(it))) for index, it in enumerate(QUOTES)]
    logs = {name: written(room, f"{name}.log", log) for name, log in LOGS.items()}
    for name, verdicts in VERDICTS.items():
        for index, verdict in enumerate(verdicts):
            yield [quotes[index], logs[name], *first_asked(index)], shown(index, verdict)
    yield [quotes[2], logs["lacking"], *first_asked(2)], shown(2, UNDETERMINED)
    yield from of_arguments(room, quotes, logs)
    yield from of_quotes(room, logs)
    # A log of the same events, cut inside the last one, and none.
    start = len(LOGS["sha256"]) - 50
    for name, content, why in ("cut", LOGS["sha256"][:-1], f"{start}: {c_statuses.LEFT_OVER}"), ("none", b"", f"0: {c_statuses.NO_EVENT}"):
        log = written(room, f"{name}.log", content)
        yield [quotes[0], log, *first_asked(0)], (2, f"no whole log, at {why}\n".encode())


def of_arguments(room, quotes, logs):
    """Runs over what is asked of a quote, and over arguments that are wrong or missing."""
    for index, bank, pcrs, lacking in ASKED:
        verdict = f"{NOT_COVERED} {lacking}" if lacking else AGREES
        yield [quotes[index], logs["both"], bank, pcrs, SHOWN[index][2]], shown(index, verdict)
    bank, pcrs, nonce = first_asked(0)
    yield [quotes[0], logs["both"], bank, pcrs, nonce.upper()], shown(0, AGREES)
    for other in ("00", nonce[:-2], f"{nonce}00", f"{nonce[:-1]}e"):
        yield [quotes[0], logs["both"], bank, pcrs, other], shown(0, ANOTHER)
    # The nonce is told before the PCRs.
    yield [quotes[0], logs["both"], "sha1", "23", "00"], shown(0, ANOTHER)
    for wrong in WRONG:
        yield [quotes[0], logs["both"], *wrong], (2, b"")
    whole = [quotes[0], logs["both"], bank, pcrs, nonce]
    for given in (*(whole[:count] for count in range(5)), [*whole, nonce], [f"{room}/missing", *whole[1:]]):
        yield given, (2, b"")


def of_quotes(room, logs):
    """Runs over quotes that no TPM made, of the bytes of those that one did."""
    asked, whole = first_asked(0), bytes.fromhex(QUOTES[0])
    # As the TPM made it, without a nonce.
    status, lines = shown(1, ANOTHER)
    without = written(room, "without", bytes.fromhex(QUOTES[1]))
    yield [without, logs["both"], *first_asked(1)], (status, lines.replace(b"nonce a5", b"nonce "))
    # A bank in two selections: its PCRs are those of both.
    quote = with_nonce(bytes.fromhex(QUOTES[1]))
    split = written(room, "split", quote[:-44] + bytes.fromhex("00000002 000b03010000 000b03800000") + quote[-34:])
    lines = shown(1, AGREES)[1].replace(b" 0 7\n", b" 0\nbank TPM_ALG_SHA256 7\n")
    yield [split, logs["both"], *first_asked(1)], (0, lines)
    # A digest of another value, and of a length that no hash function has.
    other, short = written(room, "other", whole[:-1] + b"\0"), written(room, "short", whole[:-34] + b"\0\1\0")
    yield [other, logs["both"], *asked], shown(0, f"the log leads to {QUOTES[0][-64:]}")
    yield [short, logs["both"], *asked], shown(0, f"no digest: {c_statuses.NO_HASH}")
    # A quote of no PCR, to which any log leads: its digest is SHA-256 of no bytes.
    of_none = "e3b0c44298fc1c149afbf4c8996fb92427ae41e4649b934ca495991b7852b855"
    of_none = written(room, "of-none", whole[:-44] + bytes(4) + b"\0\x20" + bytes.fromhex(of_none))
    status, lines = shown(0, f"{NOT_COVERED} {SHOWN[0][0][0]}")
    for log in logs.values():
        yield [of_none, log, *asked], (status, lines.split(b"\n", 1)[1])
    for number, (text, message) in enumerate(zip(c_statuses.OF_QUOTES, faults(whole), strict=True)):
        yield [written(room, f"fault{number}", message), logs["both"], *asked], (2, f"no quote: {text}\n".encode())


def faults(whole):
    """Bytes with each fault."""
    safe, selection = len(whole) - 53, len(whole) - 40
    yield b"\0" + whole[1:]
    yield whole[:5] + b"\x17" + whole[6:]
    yield whole[:safe] + b"\2" + whole[safe + 1:]
    yield whole[:selection + 2] + b"\5" + whole[selection + 3:]
    yield whole[:-1]
    yield whole + b"\0"

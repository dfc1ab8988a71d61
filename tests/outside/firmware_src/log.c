/* The event log of EFI_TCG2_PROTOCOL.GetEventLog, with firmware's own last entry, and what the TPM's PCRs hold, by
 * TPM2_PCR_Read (TPM 2.0 Library, part 3, 22.4): those of a bank that can be replayed are what uefi_replay_pcr gives of
 * the log. */
#include "app.h"

/* How often the walk is repeated: firmware takes interrupts on the stack of the library's functions. */
#define REPEATS 2000
#define PCR_COUNT 24
#define EFI_LOG_FORMAT_2 2
#define TCG2_PROTOCOL_GUID {0x607f766c, 0x7455, 0x42be, {0x93, 0x0b, 0xe4, 0xd7, 0x6d, 0xb2, 0x72, 0x0f}}

/* TCG EFI Protocol Specification, 6.4 "EFI_TCG2_PROTOCOL.GetCapability". */
typedef struct {
    uint8_t size, structure_version[2], protocol_version[2];
    uint32_t hash_algorithms, event_log_formats;
    bool has_tpm;
    uint16_t max_command_size, max_response_size;
    uint32_t manufacturer, bank_count, active_banks;
} EfiTcg2Capability;

typedef struct EfiTcg2 {
    EFI_STATUS (*get_capability)(struct EfiTcg2 *, EfiTcg2Capability *);
    EFI_STATUS (*get_event_log)(struct EfiTcg2 *, uint32_t, uint64_t *, uint64_t *, bool *);
    void *hash_log_extend_event;
    EFI_STATUS (*submit_command)(struct EfiTcg2 *, uint32_t, const uint8_t *, uint32_t, uint8_t *);
} EfiTcg2;

/* Each bank that firmware may use: its bit in `active_banks`, its algorithm, and the name of its lines. */
typedef struct {
    uint32_t bit;
    uint16_t algorithm;
    const char *name;
} Bank;

static const Bank banks[] = {{1, 0x4, "sha1"}, {2, 0xb, "sha256"}, {4, 0xc, "sha384"}, {8, 0xd, "sha512"},
                             {16, 0x12, "sm3_256"}};

static EfiTcg2 *tcg2;
static UefiWorkspace workspace;
static UefiBytes log;
static size_t last_entry, event_count, digest_count;

/* Walks over the bytes of a log, counts what they have, and returns where the last event ends. The status says why. */
static size_t walk(UefiBytes bytes, UefiStatus *status) {
    UefiLogHeader header;
    UefiEvent2 event;
    UefiDigest digest;
    size_t at = 0;
    event_count = digest_count = 0;
    *status = BOTH(header, uintn_size, at, log2_header, bytes, last_entry, &header);
    if (*status != UEFI_OK)
        return 0;
    at = header.event_end;
    while ((*status = BOTH(event, event_type, at, log2_next, bytes, last_entry, header.rows, &at, &event)) == UEFI_OK) {
        for (size_t next = 0; BOTH(digest, algorithm, next, digest_next, event.digests, header.rows, &next, &digest) == UEFI_OK;)
            digest_count++;
        event_count++;
    }
    return at;
}

/* What firmware has logged up to now. False if there is no log. */
static bool get_log(void) {
    uint64_t start = 0, last = 0;
    bool truncated = false;
    if (tcg2->get_event_log(tcg2, EFI_LOG_FORMAT_2, &start, &last, &truncated) != EFI_SUCCESS || !start)
        return false;
    expect(!truncated, "the log isn't truncated");
    log = readable_from((const void *)start);
    last_entry = uefi_last_entry(start, last);
    return true;
}

/* What uefi_log_read says of the bytes of a log. */
static UefiStatus judge(UefiBytes bytes) {
    size_t at = 77, by_plain = 77;
    UefiStatus status = uefi_log_read(bytes, last_entry, &at);
    expect(plain_log_read(bytes, last_entry, &by_plain) == status && by_plain == at, "log_read");
    return status;
}

static void compare_log(void) {
    UefiStatus status;
    size_t end = walk(log, &status), events = event_count;
    expect(status == UEFI_END && judge(log) == UEFI_OK, "a whole log");
    print("event log, %u bytes, last entry %u, %u digests: %u events\n", end, last_entry, digest_count, events);
    /* No byte of the log is lost; with one byte fewer the last event is. */
    log = uefi_bytes(log.at, end);
    walk(uefi_bytes(log.at, end - 1), &status);
    expect(event_count == events - 1 && status == UEFI_CUT, "a cut log");
    expect(judge(uefi_bytes(log.at, end - 1)) == UEFI_LEFT_OVER, "what is wrong with a cut log");
    for (size_t k = 0; k < REPEATS; k++)
        expect(walk(log, &status) == end && event_count == events, "a walk with interrupts on");
    print("file event.log %b\nlast_entry %u\n", &log, last_entry);
}

static uint32_t big_u32(const uint8_t *at) {
    return (uint32_t)at[0] << 24 | (uint32_t)at[1] << 16 | (uint32_t)at[2] << 8 | at[3];
}

/* How often a PCR changed since the TPM started, as each response says: it must stay the same. */
static uint32_t changes;
static size_t replayed;

/* Asks the TPM for a PCR, and compares it with what the log leaves in it. */
static void read_pcr(const Bank *bank, unsigned index) {
    uint8_t response[128] = {0}, command[20] = {0x80, 0x01, [5] = 20, [8] = 0x01, 0x7e, [13] = 1};
    command[15] = (uint8_t)bank->algorithm, command[16] = 3;
    command[17 + index / 8] = (uint8_t)(1 << index % 8);
    bool is_read = tcg2->submit_command(tcg2, sizeof command, command, sizeof response, response) == EFI_SUCCESS;
    if (!expect(is_read && !big_u32(response + 6) && big_u32(response + 24) == 1, "the TPM tells its PCRs"))
        return;
    expect(!changes || changes == big_u32(response + 10), "no PCR changed since");
    changes = big_u32(response + 10);
    UefiBytes value = uefi_bytes(response + 30, response[29]);
    UefiPcr pcr;
    print("pcr %u %b\n", (uint64_t)index, &value);
    UefiStatus status = uefi_replay_pcr(log, last_entry, bank->algorithm, UEFI_LOCALITY_OF_LOG, index, &workspace, &pcr);
    if (status == UEFI_NO_HASH)
        return;
    bool same = status == UEFI_OK && pcr.size == value.n && !memcmp(pcr.value, value.at, value.n);
    expect(same, "a PCR is as the log leaves it");
    replayed++;
}

static void read_pcrs(void) {
    EfiTcg2Capability capability = {.size = sizeof capability};
    expect(tcg2->get_capability(tcg2, &capability) == EFI_SUCCESS, "the TPM's banks");
    for (const Bank *bank = banks; bank < banks + sizeof banks / sizeof *banks; bank++) {
        if (!(capability.active_banks & bank->bit))
            continue;
        print("bank %s\n", bank->name);
        for (unsigned index = 0; index < PCR_COUNT; index++)
            read_pcr(bank, index);
    }
    print("PCR changes %u, replayed %u\n", (uint64_t)changes, replayed);
}

void read_log(void) {
    static EFI_GUID guid = TCG2_PROTOCOL_GUID;
    bool has_tpm = firmware->BootServices->LocateProtocol(&guid, NULL, (void **)&tcg2) == EFI_SUCCESS;
    if (!expect(has_tpm && get_log(), "there is an event log"))
        return;
    compare_log();
    read_pcrs();
    size_t before = last_entry;
    expect(get_log() && last_entry == before, "nothing was logged since");
}

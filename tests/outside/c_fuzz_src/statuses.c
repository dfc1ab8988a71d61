/* Which statuses each call returns: all of them, and no other. */
#include "fuzz.h"

typedef struct {
    const char *call;
    UefiStatus statuses[16]; /* but for UEFI_OK, which ends them */
} Call;

#define FAULTS_OF_QUOTES UEFI_NOT_GENERATED, UEFI_NOT_QUOTE, UEFI_BAD_SAFE, UEFI_BAD_SELECTION, UEFI_TOO_SHORT, UEFI_LEFT_OVER

/* Those of bytes that are more than a size_t of 32 bits can state. */
#if HAS_HUGE
#define TOO_LONG_ALSO , UEFI_TOO_LONG
#define TOO_MANY_ALSO , UEFI_TOO_MANY_ALGORITHMS
#else
#define TOO_LONG_ALSO
#define TOO_MANY_ALSO
#endif

#define FAULTS_OF_PCRS                                                                              \
    UEFI_NO_DIGEST, UEFI_TWO_DIGESTS, UEFI_OTHER_LENGTH, UEFI_UNKNOWN_LOCALITY, UEFI_OTHER_LOCALITY, UEFI_LATE_LOCALITY

static const Call calls[] = {
    {"config_next_pair", {UEFI_END}},
    {"hex", {UEFI_BUFFER_TOO_SMALL, UEFI_NOT_TEXT}},
    {"config_name", {UEFI_BUFFER_TOO_SMALL, UEFI_NOT_TEXT}},
    {"config_number", {UEFI_NOT_NUMBER}},
    {"variable", {UEFI_OTHER_DATA}},
    {"image", {UEFI_OTHER_DATA}},
    {"blob", {UEFI_OTHER_DATA}},
    {"blob2", {UEFI_OTHER_DATA}},
    {"event_text", {UEFI_OTHER_DATA}},
    {"event_crtm_version", {UEFI_OTHER_DATA}},
    {"tagged_next", {UEFI_END, UEFI_CUT}},
    {"boot_order", {UEFI_OTHER_DATA, UEFI_END}},
    {"signature_list_next", {UEFI_END, UEFI_BAD_SIGNATURE_LIST}},
    {"signature", {UEFI_OTHER_DATA}},
    {"signature_next", {UEFI_END, UEFI_CUT, UEFI_BAD_SIGNATURE_SIZE}},
    {"gpt_header", {UEFI_OTHER_DATA}},
    {"gpt_entry", {UEFI_OTHER_DATA, UEFI_END}},
    {"log", {UEFI_NO_EVENT, UEFI_TOO_MANY_ALGORITHMS, UEFI_LEFT_OVER}},
    {"log_next", {UEFI_END, UEFI_NO_EVENT, UEFI_CUT, UEFI_CROSSES_LAST_ENTRY, UEFI_UNKNOWN_ALGORITHM, UEFI_TOO_MANY_DIGESTS
                  TOO_MANY_ALSO}},
    {"event_digest", {UEFI_NO_DIGEST, UEFI_NO_EVENT, UEFI_CUT, UEFI_UNKNOWN_ALGORITHM TOO_MANY_ALSO}},
    {"log_replay", {UEFI_NO_HASH}},
    {"log_read", {UEFI_NO_EVENT, UEFI_TOO_MANY_ALGORITHMS, UEFI_LEFT_OVER}},
    {"log1_next", {UEFI_END, UEFI_CUT, UEFI_CROSSES_LAST_ENTRY}},
    {"log2_header", {UEFI_NO_HEADER}},
    {"log2_next", {UEFI_END, UEFI_CUT, UEFI_CROSSES_LAST_ENTRY, UEFI_UNKNOWN_ALGORITHM, UEFI_TOO_MANY_DIGESTS
                   TOO_MANY_ALSO}},
    {"digest_next", {UEFI_END, UEFI_CUT, UEFI_UNKNOWN_ALGORITHM TOO_MANY_ALSO}},
    {"log2_digest", {UEFI_NO_EVENT, UEFI_NO_DIGEST}},
    {"write_event", {UEFI_BUFFER_TOO_SMALL TOO_LONG_ALSO}},
    {"write_event_inputs", {UEFI_BUFFER_TOO_SMALL TOO_LONG_ALSO}},
    {"event_type_name", {UEFI_NO_NAME}},
    {"algorithm_name", {UEFI_NO_NAME}},
    {"memory_type_name", {UEFI_NO_NAME}},
    {"map_check", {UEFI_NOT_MAP}},
    {"map_entry", {UEFI_NOT_MAP, UEFI_END}},
    {"map_set", {UEFI_NOT_MAP, UEFI_END}},
    {"path", {UEFI_NO_PATH}},
    {"path_at", {UEFI_NO_END, UEFI_CUT, UEFI_SHORT_NODE}},
    {"path_next_node", {UEFI_END, UEFI_NO_END, UEFI_CUT, UEFI_SHORT_NODE}},
    {"path_next_instance", {UEFI_END, UEFI_NO_END, UEFI_CUT, UEFI_SHORT_NODE}},
    {"path_fault", {UEFI_NO_END, UEFI_CUT, UEFI_SHORT_NODE}},
    {"path_append", {UEFI_BUFFER_TOO_SMALL, UEFI_NO_PATH}},
    {"path_append_node", {UEFI_BUFFER_TOO_SMALL, UEFI_NO_PATH, UEFI_ENDS_PATH, UEFI_TOO_LONG}},
    {"write_node", {UEFI_BUFFER_TOO_SMALL, UEFI_TOO_LONG}},
    {"path_text", {UEFI_BUFFER_TOO_SMALL, UEFI_NO_PATH}},
    {"node_text", {UEFI_BUFFER_TOO_SMALL, UEFI_NO_END, UEFI_CUT, UEFI_SHORT_NODE}},
    {"path_from_text", {UEFI_BUFFER_TOO_SMALL, UEFI_NOT_TEXT, UEFI_UNKNOWN_NODE, UEFI_UNEXPECTED_CHARACTER, UEFI_MISSING_TEXT,
                        UEFI_TOO_LONG}},
    {"write_load_option", {UEFI_BUFFER_TOO_SMALL, UEFI_NO_FILE_PATH, UEFI_NOT_NUL_TERMINATED, UEFI_TOO_LONG}},
    {"guid_from_text", {UEFI_NOT_TEXT}},
    {"pci_node", {UEFI_OTHER_DATA}},
    {"acpi_node", {UEFI_OTHER_DATA}},
    {"usb_node", {UEFI_OTHER_DATA}},
    {"sata_node", {UEFI_OTHER_DATA}},
    {"nvme_node", {UEFI_OTHER_DATA}},
    {"mac_node", {UEFI_OTHER_DATA}},
    {"ipv4_node", {UEFI_OTHER_DATA}},
    {"ipv6_node", {UEFI_OTHER_DATA}},
    {"uri_node", {UEFI_OTHER_DATA}},
    {"hard_drive_node", {UEFI_OTHER_DATA}},
    {"file_path_node", {UEFI_OTHER_DATA}},
    {"vendor_node", {UEFI_OTHER_DATA}},
    {"write_pci_node", {UEFI_BUFFER_TOO_SMALL}},
    {"write_acpi_node", {UEFI_BUFFER_TOO_SMALL}},
    {"write_usb_node", {UEFI_BUFFER_TOO_SMALL}},
    {"write_sata_node", {UEFI_BUFFER_TOO_SMALL}},
    {"write_nvme_node", {UEFI_BUFFER_TOO_SMALL}},
    {"write_mac_node", {UEFI_BUFFER_TOO_SMALL}},
    {"write_ipv4_node", {UEFI_BUFFER_TOO_SMALL}},
    {"write_ipv6_node", {UEFI_BUFFER_TOO_SMALL}},
    {"write_hard_drive_node", {UEFI_BUFFER_TOO_SMALL}},
    {"write_uri_node", {UEFI_BUFFER_TOO_SMALL, UEFI_TOO_LONG}},
    {"write_file_path_node", {UEFI_BUFFER_TOO_SMALL, UEFI_OTHER_DATA, UEFI_TOO_LONG}},
    {"write_vendor_node", {UEFI_BUFFER_TOO_SMALL, UEFI_OTHER_DATA, UEFI_TOO_LONG}},
    {"load_option_next_path", {UEFI_END, UEFI_NO_PATH}},
    {"load_option", {UEFI_TOO_SHORT, UEFI_NOT_NUL_TERMINATED, UEFI_FILE_PATH_LIST_TOO_LONG, UEFI_NO_FILE_PATH}},
    {"pci_next", {UEFI_END, UEFI_NO_END, UEFI_CUT, UEFI_UNKNOWN_TAG}},
    {"replay", {UEFI_NO_HASH}},
    {"replay_pcr", {UEFI_NO_HASH, UEFI_NO_PCR, FAULTS_OF_PCRS}},
    {"startup_locality", {UEFI_NO_LOCALITY}},
    {"quote", {FAULTS_OF_QUOTES}},
    {"quote_next_selection", {FAULTS_OF_QUOTES, UEFI_END}},
    {"quote_digest", {FAULTS_OF_QUOTES, UEFI_NO_HASH, UEFI_NO_BANK, FAULTS_OF_PCRS}},
    {"file_info", {UEFI_BUFFER_TOO_SMALL, UEFI_NOT_NUL_TERMINATED}},
    {"file_system_info", {UEFI_BUFFER_TOO_SMALL, UEFI_NOT_NUL_TERMINATED}},
    {"volume_label", {UEFI_NOT_NUL_TERMINATED}},
    {"write_file_info", {UEFI_BUFFER_TOO_SMALL, UEFI_NOT_TEXT}},
    {"write_file_system_info", {UEFI_BUFFER_TOO_SMALL, UEFI_NOT_TEXT}},
    {"write_volume_label", {UEFI_BUFFER_TOO_SMALL, UEFI_NOT_TEXT}},
    {"ucs2_text", {UEFI_BUFFER_TOO_SMALL, UEFI_NOT_TEXT}},
    {"ucs2_units", {UEFI_BUFFER_TOO_SMALL, UEFI_NOT_TEXT}},
    {"time", {UEFI_TOO_SHORT, UEFI_BAD_TIME}},
    {"time_faults", {UEFI_TOO_SHORT}},
    {"write_time", {UEFI_BAD_TIME}},
};

/* How often calls of a name returned each status. */
static void sum(const Count *all_calls, const char *name, size_t *sums) {
    memset(sums, 0, STATUSES * sizeof *sums);
    for (; all_calls; all_calls = all_calls->next)
        for (int i = 0; i < STATUSES && !strcmp(all_calls->name, name); i++) sums[i] += all_calls->results[i];
}

static bool returns(const Call *call, UefiStatus status) {
    const UefiStatus *it = call->statuses;
    while (*it && *it != status) it++;
    return *it == status;
}

static void need_of_call(const Count *all_calls, const Call *call, bool is_enough) {
    size_t sums[STATUSES];
    sum(all_calls, call->call, sums);
    printf("%s:", call->call);
    for (int i = 0; i < STATUSES; i++)
        if (sums[i]) printf(" %d:%zu", i, sums[i]);
    puts("");
    for (int i = 0; i < STATUSES; i++) {
        if (!sums[i] != returns(call, (UefiStatus)i)) continue;
        printf("status %d: %s\n", i, sums[i] ? "unexpected" : "never returned");
        if (sums[i] || is_enough) exit(1);
    }
}

static void need_of_bool(const Count *count, bool is_enough) {
    printf("%s: false:%zu true:%zu\n", count->name, count->results[0], count->results[1]);
    if (is_enough && (!count->results[0] || !count->results[1])) exit(1);
}

void need_statuses(const Count *all_calls, bool is_enough) {
    size_t names = 0;
    for (size_t i = 0; i < sizeof calls / sizeof *calls; i++) need_of_call(all_calls, &calls[i], is_enough);
    for (const Count *it = all_calls; it; it = it->next) {
        for (size_t i = 0; i < sizeof calls / sizeof *calls; i++) names += !strcmp(it->name, calls[i].call);
        if (it->is_bool) need_of_bool(it, is_enough), names++;
        if (!names) printf("%s has no row\n", it->name), exit(1);
        names = 0;
    }
}

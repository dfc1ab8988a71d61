/* Names of numbers, and texts of statuses. */
#include "fuzz.h"

typedef struct {
    uint32_t number;
    const char *name;
} Name;

#define OF(name) {UEFI_##name, #name}
static const Name event_types[] = {
    OF(EV_PREBOOT_CERT), OF(EV_POST_CODE), OF(EV_UNUSED), OF(EV_NO_ACTION), OF(EV_SEPARATOR), OF(EV_ACTION),
    OF(EV_EVENT_TAG), OF(EV_S_CRTM_CONTENTS), OF(EV_S_CRTM_VERSION), OF(EV_CPU_MICROCODE),
    OF(EV_PLATFORM_CONFIG_FLAGS), OF(EV_TABLE_OF_DEVICES), OF(EV_COMPACT_HASH), OF(EV_IPL),
    OF(EV_IPL_PARTITION_DATA), OF(EV_NONHOST_CODE), OF(EV_NONHOST_CONFIG), OF(EV_NONHOST_INFO),
    OF(EV_OMIT_BOOT_DEVICE_EVENTS), OF(EV_POST_CODE2), OF(EV_EFI_VARIABLE_DRIVER_CONFIG), OF(EV_EFI_VARIABLE_BOOT),
    OF(EV_EFI_BOOT_SERVICES_APPLICATION), OF(EV_EFI_BOOT_SERVICES_DRIVER), OF(EV_EFI_RUNTIME_SERVICES_DRIVER),
    OF(EV_EFI_GPT_EVENT), OF(EV_EFI_ACTION), OF(EV_EFI_PLATFORM_FIRMWARE_BLOB), OF(EV_EFI_HANDOFF_TABLES),
    OF(EV_EFI_PLATFORM_FIRMWARE_BLOB2), OF(EV_EFI_HANDOFF_TABLES2), OF(EV_EFI_VARIABLE_BOOT2),
    OF(EV_EFI_GPT_EVENT2), OF(EV_EFI_HCRTM_EVENT), OF(EV_EFI_VARIABLE_AUTHORITY), OF(EV_EFI_SPDM_FIRMWARE_BLOB),
    OF(EV_EFI_SPDM_FIRMWARE_CONFIG), OF(EV_EFI_SPDM_DEVICE_POLICY), OF(EV_EFI_SPDM_DEVICE_AUTHORITY)};
static const Name memory_types[] = {
    OF(EfiReservedMemoryType), OF(EfiLoaderCode), OF(EfiLoaderData), OF(EfiBootServicesCode),
    OF(EfiBootServicesData), OF(EfiRuntimeServicesCode), OF(EfiRuntimeServicesData), OF(EfiConventionalMemory),
    OF(EfiUnusableMemory), OF(EfiACPIReclaimMemory), OF(EfiACPIMemoryNVS), OF(EfiMemoryMappedIO),
    OF(EfiMemoryMappedIOPortSpace), OF(EfiPalCode), OF(EfiPersistentMemory), OF(EfiUnacceptedMemoryType)};
static const Name algorithms[] = {
    OF(TPM_ALG_SHA1), OF(TPM_ALG_SHA256), OF(TPM_ALG_SHA384), OF(TPM_ALG_SHA512), OF(TPM_ALG_SM3_256),
    OF(TPM_ALG_SHA3_256), OF(TPM_ALG_SHA3_384), OF(TPM_ALG_SHA3_512)};

static bool is_name(UefiBytes name, const char *wanted) {
    return name.n == strlen(wanted) && !memcmp(name.at, wanted, name.n);
}

/* A number that has a name, or is near to one. */
static uint32_t number_of(const Name *names, size_t n) {
    return any() & 7 ? names[below(n)].number + (any() & 3 ? 0 : 1) : any();
}

/* Calls uefi_NAME. It finds the number's name in the table, or else writes nothing. */
#define NAMED(call, table, of_number)                                                               \
    ({                                                                                              \
        size_t count = sizeof(table) / sizeof *(table), i = 0;                                      \
        __typeof__(of_number) number = number_of(table, count);                                     \
        UefiBytes name = {0};                                                                       \
        UefiStatus status = uefi_##call(number, &name);                                             \
        while (i < count && (table)[i].number != number) i++;                                       \
        NEED(status == (i < count ? UEFI_OK : UEFI_NO_NAME));                                       \
        NEED(status == UEFI_OK ? is_name(name, (table)[i].name) : !name.at && !name.n);             \
        COUNTED(call, status);                                                                      \
    })

/* Each status has a text of ASCII, and all other numbers the same one. */
static void one_status(void) {
    uint32_t number = any() & 7 ? below(STATUSES + 2) : any();
    UefiBytes text;
    uefi_status_text((UefiStatus)number, &text);
    NEED(text.n && is_name(text, "unknown status") == (number >= STATUSES));
    for (size_t i = 0; i < text.n; i++) NEED(text.at[i] >= ' ' && text.at[i] <= '~');
}

void numbers(void) {
    NAMED(event_type_name, event_types, (uint32_t)0), NAMED(memory_type_name, memory_types, (uint32_t)0);
    NAMED(algorithm_name, algorithms, (uint16_t)0);
    one_status();
}

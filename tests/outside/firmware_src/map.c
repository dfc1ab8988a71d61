/* The memory map that GetMemoryMap gives at this moment (UEFI 2.10, 7.2). */
#include "app.h"

static UefiBytes map;
static UINTN stride;

static bool get_map(void) {
    EFI_BOOT_SERVICES *boot = firmware->BootServices;
    static uint8_t room[1 << 16];
    UINTN size = sizeof room, key;
    UINT32 version;
    if (boot->GetMemoryMap(&size, (void *)room, &key, &stride, &version) != EFI_SUCCESS)
        return false;
    map = uefi_bytes(room, size);
    return true;
}

#ifdef PLANT
/* Turns a bit of one descriptor. */
static UefiStatus turned(UefiBytes bytes, size_t size, size_t index, UefiDescriptor *out) {
    UefiStatus status = uefi_map_entry(bytes, size, index, out);
    out->memory_type ^= index == 3;
    return status;
}
#define uefi_map_entry turned
#endif

bool read_map(void) {
    UefiDescriptor entry = {.memory_type = 77};
    size_t count = 0, none = 0;
    bool is_sorted = true;
    if (!get_map())
        return false;
    expect(uefi_map_check(map, stride) == UEFI_OK, "the map is one");
    expect(uefi_map_check(uefi_bytes(map.at, map.n - 1), stride) == UEFI_NOT_MAP, "a cut map");
    expect(uefi_map_entry(map, stride, (size_t)-1, &entry) == UEFI_END && entry.memory_type == 77, "no last descriptor");
    expect(uefi_map_entry(map, 39, 0, &entry) == UEFI_NOT_MAP && entry.memory_type == 77, "a stride of 39");
    for (uint64_t last = 0; BOTH(entry, attribute, none, map_entry, map, stride, count, &entry) == UEFI_OK; count++) {
        is_sorted &= last <= entry.phys_start;
        last = entry.phys_start;
    }
    expect(uefi_map_is_sorted(map, stride) == is_sorted, "whether the map is sorted");
    print("memory map, %u bytes, stride %u: %u descriptors\n", map.n, stride, count);
    print("file memory.map %b\n", &map);
    return true;
}

UefiBytes readable_from(const void *at) {
    UefiDescriptor entry;
    for (size_t i = 0; uefi_map_entry(map, stride, i, &entry) == UEFI_OK; i++) {
        uint64_t end = entry.phys_start + 4096 * entry.page_count;
        if (entry.phys_start <= (uint64_t)at && (uint64_t)at < end)
            return uefi_bytes(at, (size_t)(end - (uint64_t)at));
    }
    return uefi_bytes(NULL, 0);
}

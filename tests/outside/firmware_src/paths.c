/* Device paths (UEFI 2.10, chapter 10): that of the loaded image, those of the variable ConOut, and each
 * that a handle has. The first two are printed, as firmware writes them. */
#include "app.h"

static size_t length_by_firmware(const uint8_t *path) {
    static EFI_GUID guid = EFI_DEVICE_PATH_UTILITIES_PROTOCOL_GUID;
    EFI_DEVICE_PATH_UTILITIES_PROTOCOL *utilities = NULL;
    firmware->BootServices->LocateProtocol(&guid, NULL, (void **)&utilities);
    return utilities ? utilities->GetDevicePathSize((const EFI_DEVICE_PATH_PROTOCOL *)path) : 0;
}

/* Whether the text in UTF-8 has these units as its characters, up to their NUL. */
static bool has_units(UefiBytes text, const CHAR16 *units) {
    static uint8_t room[4096];
    size_t n = 0, size;
    while (units[n])
        n++;
    UefiBytes bytes = uefi_bytes(units, 2 * (n + 1));
    return uefi_ucs2_text(uefi_buffer(room, sizeof room), bytes, &size) == UEFI_OK && size == text.n && !memcmp(room, text.at, size);
}

/* Prints the text of the path, which firmware writes alike, and reads it back. */
static void show_text(const char *file, UefiBytes path) {
    static EFI_GUID guid = EFI_DEVICE_PATH_TO_TEXT_PROTOCOL_GUID;
    static uint8_t room[2048], again[2048];
    EFI_DEVICE_PATH_TO_TEXT_PROTOCOL *texts = NULL;
    size_t size, length, fault;
    firmware->BootServices->LocateProtocol(&guid, NULL, (void **)&texts);
    if (!expect(texts && uefi_path_text(uefi_buffer(room, sizeof room - 1), path, 0, &size) == UEFI_OK, "a path has a text"))
        return;
    CHAR16 *wanted = texts->ConvertDevicePathToText((EFI_DEVICE_PATH_PROTOCOL *)path.at, FALSE, FALSE);
    expect(wanted && has_units(uefi_bytes(room, size), wanted), "a path's text by firmware");
    expect(uefi_path_from_text(uefi_buffer(again, sizeof again), uefi_bytes(room, size), &fault, &length) == UEFI_OK, "a path's text is read");
    expect(length == path.n && !memcmp(again, path.at, length), "the path of its text");
    room[size] = 0;
    print("%s is %s\n", file, (const char *)room);
}

/* Reads the path that begins there, and returns the count of its nodes. With a file, it is shown. */
static size_t read_path(const char *file, UefiBytes bytes) {
    UefiBytes path, cut, instance;
    UefiNode node;
    size_t none = 0, count = 0;
    if (!expect(BOTH(path, n, none, path, bytes, &path) == UEFI_OK, "a path"))
        return 0;
    expect(path.n == length_by_firmware(bytes.at), "a path's length by firmware");
    expect(uefi_path_at(bytes.at, bytes.n, &cut) == UEFI_OK && cut.n == path.n, "a path without a length");
    expect(uefi_path(uefi_bytes(path.at, path.n - 1), &cut) == UEFI_NO_PATH, "a cut path");
    for (size_t next = 0; BOTH(instance, n, next, path_next_instance, path, &next, &instance) == UEFI_OK;)
        for (size_t at = 0; BOTH(node, sub_type, at, path_next_node, instance, &at, &node) == UEFI_OK;)
            count++;
    if (file) {
        print("%s, %u bytes: %u nodes\nfile %s %b\n", file, path.n, count, file, &path);
        show_text(file, path);
    }
    return count;
}

static void read_console(void) {
    static EFI_GUID guid = EFI_GLOBAL_VARIABLE;
    static CHAR16 name[] = {'C', 'o', 'n', 'O', 'u', 't', 0};
    static uint8_t room[1024];
    UINTN size = sizeof room;
    EFI_STATUS status = firmware->RuntimeServices->GetVariable(name, &guid, NULL, &size, room);
    if (expect(status == EFI_SUCCESS, "there is a variable ConOut"))
        read_path("con-out.dp", uefi_bytes(room, size));
}

/* The path that a handle has by a protocol; NULL for none. */
static void *path_of(EFI_HANDLE handle, EFI_GUID protocol) {
    void *path = NULL;
    return firmware->BootServices->HandleProtocol(handle, &protocol, &path) == EFI_SUCCESS ? path : NULL;
}

static void read_all_handles(void) {
    static EFI_GUID guid = EFI_DEVICE_PATH_PROTOCOL_GUID;
    UINTN n = 0;
    size_t paths = 0, nodes = 0;
    EFI_HANDLE *handles = NULL;
    firmware->BootServices->LocateHandleBuffer(ByProtocol, &guid, NULL, &n, &handles);
    for (size_t i = 0; i < n; i++) {
        void *path = path_of(handles[i], guid);
        paths += path != NULL;
        nodes += path ? read_path(NULL, readable_from(path)) : 0;
    }
    print("paths of all handles: %u paths, %u nodes\n", paths, nodes);
}

void read_paths(EFI_HANDLE image) {
    void *path = path_of(image, (EFI_GUID)EFI_LOADED_IMAGE_DEVICE_PATH_PROTOCOL_GUID);
    if (expect(path != NULL, "the image has a path"))
        read_path("image.dp", readable_from(path));
    read_console();
    read_all_handles();
}

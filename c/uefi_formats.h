/* Device paths, memory maps, event logs, times, records, PCI resources and
 * configuration texts of UEFI firmware, and quotes of a TPM: readers and writers
 * for C.
 *
 *     // The events of a log, as EFI_TCG2_PROTOCOL.GetEventLog returns it:
 *     // `start` is EventLogLocation, `last` EventLogLastEntry, and `size` how
 *     // many bytes can be read from `start`.
 *     UefiBytes bytes = uefi_bytes((const void *)(uintptr_t)start, size), digest;
 *     UefiLog log;
 *     UefiEvent event;
 *     UefiStatus status = uefi_log(bytes, uefi_last_entry(start, last), &log);
 *     if (status != UEFI_OK)
 *         return damaged(status);
 *     while (uefi_log_next(&log, &event) == UEFI_OK)
 *         if (uefi_event_digest(&event, UEFI_TPM_ALG_SHA256, &digest) == UEFI_OK)
 *             measure(event.pcr_index, digest);
 *
 * Each reader's result is stated for all bytes. None reads a byte outside
 * those it is handed, writes anything but what its pointers point to, allocates,
 * keeps anything between calls, or needs a C library or an operating system.
 * The functions are written in Rattle, which is Rust with contracts that are
 * proved. Which archive has the proved functions is said below.
 *
 * Bytes. A function takes bytes as a UefiBytes: where they begin, and how
 * many there are. `at` is never NULL, also where `n` is 0; uefi_bytes() makes
 * one of any pointer and length, and of NULL no bytes. What a function returns
 * in a UefiBytes points into the bytes that it was passed; names, and the texts of
 * statuses, are constants of the archive.
 *
 * Results. A function that can fail returns a UefiStatus (status.h): UEFI_OK if
 * it succeeds. At another status `*offset`, `*out` and buffers are as they were,
 * unless its comment says something else. `*out` may be uninitialized: it is only
 * written. uefi_status_text makes a text of a status. A function that can't fail
 * returns its value.
 *
 * Cursors. A function that goes from one item to the next takes `offset`, a
 * number that the caller keeps: set it to the start, 0 if nothing else is
 * said, and call while the function returns UEFI_OK. It ends with UEFI_END where no
 * item follows, or with what is wrong with the one at the offset. An offset may be
 * any number, also past the end; the rows of a table any bytes: a caller's state
 * needs no trust. uefi_quote_next_selection takes `cursor`, an index, and
 * uefi_log_next a UefiLog, in the same way.
 *
 * Writers. A function that writes takes first what it writes to. Where it has a
 * parameter `size`, it writes to the beginning of the buffer. Then `*size` is the
 * length of what was written; at UEFI_BUFFER_TOO_SMALL that which the buffer needs;
 * at another status 0.
 *
 * What the caller owes, as for any C function: `at` points to `n` bytes that
 * can be read and stay as they are during the call; other pointers point to
 * their types, aligned, and overlap neither one another nor the bytes.
 *
 * Stack. docs/FIRMWARE.md says how much of it a call takes, by archive. What
 * uefi_log_replay, uefi_replay, uefi_replay_pcr and uefi_quote_digest need beside it
 * is in a UefiWorkspace of 12,288 bytes, which the caller passes. The 24 UefiPcr of
 * a replay are 2,304 bytes more (1,920 on i686).
 *
 * Which archive to link. `tools/build_c PREFIX` installs the first two of these,
 * `tools/build_c PREFIX --target TARGET` the third alone. The description in
 * uefi-formats.pc names the compilers and the target.
 *
 * - libuefi_formats.a beside libuefi_formats_user.a: proved, compiled by
 *   Rattle. For firmware and boot loaders, where interrupts come on the running
 *   stack: it uses no memory below the stack pointer. It changes vector
 *   registers (xmm0 to xmm15), also in calls that have no use for them. A kernel
 *   that links it saves them before a call, and sets CR4.OSFXSR before the first.
 * - libuefi_formats_user.a: proved, compiled by LLVM. For programs of an
 *   operating system: it uses the red zone, and changes xmm0 to xmm15 too.
 * - libuefi_formats.a alone: generated from the proved functions, compiled by
 *   rustc for a target. Those of x86_64-unknown-none and
 *   aarch64-unknown-none-softfloat are for kernels: they change no vector register,
 *   and that of x86_64-unknown-none uses no memory below the stack pointer. With
 *   --kernel, it is for Linux (docs/KERNEL.md). Of other targets, which are for
 *   programs, neither is checked: that of x86_64-unknown-linux-gnu uses the red zone,
 *   and expect a call to change each vector register that the calling convention
 *   lets a function change.
 *
 * Calling convention. UEFI_CALL names it to the compiler: see bytes.h.
 */
#ifndef UEFI_FORMATS_H
#define UEFI_FORMATS_H

#include "uefi_formats/bytes.h"
#include "uefi_formats/config.h"
#include "uefi_formats/event_data.h"
#include "uefi_formats/log.h"
#include "uefi_formats/log_at.h"
#include "uefi_formats/map.h"
#include "uefi_formats/node.h"
#include "uefi_formats/path.h"
#include "uefi_formats/pci.h"
#include "uefi_formats/pcr.h"
#include "uefi_formats/quote.h"
#include "uefi_formats/record.h"
#include "uefi_formats/status.h"
#include "uefi_formats/text.h"
#include "uefi_formats/time.h"

#endif

// @generated from proved source. It is not edited.

use crate::pcr_replay::ReadLog;
use crate::support::test::Fail;
use crate::test_support::{bytes, takes_memory};
use crate::uefi_audits::check::check_entries;
use crate::uefi_tcg::{LastEntry, Log, LogEntry};

/// A separator that matches and one that doesn't, a command of GRUB, a file of GRUB by its name, a
/// section of systemd-stub, and an event of a type without a name.
const LOG: &str =
    "00000000030000000000000000000000000000000000000000000000210000005370656320494420 \
    4576656e743033000000000000020002010000000400140000000000000400000001000000040090 \
    69ca78e7450a285173431b3e52c5c25299e473040000000000000000000000040000000100000004 \
    00d9be6524a5f5047db5866813acf3277892a7a30a0400000000000000080000000d000000010000 \
    00040065c10dc3549fe07424148a8a4790a3341ecbc2530e000000677275625f636d643a20736574 \
    00090000000d00000001000000040011f6ad8ec52a2984abaafd7c3b516503785c20720a0000002f \
    677275622e63666700080000000d0000000100000004000a04b971b03da607ce6c455184037b660c \
    a89f780400000061000000010000001100008001000000040095cb0bfd2977c761298d9624e4b4d4 \
    c72a39974a00000000";

/// Returns how many mismatches and how many types are found, if memory suffices.
fn found_counts(entries: &[LogEntry<'_>]) -> Option<(usize, usize)> {
    let found = check_entries(entries, None).ok()?;
    Some((found.mismatches.len(), found.types.len()))
}

#[test]
fn memory_runs_out_where_it_is_refused() -> Result<(), Fail> {
    let input = bytes(LOG)?;
    let log = Log::new(input.as_slice(), LastEntry::Unknown);
    let read = ReadLog::new(log)?;
    takes_memory(&(1, 3), || {
        found_counts(read.entries())
    })
}

//! Prints the SHA-256 digests of a boot log by PCR: `boot_log FILE`, on Linux over
//! `/sys/kernel/security/tpm0/binary_bios_measurements`.

use uefi_formats::proto::tcg::{AlgorithmId, LastEntry, Log};

fn main() -> Result<(), Box<dyn std::error::Error>> {
    let bytes = std::fs::read(std::env::args_os().nth(1).ok_or("usage: boot_log FILE")?)?;
    // A log that is cut or broken is an error. A cut between two events, or in zeros that one
    // begins with, is seen only with `LastEntry::At(offset)`, which firmware states, not Linux.
    let log = Log::read(&bytes, LastEntry::Unknown)?;
    for entry in log.entries() {
        for (algorithm, digest) in entry.event.digests() {
            if algorithm == AlgorithmId::SHA256 {
                let hex: String = digest.iter().map(|byte| format!("{byte:02x}")).collect();
                println!("{:>2} {hex}", entry.event.pcr_index().0);
            }
        }
    }
    Ok(())
}

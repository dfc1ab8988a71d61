// @generated from proved source. It is not edited.

//! The names of banks, as tpm2-tools has them, and the banks of algorithms.

use uefi_formats::pcr::Bank;
use uefi_formats::proto::tcg::AlgorithmId;

/// The names of the banks that can be replayed, as tpm2-tools has them.
pub const BANK_NAMES: [&str; 5] = ["sha1", "sha256", "sha384", "sha512", "sm3_256"];

/// Returns the name of a bank, as tpm2-tools has it.
pub fn bank_name(bank: Bank) -> &'static str {
    match bank {
        Bank::Sha1 => "sha1",
        Bank::Sha256 => "sha256",
        Bank::Sha384 => "sha384",
        Bank::Sha512 => "sha512",
        Bank::Sm3 => "sm3_256",
        _ => unreachable!(),
    }
}

/// Returns the bank of this name; `None` if no bank that can be replayed has it.
pub fn bank_named(name: &str) -> Option<Bank> {
    match name {
        "sha1" => Some(Bank::Sha1),
        "sha256" => Some(Bank::Sha256),
        "sha384" => Some(Bank::Sha384),
        "sha512" => Some(Bank::Sha512),
        "sm3_256" => Some(Bank::Sm3),
        _ => None,
    }
}

/// Returns the bank of an algorithm; `None` if its PCRs can't be replayed.
pub fn bank_of(algorithm: AlgorithmId) -> Option<Bank> {
    Bank::of(algorithm)
}

// @generated from proved source. It is not edited.

use crate::formats::uefi_tcg::AlgorithmId;

/// A bank of PCRs: those whose values are digests of one algorithm.
#[non_exhaustive]
#[derive(Clone, Copy, PartialEq, Eq, Debug)]
pub enum Bank {
    /// SHA-1, with 20 bytes a PCR.
    Sha1,
    /// SHA-256, with 32 bytes.
    Sha256,
    /// SHA-384, with 48 bytes.
    Sha384,
    /// SHA-512, with 64 bytes.
    Sha512,
    /// SM3, with 32 bytes.
    Sm3,
}

impl Bank {
    /// Each bank that can be replayed, in the order of their algorithms' numbers.
    pub const ALL: [Bank; 5] = [
        Bank::Sha1,
        Bank::Sha256,
        Bank::Sha384,
        Bank::Sha512,
        Bank::Sm3,
    ];

    /// Returns the bank of an algorithm; `None` if it has another hash function than these, so
    /// that its PCRs can't be replayed.
    #[must_use]
    #[inline]
    pub const fn of(algorithm: AlgorithmId) -> Option<Bank> {
        match algorithm {
            AlgorithmId::SHA1 => Some(Bank::Sha1),
            AlgorithmId::SHA256 => Some(Bank::Sha256),
            AlgorithmId::SHA384 => Some(Bank::Sha384),
            AlgorithmId::SHA512 => Some(Bank::Sha512),
            AlgorithmId::SM3_256 => Some(Bank::Sm3),
            _ => None,
        }
    }

    /// Returns the bank whose digests have this many bytes: of 32 that of SHA-256, not of SM3. `None`
    /// if no bank has such digests.
    #[must_use]
    #[inline]
    pub const fn of_size(size: usize) -> Option<Bank> {
        match size {
            20 => Some(Bank::Sha1),
            32 => Some(Bank::Sha256),
            48 => Some(Bank::Sha384),
            64 => Some(Bank::Sha512),
            _ => None,
        }
    }

    /// Returns the algorithm of the bank's digests.
    #[must_use]
    #[inline]
    pub const fn algorithm(self) -> AlgorithmId {
        match self {
            Bank::Sha1 => AlgorithmId::SHA1,
            Bank::Sha256 => AlgorithmId::SHA256,
            Bank::Sha384 => AlgorithmId::SHA384,
            Bank::Sha512 => AlgorithmId::SHA512,
            Bank::Sm3 => AlgorithmId::SM3_256,
        }
    }

    /// Returns the length of a digest in bytes, which is that of a PCR.
    #[must_use]
    #[inline]
    pub const fn size(self) -> usize {
        match self {
            Bank::Sha1 => 20,
            Bank::Sha256 => 32,
            Bank::Sha384 => 48,
            Bank::Sha512 => 64,
            Bank::Sm3 => 32,
        }
    }
}

// @generated from proved source. It is not edited.

use crate::formats::pcr_replay::bank::Bank;
use crate::formats::pcr_replay::value::PcrValue;
use crate::formats::sha1::Sha1;
use crate::formats::sha2::{Digest, Sha256, Sha384, Sha512};
use crate::formats::sm3::Sm3;

/// Returns the bank's digest of two parts that follow one another.
#[inline]
pub(crate) fn hash_joined(bank: Bank, first: &[u8], second: &[u8]) -> PcrValue {
    let mut hasher = Hasher::new(bank);
    hasher.update(first);
    hasher.update(second);
    hasher.finalize()
}

/// A bank's hash function, over bytes that it is given in parts.
#[derive(Debug)]
pub(crate) enum Hasher {
    /// That of [`Bank::Sha1`].
    Sha1(Sha1),
    /// That of [`Bank::Sha256`].
    Sha256(Sha256),
    /// That of [`Bank::Sha384`].
    Sha384(Sha384),
    /// That of [`Bank::Sha512`].
    Sha512(Sha512),
    /// That of [`Bank::Sm3`].
    Sm3(Sm3),
}

impl Hasher {
    /// Returns the hash function of a bank, before any bytes.
    #[inline]
    pub(crate) fn new(bank: Bank) -> Hasher {
        match bank {
            Bank::Sha1 => Hasher::Sha1(Sha1::new()),
            Bank::Sha256 => Hasher::Sha256(Sha256::new()),
            Bank::Sha384 => Hasher::Sha384(Sha384::new()),
            Bank::Sha512 => Hasher::Sha512(Sha512::new()),
            Bank::Sm3 => Hasher::Sm3(Sm3::new()),
        }
    }

    /// Takes the bytes that follow.
    #[inline]
    pub(crate) fn update(&mut self, bytes: &[u8]) {
        match self {
            Hasher::Sha1(hasher) => hasher.update(bytes),
            Hasher::Sha256(hasher) => hasher.update(bytes),
            Hasher::Sha384(hasher) => hasher.update(bytes),
            Hasher::Sha512(hasher) => hasher.update(bytes),
            Hasher::Sm3(hasher) => hasher.update(bytes),
        }
    }

    /// Returns the digest of all bytes.
    #[inline]
    pub(crate) fn finalize(self) -> PcrValue {
        match self {
            Hasher::Sha1(hasher) => {
                let digest = hasher.finalize();
                PcrValue::new(digest.as_slice())
            }
            Hasher::Sha256(hasher) => {
                let digest = hasher.finalize();
                PcrValue::new(digest.as_slice())
            }
            Hasher::Sha384(hasher) => {
                let digest = hasher.finalize();
                PcrValue::new(digest.as_slice())
            }
            Hasher::Sha512(hasher) => {
                let digest = hasher.finalize();
                PcrValue::new(digest.as_slice())
            }
            Hasher::Sm3(hasher) => {
                let digest = hasher.finalize();
                PcrValue::new(digest.as_slice())
            }
        }
    }
}

// @generated from proved source. It is not edited.

//! The SM3 hash function (GB/T 32905-2016; ISO/IEC 10118-3:2018), with the interface of the crate
//! `sm3`: a hasher takes a message piece by piece, and gives its digest of 32 bytes.
//!
//! Nothing here allocates memory.

pub(crate) use self::hasher::Sm3;
// For the functions for C, or for tests: they compile these files too.
#[allow(unused_imports)]
pub(crate) use crate::formats::sha2::Digest;

mod compression;
mod hasher;

// @generated from proved source. It is not edited.

use crate::support::fallible::*;

use crate::sm3::{Digest, Sm3};
use crate::support::alloc::AllocError;
use crate::support::test::Fail;
use crate::test_support::{each_makes, same, same_text};

/// Returns the digest of a message.
fn digest_of(message: &[u8]) -> Result<Vec<u8>, Fail> {
    Ok(Vec::fallible_from_slice(&Sm3::digest(message))?)
}

/// The standard's two examples (GB/T 32905-2016, A.1 and A.2), and the empty message.
#[test]
fn the_standards_examples_have_their_digests() -> Result<(), Fail> {
    let rows = [
        [
            "616263",
            "66c7f0f462eeedd9d1f2d46bdc10e4e24167c4875cf2f7a2297da02b8f4ba8e0",
        ],
        [
            "6162636461626364616263646162636461626364616263646162636461626364 \
            6162636461626364616263646162636461626364616263646162636461626364",
            "debe9ff92275b8a138604889c18e5a4d6fdb70e5387e5765293dcba39c0c5732",
        ],
        [
            "",
            "1ab21d8355cfa17f8e61194831e81a8f22bec8c728fefb747ed035eb5082aa2b",
        ],
    ];
    each_makes(&rows, digest_of)
}

/// Returns the message of this length whose bytes count up from 0 to 250, again and again.
fn counting(length: usize) -> Result<Vec<u8>, AllocError> {
    let mut message = Vec::new();
    for i in 0..length {
        message.fallible_push((i % 251) as u8)?;
    }
    Ok(message)
}

/// Lengths around the ends of blocks, and of blocks less the nine bytes that every padding has.
/// OpenSSL computed the digests.
#[test]
fn messages_that_end_about_a_block_have_their_digests() -> Result<(), Fail> {
    let rows = [
        (
            55,
            "a79cf9dcee3404abf7f769698201647fd9d3ff61d629d0f58bb4b5579a427db8",
        ),
        (
            56,
            "62f7363b15f4de76dd925c493b9d6d00d4ba0ef2a1f334c1d0f13b293aeb40d1",
        ),
        (
            63,
            "6165e4cbb15cde01c6226e0015a47f710f8f8e1f2c296700033bb34d9212109c",
        ),
        (
            64,
            "93566f236d157aae078d1ddb5cebdbba1520b5142e22a8915564345ba2ae1d63",
        ),
        (
            65,
            "c886e6814be748285a10b28ae62ddacd85db830cd2cf3a2bfa2f729c15f63618",
        ),
        (
            119,
            "8f3ea392a89a7119982d6634660db1a95f35d68267a2235e3255998a857f4fbf",
        ),
        (
            120,
            "6babee35e6a1515af9d6255109c24f3c08897829422c6225d235fd4c8527e9ec",
        ),
        (
            1000,
            "b38fc481302b502c3f2f6608d060c47c5b6bd8fd65e148b7cd3af4988245f48a",
        ),
    ];
    for (length, expected) in rows {
        let message = counting(length)?;
        let digest = crate::hex::encode(&Sm3::digest(message.as_slice()))?;
        same_text(expected, digest.as_str(), expected)?;
    }
    Ok(())
}

/// A million bytes `a`, a thousand at a time. OpenSSL computed the digest.
#[test]
fn a_million_bytes_have_their_digest() -> Result<(), Fail> {
    let piece = [b'a'; 1000];
    let mut hasher = Sm3::new();
    for _ in 0..1000 {
        hasher.update(&piece);
    }
    let digest = crate::hex::encode(&hasher.finalize())?;
    same_text(
        "a million bytes",
        digest.as_str(),
        "c8aaf89429554029e231941a2acc0ad61ff2a5acd8fadd25847a3a732b3b02c3",
    )
}

/// Returns the digest of two parts that follow one another, by any hash function.
fn joined<D: Digest>(first: &[u8], second: &[u8]) -> D::Output {
    let mut hasher = D::new();
    hasher.update(first);
    hasher.update(second);
    hasher.finalize()
}

/// Returns the SM3 digest of two parts that follow one another.
fn joined_sm3(first: &[u8], second: &[u8]) -> [u8; 32] {
    joined::<Sm3>(first, second)
}

#[test]
fn a_message_in_parts_has_one_digest() -> Result<(), Fail> {
    let whole = Sm3::digest("abc");
    let hasher = Sm3::new_with_prefix("a").chain_update("b");
    let mut copy = hasher.fallible_clone()?;
    copy.update("c");
    let mut begun_anew = Sm3::default();
    begun_anew.update("another message");
    begun_anew.reset();
    begun_anew.update("abc");
    let found = [
        joined_sm3(b"ab", b"c"),
        hasher.chain_update("c").finalize(),
        copy.finalize(),
        begun_anew.finalize_reset(),
    ];
    same("in parts", &found, &[whole, whole, whole, whole])?;
    same("after a reset", &begun_anew.finalize(), &Sm3::digest(""))?;
    same("length", &Sm3::output_size(), &32)
}

#[test]
fn a_hasher_displays_its_name_alone() -> Result<(), Fail> {
    let hasher = Sm3::new_with_prefix("abc");
    let text = fallible_format!("{hasher:?}")?;
    same_text("a hasher", text.as_str(), "Sm3 { .. }")
}

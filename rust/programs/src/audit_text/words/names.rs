// @generated from proved source. It is not edited.

use uefi_formats::proto::tcg::AlgorithmId;

/// Returns the name of a hash algorithm; `None` for a number without one here.
pub(crate) fn algorithm_name(algorithm: AlgorithmId) -> Option<&'static str> {
    match algorithm {
        AlgorithmId::SHA1 => Some("sha1"),
        AlgorithmId::SHA256 => Some("sha256"),
        AlgorithmId::SHA384 => Some("sha384"),
        AlgorithmId::SHA512 => Some("sha512"),
        AlgorithmId::SM3_256 => Some("sm3_256"),
        AlgorithmId::SHA3_256 => Some("sha3_256"),
        AlgorithmId::SHA3_384 => Some("sha3_384"),
        AlgorithmId::SHA3_512 => Some("sha3_512"),
        _ => None,
    }
}

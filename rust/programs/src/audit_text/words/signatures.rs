// @generated from proved source. It is not edited.

use uefi_formats::proto::tcg::content::SignatureType;

/// The longest data of a signature that are shown whole: a hash of 64 bytes, with the time of a
/// revocation.
pub(crate) const LONGEST_HASH: usize = 80;

/// Returns what the signatures of a type are; `None` for a type without a name here.
pub(crate) fn signature_type_name(kind: SignatureType) -> Option<&'static str> {
    let guid = kind.0;
    if guid == SignatureType::X509.0 {
        return Some("X.509 certificates");
    }
    if guid == SignatureType::SHA256.0 {
        return Some("SHA-256 hashes");
    }
    if guid == SignatureType::SHA1.0 {
        return Some("SHA-1 hashes");
    }
    if guid == SignatureType::SHA384.0 {
        return Some("SHA-384 hashes");
    }
    if guid == SignatureType::SHA512.0 {
        return Some("SHA-512 hashes");
    }
    if guid == SignatureType::RSA2048.0 {
        return Some("RSA-2048 keys");
    }
    if guid == SignatureType::X509_SHA256.0 {
        return Some("SHA-256 hashes of X.509 certificates, and times");
    }
    None
}

// @generated from proved source. It is not edited.

//! Tests of the library `sm3` over its public names: the standard's examples, and digests that
//! OpenSSL computed.

#[cfg(test)]
mod tests;

// @generated from proved source. It is not edited.

//! Tests of the library `tpm_quote` over its public names: quotes that a software TPM signed, what it
//! signs beside quotes, and bytes with each fault.

#[cfg(test)]
mod tests;

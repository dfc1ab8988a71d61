// @generated from proved source. It is not edited.

//! Tests of the library `boot_listing` over its public names: what each function returns, and
//! allocations that fail. What each command prints is in the tables of `tests/boot/cases`.

#[cfg(test)]
mod tests;

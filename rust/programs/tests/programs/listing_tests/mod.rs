// @generated from proved source. It is not edited.

//! Tests of the library `uefi_listing` over its public names: outputs that fail, and allocations that
//! fail. What each command prints is in the tables of `tests/program/cases`.

#[cfg(test)]
mod tests;

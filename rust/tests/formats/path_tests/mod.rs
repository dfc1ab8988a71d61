// @generated from proved source. It is not edited.

//! Tests of the library `uefi_path` over its public names that are no rows: views of what was
//! written, builders, and memory that runs out. Its rows are in `crates/path_rows/data`.

#[cfg(test)]
mod tests;

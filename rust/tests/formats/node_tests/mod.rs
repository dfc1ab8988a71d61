// @generated from proved source. It is not edited.

//! Tests of the library `uefi_node` over its public names that are no rows: values that no node
//! has, paths that are built, and allocations that fail. Its rows are in `crates/node_rows/data`.

#[cfg(test)]
mod tests;

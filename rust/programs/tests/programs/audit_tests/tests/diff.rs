// @generated from proved source. It is not edited.

//! What changed between two logs.

mod change;

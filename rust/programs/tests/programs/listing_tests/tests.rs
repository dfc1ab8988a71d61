// @generated from proved source. It is not edited.

mod memory;
mod runs;

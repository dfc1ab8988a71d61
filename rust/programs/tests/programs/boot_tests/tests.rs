// @generated from proved source. It is not edited.

mod arguments;
mod folders;
mod memory;
mod runs;
mod variables;

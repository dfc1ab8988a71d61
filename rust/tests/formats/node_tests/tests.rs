// @generated from proved source. It is not edited.

mod paths;
mod types;
mod writers;

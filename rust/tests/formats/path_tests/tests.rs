// @generated from proved source. It is not edited.

mod appends;
mod boxes;
mod builders;
mod written_options;

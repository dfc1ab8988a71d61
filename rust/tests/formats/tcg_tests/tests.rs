// @generated from proved source. It is not edited.

mod alignments;
mod iterators;

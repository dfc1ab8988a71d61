// @generated from proved source. It is not edited.

//! What the digests of events are the hash of.

mod lines;

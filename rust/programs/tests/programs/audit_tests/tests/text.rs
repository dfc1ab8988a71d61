// @generated from proved source. It is not edited.

//! How names are displayed.

mod names;

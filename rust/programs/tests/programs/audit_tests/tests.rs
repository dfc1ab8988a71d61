// @generated from proved source. It is not edited.

mod check;
mod diff;
mod replay;
mod text;
mod types;
mod verify;

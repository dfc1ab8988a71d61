// @generated from proved source. It is not edited.

mod faults;
mod quotes;
mod samples;
mod selections;
mod texts;
mod uses;

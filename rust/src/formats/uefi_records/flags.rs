// @generated from proved source. It is not edited.

//! Sets of flags: a value is the number whose bits are its members.

pub use self::daylight::Daylight;
pub use self::file_attribute::FileAttribute;

mod daylight;
mod file_attribute;

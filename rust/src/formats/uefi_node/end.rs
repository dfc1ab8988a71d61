// @generated from proved source. It is not edited.

//! Nodes of the type END: the ends of instances and of paths (UEFI 2.10, 10.3.1).

pub use self::entire::Entire;
pub use self::instance::Instance;

mod entire;
mod instance;

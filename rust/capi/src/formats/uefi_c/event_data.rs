// @generated from proved source. It is not edited.

//! What the data of an event say (TCG PC Client Platform Firmware Profile 1.06, 10), as C calls
//! for it by the type of the event.

mod blob;
mod crtm_version;
mod gpt;
mod image;
mod signature;
mod tagged;
mod text;
mod variable;

pub use self::signature::{UefiSignature, uefi_signature_next};
pub use self::tagged::{UefiTaggedEvent, uefi_tagged_next};

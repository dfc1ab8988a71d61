// @generated from proved source. It is not edited.

//! What the record formats of UEFI share: UCS-2 text, units and numbers in bytes, GUIDs, statuses.
//!
//! Begin with [`CStr16::from_u16_with_nul`], which returns the text that a slice of units holds, or
//! the one error that applies to the units. [`UnalignedSlice`] reads units from bytes, and
//! [`UnalignedSlice::to_cstring16`] copies them into owned text; [`CString16::from_str`] makes text
//! from characters. A view borrows the units or bytes that it was made from and allocates nothing.

pub use self::align::Align;
pub use self::chars_lossy::CharsLossy;
pub use self::cstr16::CStr16;
#[cfg(feature = "alloc")]
pub use self::cstring16::CString16;
pub use self::guid::Guid;
pub use self::identify::{IdentifiedBy, Identify};
pub use self::status::{Error, Status};
pub use self::text_error::{
    FromSliceWithNulError, FromStrError, GuidFromStrError, UnalignedCStr16Error,
};
pub use self::unaligned::{UnalignedSlice, UnalignedSliceIter};

mod align;
pub(crate) mod buffer;
mod chars_lossy;
mod cstr16;
mod cstring16;
mod guid;
mod identify;
pub(crate) mod little_endian;
mod status;
mod text_error;
mod ucs2;
mod unaligned;

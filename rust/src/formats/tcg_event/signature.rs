// @generated from proved source. It is not edited.

//! Signature databases (UEFI 2.10, 32.4.1): the values of the variables `PK`, `KEK`, `db` and `dbx`.

pub use self::signature_data::SignatureData;
pub use self::signature_iter::SignatureIter;
pub use self::signature_list::SignatureList;
pub use self::signature_list_iter::SignatureListIter;
pub use self::signature_lists::SignatureLists;
pub use self::signature_type::SignatureType;

mod signature_data;
mod signature_iter;
mod signature_list;
mod signature_list_iter;
mod signature_lists;
mod signature_type;

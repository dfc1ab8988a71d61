//! The forms of nodes (UEFI 2.10, 10.6.1.6), by chapters, and the kinds of arguments that many
//! have.

mod acpi;
mod bbs;
mod generic;
mod hardware;
mod media;
mod network;
mod storage;
mod usb;
mod vendor;

use crate::form::Form;
use crate::kind::{Code, Extent, Kind, Kind::*};
use std::collections::HashMap;
use std::sync::LazyLock;

const CHAPTERS: [&[Form]; 9] = [
    hardware::FORMS,
    acpi::FORMS,
    storage::FORMS,
    usb::FORMS,
    network::FORMS,
    vendor::FORMS,
    media::FORMS,
    bbs::FORMS,
    generic::FORMS,
];

/// All forms, with those of a name in the order in which they are tried.
pub static FORMS: LazyLock<Vec<&'static Form>> =
    LazyLock::new(|| CHAPTERS.into_iter().flatten().collect());

static BY_NAME: LazyLock<HashMap<&'static str, Vec<&'static Form>>> = LazyLock::new(|| {
    let mut by_name: HashMap<_, Vec<_>> = HashMap::new();
    FORMS.iter().for_each(|form| by_name.entry(form.name).or_default().push(*form));
    by_name
});

/// The forms that have a name.
pub fn named(name: &str) -> &'static [&'static Form] {
    BY_NAME.get(name).map_or(&[], Vec::as_slice)
}

const ONE: Kind = Number(0xff, Code::Little(1));
const TWO: Kind = Number(0xffff, Code::Little(2));
const FOUR: Kind = Number(0xffff_ffff, Code::Little(4));
const EIGHT: Kind = Number(u64::MAX, Code::Little(8));

/// Numbers of so many bits, 0 if they are empty.
const U8: Kind = OneOf(&[Empty(&[0]), ONE]);
const U16: Kind = OneOf(&[Empty(&[0; 2]), TWO]);
const U32: Kind = OneOf(&[Empty(&[0; 4]), FOUR]);
const U64: Kind = OneOf(&[Empty(&[0; 8]), EIGHT]);
/// The same with the highest byte first.
const BIG_U64: Kind = OneOf(&[Empty(&[0; 8]), Number(u64::MAX, Code::Big(8))]);

const GUID: Kind = Digits(
    "XXXXXXXX-XXXX-XXXX-XXXX-XXXXXXXXXXXX",
    &[3, 2, 1, 0, 5, 4, 7, 6, 8, 9, 10, 11, 12, 13, 14, 15],
);
const DATA: Kind = Data(Extent::Free);
const TEXT: Kind = Text(Extent::Free);

//! Equality that only Rust has by `==`: texts beside texts of other types, values with equal parts, and what owns its bytes.

use crate::support::test::Fail;
use crate::test_support::samples::SHA1_HEADER;
use crate::test_support::{bytes, same};
use uefi_formats::mem::memory_map::{MemoryMapKey, MemoryMapMeta};
use uefi_formats::pcr::{Bank, Pcrs, replay};
use uefi_formats::proto::device_path::{
    BoxedDevicePath, DevicePath, LoadOption, LoadOptionAttributes, LoadOptionDescription, LoadOptionParts,
};
use uefi_formats::proto::tcg::{EventType, LastEntry, Log, LogEvent, PcrIndex, v1};
use uefi_formats::{CStr16, CString16, UnalignedSlice, cstr16};

#[test]
fn texts_of_other_types_are_compared_by_their_characters() -> Result<(), Fail> {
    let owned = CString16::from_str("boot")?;
    let units = [0x62, 0x6f, 0x6f, 0x74, 0];
    let view = CStr16::from_u16_with_nul(&units)?;
    let found = [
        owned == view,
        view == owned,
        view == "boot",
        owned == "boot",
        view == "boo",
        view == "boots",
        owned == "boot\0",
        owned == "",
    ];
    let expected = [true, true, true, true, false, false, false, false];
    same("owned, view, str", &found, &expected)
}

#[test]
fn descriptions_are_compared_by_their_units() {
    let text = LoadOptionDescription::Text(cstr16!("ab"));
    let units = |bytes| LoadOptionDescription::Units(UnalignedSlice::new(bytes));
    assert_eq!(text, text);
    assert_eq!(text, units(b"a\0b\0\0\0"));
    assert_eq!(units(b"a\0b\0\0\0"), text);
    assert_eq!(units(b"a\0b\0\0\0"), units(b"a\0b\0\0\0"));
    for other in [&b"a\0b\0"[..], b"a\0c\0\0\0", b"a\0b\0\0\0\0\0", b""] {
        assert_ne!(text, units(other));
        assert_ne!(units(b"a\0b\0\0\0"), units(other));
    }
}

#[test]
fn load_options_are_compared_by_all_their_bytes() {
    let parts = LoadOptionParts {
        attributes: LoadOptionAttributes::ACTIVE,
        description: LoadOptionDescription::Text(cstr16!("a")),
        file_path_list: &[0x7f, 0xff, 4, 0, 1],
        optional_data: &[2],
    };
    let others = [
        LoadOptionParts { attributes: LoadOptionAttributes::HIDDEN, ..parts },
        LoadOptionParts { description: LoadOptionDescription::Text(cstr16!("b")), ..parts },
        LoadOptionParts { file_path_list: &[0x7f, 0xff, 4, 0, 2], ..parts },
        LoadOptionParts { optional_data: &[3], ..parts },
    ];
    let one = LoadOption::new_in_box(&parts).unwrap();
    assert_eq!(one.as_load_option(), LoadOption::try_from(one.as_bytes()).unwrap());
    assert_eq!(one.as_load_option().parts(), parts);
    assert_eq!(one, LoadOption::new_in_box(&parts).unwrap());
    for other in others {
        assert_ne!(parts, other);
        let other = LoadOption::new_in_box(&other).unwrap();
        assert_ne!(one.as_load_option(), other.as_load_option());
        assert_ne!(one, other);
    }
}

#[test]
fn what_owns_a_path_is_compared_by_it() {
    let input = bytes("0201 0c00 d041030a 00000000 7fff 0400").unwrap();
    let path = DevicePath::try_from(&input[..]).unwrap();
    assert_eq!(path.to_boxed().unwrap(), "PciRoot(0x0)".parse::<BoxedDevicePath>().unwrap());
    assert_ne!(path.to_boxed().unwrap(), "PciRoot(0x1)".parse::<BoxedDevicePath>().unwrap());
    let instance = path.instance_iter().next().unwrap();
    assert_eq!(instance.to_boxed().unwrap(), instance.to_boxed().unwrap());
}

#[test]
fn sizes_of_maps_are_compared_by_all_fields() {
    let meta = MemoryMapMeta::of(96, 48);
    let others = [
        MemoryMapMeta { map_size: 48, ..meta },
        MemoryMapMeta { desc_size: 96, ..meta },
        MemoryMapMeta { map_key: MemoryMapKey::from_raw(1), ..meta },
        MemoryMapMeta { desc_version: 1, ..meta },
    ];
    assert_eq!(meta, MemoryMapMeta::of(96, 48));
    for other in others {
        assert_ne!(meta, other);
    }
}

/// Returns the first event after the header of a log.
fn first(log: &[u8]) -> LogEvent<'_> {
    Log::new(log, LastEntry::Unknown).entries().next().unwrap().event
}

#[test]
fn events_of_version_2_are_compared_by_all_their_bytes() {
    let log = |data| {
        let event = format!("{SHA1_HEADER} 00000000 08000000 01000000 0400 {} 01000000 {data}", "07".repeat(20));
        bytes(&event).unwrap()
    };
    let (one, other) = (log("01"), log("02"));
    assert!(matches!(first(&one), LogEvent::V2(_)));
    assert_eq!(first(&one), first(&one.clone()));
    assert_ne!(first(&one), first(&other));
    let event = v1::PcrEvent::new_in_box(PcrIndex(0), EventType::CRTM_VERSION, [7; 20], &[1]).unwrap();
    assert_ne!(first(&one), LogEvent::V1(event.as_event()));
}

#[test]
fn events_and_pcrs_are_compared() {
    let event = |pcr| v1::PcrEvent::new_in_box(PcrIndex(pcr), EventType::SEPARATOR, [7; 20], &[1]).unwrap();
    let (one, same, other) = (event(0), event(0), event(1));
    assert_eq!(one, same);
    assert_ne!(one, other);
    assert_eq!(LogEvent::V1(one.as_event()), LogEvent::V1(same.as_event()));
    assert_ne!(LogEvent::V1(one.as_event()), LogEvent::V1(other.as_event()));

    let zeros = Pcrs::started(Bank::Sha1, 0, false);
    let replayed = |event: &v1::BoxedPcrEvent| replay(&Log::new(event.as_event().as_bytes(), LastEntry::At(0)), Bank::Sha1);
    assert_eq!(zeros, Pcrs::started(Bank::Sha1, 0, false));
    assert_ne!(zeros, Pcrs::started(Bank::Sha1, 3, false));
    assert_eq!(replayed(&one), replayed(&same));
    assert_ne!(replayed(&one), zeros);
    assert_ne!(replayed(&one), replayed(&other));
}

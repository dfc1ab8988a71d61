//! Each allocation refused in turn: an error comes, and the program goes on.

use crate::support::test::Fail;
use crate::test_support::{Refusing, in_turn, takes_memory, without_request};
use uefi_formats::proto::device_path::text::{FromTextError, from_text_in};
use uefi_formats::proto::device_path::{BoxedDevicePath, DevicePath};
use uefi_formats::proto::hii::config_str::{
    ConfigurationString, MultiConfigurationStringIter, ParseError, parse_all,
};
use uefi_formats::proto::tcg::{EventType, PcrIndex, v1, v2};
use uefi_formats::proto::pci;
use uefi_formats::{AllocError, CStr16, CString16, Error, FromStrError, Status, UnalignedSlice};

const PATH: [u8; 16] = [2, 1, 12, 0, 1, 2, 3, 4, 5, 6, 7, 8, 0x7f, 0xff, 4, 0];

const HEADER: &str = "GUID=16d6474bd6a852459d44ccad2e0f4cf9&NAME=0041004200430044&PATH=7fff0400";
const ELEMENTS: &str = "&OFFSET=01d8&WIDTH=0002&VALUE=0011&a=b&c&OFFSET=1&WIDTH=1&VALUE=0123456789";

/// Three configurations of two elements each.
fn three() -> String {
    format!("{HEADER}{ELEMENTS}&{HEADER}&ALTCFG=0001{ELEMENTS}&{HEADER}{ELEMENTS}")
}

/// What a call gives, or `None` where it says that memory ran out.
fn unless<T, E: PartialEq>(result: Result<T, E>, memory: E) -> Option<Result<T, ()>> {
    match result {
        Ok(value) => Some(Ok(value)),
        Err(error) if error == memory => None,
        Err(_) => Some(Err(())),
    }
}

#[test]
fn paths_and_texts() -> Result<(), Fail> {
    let path = DevicePath::try_from(&PATH[..])?;
    let instance = path.instance_iter().next().ok_or("an instance")?;
    takes_memory(&Ok(true), || unless(path.to_boxed().map(|it| it.as_path() == path), AllocError))?;
    takes_memory(&Ok(true), || unless(instance.to_boxed().map(|it| it.as_instance() == instance), AllocError))?;
    let text = "Acpi(0x04030201,0x8070605)";
    takes_memory(&Ok(true), || unless(from_text_in(text).map(|it| it.as_path() == path), FromTextError::Memory))?;
    takes_memory(&Ok(true), || unless(text.parse::<BoxedDevicePath>().map(|it| it.as_path() == path), FromTextError::Memory))?;
    let ab = [0x61, 0x62, 0];
    let text = CStr16::from_u16_with_nul(&ab)?;
    takes_memory(&Ok(true), || unless(text.to_string().map(|it| it == "ab"), AllocError))?;
    takes_memory(&Ok(true), || {
        unless(CString16::from_str("ab").map(|it| it.as_cstr16().as_u16_with_nul() == ab), FromStrError::Memory)
    })?;
    takes_memory(&Ok(true), || {
        let made = "ab".parse::<CString16>();
        unless(made.map(|it| it.as_cstr16().as_u16_with_nul() == ab), FromStrError::Memory)
    })?;
    let units = UnalignedSlice::new(b"a\0b\0\0\0");
    takes_memory(&true, || units.to_cstring16().ok().map(|it| it.as_cstr16().as_u16_with_nul() == ab))
}

#[test]
fn a_vector_is_boxed_where_it_is() -> Result<(), Fail> {
    let mut bytes = PATH.to_vec();
    bytes.push(1);
    let given = std::cell::Cell::new(Some(bytes));
    without_request(&Some(16), || BoxedDevicePath::try_from(given.take()?).ok().map(|it| it.as_path().as_bytes().len()))
}

#[test]
fn events_and_resources() -> Result<(), Fail> {
    let (register, kind, data) = (PcrIndex(1), EventType::IPL, [1, 2]);
    let out_of_memory = Error::new(Status::OUT_OF_RESOURCES, ());
    takes_memory(&Ok(34), || {
        let event = v1::PcrEvent::new_in_box(register, kind, [7; 20], &data);
        unless(event.map(|it| it.as_event().as_bytes().len()), out_of_memory)
    })?;
    takes_memory(&Ok(20), || {
        let inputs = v2::PcrEventInputs::new_in_box(register, kind, &data);
        unless(inputs.map(|it| it.as_inputs().as_bytes().len()), out_of_memory)
    })?;
    let mut list = [0; 46];
    list[..3].copy_from_slice(&[0x8a, 0x2b, 0]);
    let mut list = list.repeat(9);
    list.push(0x79);
    takes_memory(&Ok(9), || unless(pci::parse(&list).map(|it| it.len()), pci::ResourceError::Memory))
}

#[test]
fn configurations() -> Result<(), Fail> {
    let text = three();
    takes_memory(&Ok(2), || {
        unless(ConfigurationString::from_str(&text).map(|it| it.elements.len()), ParseError::Memory)
    })?;
    takes_memory(&Ok(2), || {
        unless(text.parse::<ConfigurationString>().map(|it| it.elements.len()), ParseError::Memory)
    })?;
    takes_memory(&Some(()), || {
        ConfigurationString::parse_string_from_hex("0041").ok().map(|it| it.filter(|name| name == "A").map(|_| ()))
    })?;
    let requests = in_turn(&Ok(3), || unless(parse_all(&text).map(|it| it.len()), AllocError))?;
    crate::test_support::holds("three configurations take more than one request", requests > 3)
}

/// The iterator gives the items before memory runs out, then `Memory`, and then nothing.
#[test]
fn configurations_one_after_another() -> Result<(), Fail> {
    let text = three();
    let all = parse_all(&text)?;
    without_request(&true, || {
        let _items = MultiConfigurationStringIter::new(&text);
        true
    })?;
    for granted in 0..200 {
        let heap = Refusing::after(granted);
        let mut items = MultiConfigurationStringIter::new(&text);
        let mut good = 0;
        let mut ran_out = false;
        for item in items.by_ref() {
            match item {
                Ok(_) => good += 1,
                Err(error) => ran_out = error == ParseError::Memory,
            }
        }
        let ended = items.next().is_none() && items.next().is_none();
        let waits = heap.is_waiting();
        drop(heap);
        assert!(ended && ran_out != waits && good <= all.len(), "{granted} requests granted");
        if waits {
            assert_eq!((good, granted > 0), (3, true));
            return Ok(());
        }
    }
    Err(Fail::new("more than 200 requests"))
}

/// An error of the input needs no memory.
#[test]
fn faults_ask_for_no_memory() -> Result<(), Fail> {
    without_request(&Some(FromStrError::InteriorNul), || CString16::from_str("a\0").err())?;
    without_request(&Some(FromTextError::UnknownNode(3)), || from_text_in("Pcj(0x1)").err())?;
    without_request(&Some(pci::ResourceError::UnknownTag(1)), || pci::parse(&[1]).err())?;
    without_request(&true, || ConfigurationString::from_str("GUID=00").is_err())
}

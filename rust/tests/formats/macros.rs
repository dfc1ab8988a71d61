//! `guid!` and `cstr16!`, beside the calls that read the same texts when a program runs.

use std::panic::catch_unwind;
use uefi_formats::__macros::{self, unit_count, units};
use uefi_formats::{CStr16, CString16, Guid, cstr16, guid};

const TEXT: &str = "8be4df61-93ca-11D2-AA0D-00e098032b8c";
const BYTES: [u8; 16] = [
    0x61, 0xdf, 0xe4, 0x8b, 0xca, 0x93, 0xd2, 0x11, 0xaa, 0x0d, 0x00, 0xe0, 0x98, 0x03, 0x2b, 0x8c,
];

/// Returns what a macro's function returns, or `None` if the compiler would report an error.
fn unless_error<T>(call: impl FnOnce() -> T + std::panic::UnwindSafe) -> Option<T> {
    catch_unwind(call).ok()
}

#[test]
fn a_guid_is_a_constant() {
    const OF_LITERAL: Guid = guid!("8be4df61-93ca-11D2-AA0D-00e098032b8c");
    static OF_CONSTANT: Guid = guid!(TEXT,);
    assert_eq!(OF_LITERAL, Guid(BYTES));
    assert_eq!(OF_CONSTANT, Guid(BYTES));
}

#[test]
fn a_guid_is_the_one_that_is_read_from_the_text_if_there_is_one() {
    for index in 0..TEXT.len() {
        for byte in 0..0x80 {
            let mut text = TEXT.as_bytes().to_vec();
            text[index] = byte;
            let text = String::from_utf8(text).unwrap();
            let found = unless_error(|| __macros::guid(&text));
            assert_eq!(found, text.parse().ok(), "{text:?}");
        }
    }
    for text in [
        "",
        &TEXT[1..],
        &TEXT[..35],
        &format!("{TEXT} "),
        &TEXT.replacen("8b", "é", 1),
    ] {
        assert_eq!(
            unless_error(|| __macros::guid(text)),
            text.parse().ok(),
            "{text:?}"
        );
    }
}

#[test]
fn a_text_is_that_of_the_whole_program() {
    const NAME: &str = "ab";
    let texts: [CStr16<'static>; 4] =
        [cstr16!(), cstr16!(""), cstr16!(NAME), cstr16!("\u{ffff}é",)];
    let units = [&[0][..], &[0], &[0x61, 0x62, 0], &[0xffff, 0xe9, 0]];
    for (text, units) in texts.into_iter().zip(units) {
        assert_eq!(text.as_u16_with_nul(), units);
    }
}

#[test]
fn a_text_has_the_units_that_its_characters_are_made_into() {
    for character in '\0'..=char::MAX {
        let text = character.to_string();
        let units = if character == '\0' || character > '\u{ffff}' {
            // Of those that have no unit a few are enough.
            if !matches!(character, '\0' | '\u{10000}' | '\u{10ffff}') {
                continue;
            }
            unless_error(|| units::<2>(&text))
        } else {
            Some(units::<2>(&text))
        };
        let owned = CString16::from_str(&text).ok();
        let expected = owned.as_ref().map(CString16::as_u16_with_nul);
        assert_eq!(units.as_ref().map(|it| &it[..]), expected, "{character:?}");
    }
    assert_eq!(unit_count("a\u{7f}\u{80}\u{7ff}\u{800}\u{ffff}"), 7);
    assert_eq!(
        units("a\u{7f}\u{80}\u{7ff}\u{800}\u{ffff}"),
        [0x61, 0x7f, 0x80, 0x7ff, 0x800, 0xffff, 0]
    );
}

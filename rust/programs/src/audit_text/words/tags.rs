// @generated from proved source. It is not edited.

use crate::support::alloc::AllocError;

/// Returns what Linux or systemd call the tag of a tagged event; `None` for another one.
pub(crate) fn tag_name(id: u32) -> Option<&'static str> {
    match id {
        0x8f3b_22ec => Some("INITRD"),
        0x8f3b_22ed => Some("LOAD_OPTIONS"),
        0xf5bc_582a => Some("LOADER_CONF"),
        0x6c46_f751 => Some("DEVICETREE_ADDON"),
        0x49df_fe0f => Some("INITRD_ADDON"),
        0xdac0_8e1a => Some("UCODE_ADDON"),
        0x13ae_d6db => Some("UKI_PROFILE"),
        _ => None,
    }
}

/// Appends the name of a tag, if it has one, and its number.
pub(crate) fn push_tag(text: &mut String, id: u32) -> Result<(), AllocError> {
    match tag_name(id) {
        Some(name) => fallible_write!(text, "{name} 0x{id:x}"),
        None => fallible_write!(text, "0x{id:x}"),
    }
}

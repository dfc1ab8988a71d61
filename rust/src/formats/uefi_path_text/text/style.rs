// @generated from proved source. It is not edited.

/// Whether the text is for display alone, and may be shorter (UEFI 2.10, 10.6.2).
///
/// A text for display may lack parts of a node.
#[derive(Clone, Copy, PartialEq, Eq, Debug)]
pub struct DisplayOnly(pub bool);

/// Whether nodes of some vendors have forms of their own, such as `VenVt100()` (UEFI 2.10, 10.6.2).
#[derive(Clone, Copy, PartialEq, Eq, Debug)]
pub struct AllowShortcuts(pub bool);

/// How nodes are written.
#[derive(Clone, Copy, PartialEq, Eq, Debug)]
pub(crate) struct Style {
    /// Whether the text is for display alone.
    pub(crate) display_only: bool,
    /// Whether nodes of some vendors have forms of their own.
    pub(crate) allow_shortcuts: bool,
}

impl Style {
    /// Returns the style with these flags.
    #[inline]
    pub(crate) fn new(display_only: DisplayOnly, allow_shortcuts: AllowShortcuts) -> Style {
        Style {
            display_only: display_only.0,
            allow_shortcuts: allow_shortcuts.0,
        }
    }
}

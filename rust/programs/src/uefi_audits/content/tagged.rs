// @generated from proved source. It is not edited.

use uefi_formats::proto::tcg::content::TaggedEvents;

/// The tagged events that the data of an event are, and the bytes after them.
///
/// A view: it borrows the bytes that it was read from.
#[derive(Clone, Copy, Debug)]
pub struct TaggedData<'a> {
    bytes: &'a [u8],
}

impl<'a> TaggedData<'a> {
    /// Returns the tagged events that the bytes begin with.
    pub(crate) fn new(bytes: &'a [u8]) -> TaggedData<'a> {
        let _events = TaggedEvents::new(bytes);
        TaggedData { bytes }
    }

    /// Returns an iterator over the tagged events, in order.
    pub fn iter(&self) -> TaggedEvents<'a> {
        TaggedEvents::new(self.bytes)
    }

    /// Returns the bytes after the last tagged event.
    pub fn rest(&self) -> &'a [u8] {
        let mut events = TaggedEvents::new(self.bytes);
        while let Some(_) = events.next() {}
        events.rest()
    }
}

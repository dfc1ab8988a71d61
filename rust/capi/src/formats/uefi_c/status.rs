// @generated from proved source. It is not edited.

//! What the functions return: success, or why not.

use core::mem::MaybeUninit;
use crate::bytes::Bytes;

/// What a function returns: one of the numbers below. None changes its meaning from one version to
/// the next, and new ones follow the last.
pub type UefiStatus = u32;

/// Success: the result is in `out`.
pub(crate) const OK: UefiStatus = 0;

/// A walk has ended: nothing follows, or there is no item of this index.
pub(crate) const END: UefiStatus = 1;

/// The buffer is too small. The call sets the length that it needs.
pub(crate) const BUFFER_TOO_SMALL: UefiStatus = 2;

/// The bytes are no text of the kind that is asked for.
pub(crate) const NOT_TEXT: UefiStatus = 3;

/// The text spells no number of 1, 2, 4 or 8 bytes.
pub(crate) const NOT_NUMBER: UefiStatus = 4;

/// The standard has no name for the number.
pub(crate) const NO_NAME: UefiStatus = 5;

/// The data have more bytes than the record can state.
pub(crate) const TOO_LONG: UefiStatus = 6;

/// The bytes end within a field, or before one.
pub(crate) const TOO_SHORT: UefiStatus = 7;

/// Bytes follow that aren't part of it.
pub(crate) const LEFT_OVER: UefiStatus = 8;

/// The bytes end inside the item that begins at the offset.
pub(crate) const CUT: UefiStatus = 9;

/// The bytes end, without the node or the tag that ends the list.
pub(crate) const NO_END: UefiStatus = 10;

/// The node at the offset states a length below 4.
pub(crate) const SHORT_NODE: UefiStatus = 11;

/// The bytes begin with no path.
pub(crate) const NO_PATH: UefiStatus = 12;

/// No unit of the description, the name or the label is zero.
pub(crate) const NOT_NUL_TERMINATED: UefiStatus = 13;

/// Fewer bytes follow than the file path list is stated to have.
pub(crate) const FILE_PATH_LIST_TOO_LONG: UefiStatus = 14;

/// The file path list begins with no path.
pub(crate) const NO_FILE_PATH: UefiStatus = 15;

/// The byte at the offset is neither tag of the list.
pub(crate) const UNKNOWN_TAG: UefiStatus = 16;

/// The bytes are no memory map with this stride.
pub(crate) const NOT_MAP: UefiStatus = 17;

/// A field of the time is out of its range.
pub(crate) const BAD_TIME: UefiStatus = 18;

/// The data aren't that structure, whole and alone.
pub(crate) const OTHER_DATA: UefiStatus = 19;

/// The log has no header of version 2.
pub(crate) const NO_HEADER: UefiStatus = 20;

/// The log has no event, or none starts at the offset.
pub(crate) const NO_EVENT: UefiStatus = 21;

/// The event starts before the last entry, and ends after it.
pub(crate) const CROSSES_LAST_ENTRY: UefiStatus = 22;

/// A digest is of an algorithm that has no row in the table.
pub(crate) const UNKNOWN_ALGORITHM: UefiStatus = 23;

/// The event states more digests than the table has rows.
pub(crate) const TOO_MANY_DIGESTS: UefiStatus = 24;

/// The table has too many rows.
pub(crate) const TOO_MANY_ALGORITHMS: UefiStatus = 25;

/// The event has no digest of the algorithm.
pub(crate) const NO_DIGEST: UefiStatus = 26;

/// The event has two digests of the algorithm, or more.
pub(crate) const TWO_DIGESTS: UefiStatus = 27;

/// The digest hasn't the length that the bank's digests have.
pub(crate) const OTHER_LENGTH: UefiStatus = 28;

/// The event states a locality at which no TPM is started: not 0, 3 or 4.
pub(crate) const UNKNOWN_LOCALITY: UefiStatus = 29;

/// The event states another locality than one before it, or than the 4 of a hardware CRTM.
pub(crate) const OTHER_LOCALITY: UefiStatus = 30;

/// The event states the locality after PCR 0 was extended, but not by a hardware CRTM.
pub(crate) const LATE_LOCALITY: UefiStatus = 31;

/// The log doesn't say at which locality the TPM was started.
pub(crate) const NO_LOCALITY: UefiStatus = 32;

/// There is no hash function here for the algorithm.
pub(crate) const NO_HASH: UefiStatus = 33;

/// There is no such PCR: its number is above 23.
pub(crate) const NO_PCR: UefiStatus = 34;

/// A PCR is selected of a bank that isn't active in the log, or can't be replayed.
pub(crate) const NO_BANK: UefiStatus = 35;

/// The first four bytes aren't those of what a TPM generates.
pub(crate) const NOT_GENERATED: UefiStatus = 36;

/// The TPM signed another structure.
pub(crate) const NOT_QUOTE: UefiStatus = 37;

/// The byte `safe` of the clock is neither 0 nor 1.
pub(crate) const BAD_SAFE: UefiStatus = 38;

/// A PCR above 23 is selected, or a bitmap has more than four bytes.
pub(crate) const BAD_SELECTION: UefiStatus = 39;

/// The bytes at the offset begin with no signature list.
pub(crate) const BAD_SIGNATURE_LIST: UefiStatus = 40;

/// A signature has at least the sixteen bytes of its owner.
pub(crate) const BAD_SIGNATURE_SIZE: UefiStatus = 41;

/// The node is an end-entire node, with which each path ends.
pub(crate) const ENDS_PATH: UefiStatus = 42;

/// No node has the name before the offset.
pub(crate) const UNKNOWN_NODE: UefiStatus = 43;

/// The character at the offset isn't expected.
pub(crate) const UNEXPECTED_CHARACTER: UefiStatus = 44;

/// Something is missing from the text at the offset.
pub(crate) const MISSING_TEXT: UefiStatus = 45;

/// Writes what a status says, in ASCII and without a NUL; of a number that is none
/// `unknown status`.
#[unsafe(no_mangle)]
pub extern "C" fn uefi_status_text<'a>(status: UefiStatus, text: &mut MaybeUninit<Bytes<'a>>) {
    let found = if status < NO_HEADER {
        text_before_logs(status)
    } else {
        text_of_logs(status)
    };
    text.write(Bytes::new(found.as_bytes()));
}

/// Returns what a status says that isn't one of logs, PCRs and quotes.
#[inline]
fn text_before_logs(status: UefiStatus) -> &'static str {
    match status {
        OK => "success",
        END => "the walk has ended",
        BUFFER_TOO_SMALL => "the buffer is too small",
        NOT_TEXT => "the bytes are no such text",
        NOT_NUMBER => "the text spells no number of 1, 2, 4 or 8 bytes",
        NO_NAME => "the number has no name",
        TOO_LONG => "the data are too long for the record",
        TOO_SHORT => "the bytes end within a field, or before one",
        LEFT_OVER => "bytes are left over",
        CUT => "the bytes end inside an item",
        NO_END => "the bytes end before the end of the list",
        SHORT_NODE => "a node states a length below 4",
        NO_PATH => "the bytes begin with no device path",
        NOT_NUL_TERMINATED => "the text has no NUL",
        FILE_PATH_LIST_TOO_LONG => "the file path list is longer than the bytes",
        NO_FILE_PATH => "the file path list begins with no device path",
        UNKNOWN_TAG => "a byte is neither tag of the list",
        NOT_MAP => "the bytes are no memory map with this stride",
        BAD_TIME => "a field of the time is out of its range",
        _ => "the data are another structure",
    }
}

/// Returns what a status of logs, PCRs and quotes says.
#[inline]
fn text_of_logs(status: UefiStatus) -> &'static str {
    match status {
        NO_HEADER => "the log has no header of version 2",
        NO_EVENT => "there is no event",
        CROSSES_LAST_ENTRY => "an event ends after the start of the last one",
        UNKNOWN_ALGORITHM => "a digest is of an algorithm that isn't in the header",
        TOO_MANY_DIGESTS => "an event has more digests than the header has algorithms",
        TOO_MANY_ALGORITHMS => "the header has too many algorithms",
        NO_DIGEST => "the event has no digest of the algorithm",
        TWO_DIGESTS => "the event has two digests of the algorithm",
        OTHER_LENGTH => "a digest has another length than the algorithm's",
        UNKNOWN_LOCALITY => "the event states a locality at which no TPM starts",
        OTHER_LOCALITY => "the event states another locality than the log before it",
        LATE_LOCALITY => "the event states the locality after PCR 0 was extended",
        NO_LOCALITY => "the log states no locality",
        NO_HASH => "there is no hash function for the algorithm",
        NO_PCR => "there is no such PCR",
        NO_BANK => "the bank isn't active in the log",
        NOT_GENERATED => "no TPM generated the bytes",
        NOT_QUOTE => "the TPM signed another structure than a quote",
        BAD_SAFE => "the byte `safe` is neither 0 nor 1",
        BAD_SELECTION => "the selection isn't one of a PC",
        BAD_SIGNATURE_LIST => "the bytes begin with no signature list",
        BAD_SIGNATURE_SIZE => "the size of a signature is below 16",
        ENDS_PATH => "the node ends a path",
        UNKNOWN_NODE => "no node has the name",
        UNEXPECTED_CHARACTER => "a character isn't expected",
        MISSING_TEXT => "something is missing from the text",
        _ => "unknown status",
    }
}

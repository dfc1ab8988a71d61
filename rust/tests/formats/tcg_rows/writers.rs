// @generated from proved source. It is not edited.

use crate::support::fallible::*;

use crate::tcg_rows::log_inputs::number;
use crate::tcg_rows::v1_logs::push_event;
use crate::rows::hex_digits;
use crate::test_support::{Refusing, bytes};
use crate::uefi_base::{Error, Status};
use crate::uefi_tcg::v1::{PcrEvent, Sha1Digest, write_event};
use crate::uefi_tcg::v2::{PcrEventInputs, write_event_inputs};
use crate::uefi_tcg::{EventType, PcrIndex};

/// What is written: a PCR, a type, and data.
#[derive(Debug)]
struct Written {
    pcr_index: PcrIndex,
    event_type: EventType,
    event_data: Vec<u8>,
}

/// Returns what an input has: the numbers of a PCR and of a type, and data.
fn written_of(input: &str) -> Option<Written> {
    let (pcr_index, rest) = input.split_once(" ; ")?;
    let (event_type, event_data) = rest.split_once(" ; ")?;
    Some(Written {
        pcr_index: PcrIndex(u32::try_from(number(pcr_index)?).ok()?),
        event_type: EventType(u32::try_from(number(event_type)?).ok()?),
        event_data: bytes(event_data).ok()?,
    })
}

/// Returns the digest that an input begins with, and the rest of the input.
fn digest_and_rest(input: &str) -> Option<(Sha1Digest, &str)> {
    let (digest, rest) = input.split_once(" ; ")?;
    let digest = bytes(digest).ok()?;
    Some((*digest.as_slice().first_chunk()?, rest))
}

/// Returns what came of writing: a text of what was written, or the error.
fn outcome(text: &str, error: Option<Error<Option<usize>>>) -> Option<String> {
    let Some(error) = error else {
        return fallible_format!("Ok({text})").ok();
    };
    let (status, data) = (error.status(), error.data());
    fallible_format!("Err({status}, {data:?})").ok()
}

/// Returns the length that was written, or the error.
fn end_of(end: Result<usize, Error<Option<usize>>>) -> Option<String> {
    match end {
        Ok(end) => {
            let text = fallible_format!("{end}").ok()?;
            outcome(text.as_str(), None)
        }
        Err(error) => outcome("", Some(error)),
    }
}

/// Returns both outcomes, and the bytes that both buffers have afterwards.
fn both(outcomes: (&str, &str), buffers: (&[u8], &[u8])) -> Option<String> {
    let buffer = hex_digits(buffers.0).ok()?;
    if buffers.0 != buffers.1 {
        let other = hex_digits(buffers.1).ok()?;
        return fallible_format!("the buffers {buffer} and {other}").ok();
    }
    fallible_format!("{}, {}, {buffer}", outcomes.0, outcomes.1).ok()
}

/// Writes an event into a buffer, and returns the view of it, or the error.
fn viewed(
    buffer: &mut [u8],
    digest: Sha1Digest,
    written: &Written,
) -> Option<String> {
    let (pcr_index, event_type) = (written.pcr_index, written.event_type);
    let event_data = written.event_data.as_slice();
    match PcrEvent::new_in_buffer(buffer, pcr_index, event_type, digest, event_data) {
        Ok(event) => {
            let mut text = String::new();
            push_event(&mut text, 0, &event)?;
            outcome(text.as_str(), None)
        }
        Err(error) => outcome("", Some(error)),
    }
}

/// Writes an event into a buffer of bytes ff: its length, a digest, a PCR, a type and data are the
/// input. Returns the view, or the error, and what [`write_event`] returns, which leaves the same
/// buffer.
pub(crate) fn write_v1(input: &str) -> Option<String> {
    let (length, input) = input.split_once(" ; ")?;
    let (digest, input) = digest_and_rest(input)?;
    let written = written_of(input)?;
    let mut buffer = Vec::fallible_from_elem(0xffu8, number(length)?).ok()?;
    let mut other = Vec::fallible_from_slice(buffer.as_slice()).ok()?;
    let view = viewed(buffer.as_mut_slice(), digest, &written)?;
    let end = write_event(
        other.as_mut_slice(),
        written.pcr_index,
        written.event_type,
        digest,
        written.event_data.as_slice(),
    );
    let end = end_of(end)?;
    let outcomes = (view.as_str(), end.as_str());
    both(outcomes, (buffer.as_slice(), other.as_slice()))
}

/// Returns the event in a box with a digest, a PCR, a type and data.
pub(crate) fn box_v1(input: &str) -> Option<String> {
    let (digest, input) = digest_and_rest(input)?;
    let written = written_of(input)?;
    let (pcr_index, event_type) = (written.pcr_index, written.event_type);
    let event_data = written.event_data.as_slice();
    match PcrEvent::new_in_box(pcr_index, event_type, digest, event_data) {
        Ok(boxed) => hex_digits(boxed.as_event().as_bytes()).ok(),
        Err(error) if error == Error::new(Status::OUT_OF_RESOURCES, ()) => None,
        Err(error) => fallible_format!("{error}").ok(),
    }
}

/// Writes inputs into a buffer of bytes ff: its length, a PCR, a type and data are the input. Returns
/// the bytes of the view, or the error, and what [`write_event_inputs`] returns, which leaves the
/// same buffer.
pub(crate) fn write_v2(input: &str) -> Option<String> {
    let (length, input) = input.split_once(" ; ")?;
    let written = written_of(input)?;
    let (pcr_index, event_type) = (written.pcr_index, written.event_type);
    let event_data = written.event_data.as_slice();
    let mut buffer = Vec::fallible_from_elem(0xffu8, number(length)?).ok()?;
    let mut other = Vec::fallible_from_slice(buffer.as_slice()).ok()?;
    let view = viewed_inputs(buffer.as_mut_slice(), &written)?;
    let end = write_event_inputs(other.as_mut_slice(), pcr_index, event_type, event_data);
    let end = end_of(end)?;
    let outcomes = (view.as_str(), end.as_str());
    both(outcomes, (buffer.as_slice(), other.as_slice()))
}

/// Writes inputs into a buffer, and returns the bytes of the view of them, or the error.
fn viewed_inputs(buffer: &mut [u8], written: &Written) -> Option<String> {
    let (pcr_index, event_type) = (written.pcr_index, written.event_type);
    let event_data = written.event_data.as_slice();
    match PcrEventInputs::new_in_buffer(buffer, pcr_index, event_type, event_data) {
        Ok(inputs) => {
            let text = hex_digits(inputs.as_bytes()).ok()?;
            outcome(text.as_str(), None)
        }
        Err(error) => outcome("", Some(error)),
    }
}

/// Returns the inputs in a box with a PCR, a type and data.
pub(crate) fn box_v2(input: &str) -> Option<String> {
    let written = written_of(input)?;
    let (pcr_index, event_type) = (written.pcr_index, written.event_type);
    let event_data = written.event_data.as_slice();
    match PcrEventInputs::new_in_box(pcr_index, event_type, event_data) {
        Ok(boxed) => hex_digits(boxed.as_inputs().as_bytes()).ok(),
        Err(error) if error == Error::new(Status::OUT_OF_RESOURCES, ()) => None,
        Err(error) => fallible_format!("{error}").ok(),
    }
}

/// Returns whether inputs with a PCR, a type and data, in a box, are equal to those with other data,
/// which come first, in a buffer.
pub(crate) fn equal_inputs(input: &str) -> Option<String> {
    let (other, input) = input.split_once(" ; ")?;
    let (other, written) = (bytes(other).ok()?, written_of(input)?);
    let (pcr_index, event_type) = (written.pcr_index, written.event_type);
    let event_data = written.event_data.as_slice();
    let boxed = PcrEventInputs::new_in_box(pcr_index, event_type, event_data).ok()?;
    let mut buffer = [0; 64];
    let other = other.as_slice();
    let inputs = PcrEventInputs::new_in_buffer(&mut buffer, pcr_index, event_type, other).ok()?;
    let are_equal = boxed.as_inputs() == inputs;
    fallible_format!("{are_equal}").ok()
}

/// Returns whether an event with a digest, a PCR, a type and data, in a box, is equal to the one with
/// other data, which come first, in a buffer.
pub(crate) fn equal_written(input: &str) -> Option<String> {
    let (other, input) = input.split_once(" ; ")?;
    let other = bytes(other).ok()?;
    let (digest, input) = digest_and_rest(input)?;
    let written = written_of(input)?;
    let (pcr_index, event_type) = (written.pcr_index, written.event_type);
    let event_data = written.event_data.as_slice();
    let boxed = PcrEvent::new_in_box(pcr_index, event_type, digest, event_data).ok()?;
    let mut buffer = [0; 64];
    let other = other.as_slice();
    let event = PcrEvent::new_in_buffer(&mut buffer, pcr_index, event_type, digest, other).ok()?;
    let are_equal = boxed.as_event() == event;
    fallible_format!("{are_equal}").ok()
}

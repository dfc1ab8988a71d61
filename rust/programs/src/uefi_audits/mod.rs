// @generated from proved source. It is not edited.

//! What an audit of event logs of measured boot computes, over bytes in memory.
//!
//! Begin with [`replay::replay_banks`], which returns the PCRs that a log leads to, by banks.
//! [`verify`] reads the PCRs that a TPM held and compares them with those. [`check`] compares the
//! digests of an event with the hash of what its type measures, [`out_of_place`] finds events where their
//! types aren't, and [`diff`] compares the events of two logs.
//! [`content`] reads what the data of an event say. The crate `audit_text` shows all of it.
//!
//! Allocations may fail, and a text of PCRs may be wrong ([`verify::HeldError`]).

pub mod algorithms;
pub mod check;
pub mod content;
pub mod diff;
pub mod facts;
pub mod header_fault;
pub mod ignored;
pub mod judgement;
pub mod known_start;
pub mod log_replay;
pub mod naming;
pub mod out_of_place;
pub mod replay;
pub mod trailing;
pub mod verify;

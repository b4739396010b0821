//! The rules of document 01 in ordinary Rust, with the requests of document 02 that have landed.
//!
//! This crate is written from the documents and from nothing else, so that it can disagree with the
//! proved library. Where there is a choice of method it takes the plainest one, and a different one
//! from what a quick program would take. It answers any input; a refusal is the document's number.

pub mod connection;
pub mod controller;
pub mod curve;
pub mod feed;
pub mod natural;
pub mod octets;
pub mod partner;
pub mod peaks;
pub mod ranges;
pub mod reading;
pub mod rescue;
pub mod samples;
pub mod season;
pub mod site;
pub mod solar;
pub mod stick;
pub mod storage;
pub mod volt_var;
pub mod whole;

/// Only one or two bytes left for a field's tag and length, or a value that runs past the end.
pub const CUT_SHORT: u32 = 1;

/// A tag that is not in the list.
pub const UNKNOWN_TAG: u32 = 2;

/// A length that is not the tag's.
pub const WRONG_LENGTH: u32 = 3;

/// A field that is not allowed at this point of the order.
pub const OUT_OF_ORDER: u32 = 4;

/// A value outside its range.
pub const OUT_OF_RANGE: u32 = 5;

/// A reading or a weather refused by the conversion.
pub const READING_NOT_USABLE: u32 = 6;

/// An end count that differs from the steps read.
pub const WRONG_COUNT: u32 = 7;

/// Bytes that stop at a field's edge before the end field.
pub const NO_END: u32 = 8;

/// Bytes after an accepted end field.
pub const BYTES_AFTER_END: u32 = 9;

/// Lists of unequal length, empty or above 64, or of a curve and not of 2 to 16; a request beyond its rating; requests
/// of both signs; a unit number outside the fleet; a state that is not well formed.
pub const LISTS_OR_REQUESTS: u32 = 10;

/// A lent room that is shorter than the result.
pub const ROOM_TOO_SHORT: u32 = 11;

/// A file above its size, or a step too many.
pub const TOO_LARGE: u32 = 12;

//! Takes apart COSE messages, keys, claims and other CBOR, in any spelling.

#![forbid(unsafe_code)]

pub mod encode;
pub mod explain;
pub mod notation;
pub mod seals;
pub mod spell;
pub mod view;

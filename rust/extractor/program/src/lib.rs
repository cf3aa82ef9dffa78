//! The extractor, as a library for its program and its tests.

pub mod compare;
#[path = "../../mod.rs"]
pub mod extractor;

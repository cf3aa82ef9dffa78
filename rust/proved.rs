//! The proved crates, each a module, and the kit's std for them. Packages that are extracted over
//! this one name these modules. For other users they have no stable names.
#![allow(dead_code)]

#[path = "kit.rs"]
pub mod kit;

include!(concat!(env!("OUT_DIR"), "/coset.rs"));

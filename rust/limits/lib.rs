//! Tests of the package at its limits: broken conditions, refused memory, and little stack.
#![cfg(test)]
#![deny(unsafe_code)]

mod conditions;
mod deep;
mod lengths;
mod memory;
mod refusing;

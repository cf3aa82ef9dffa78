//! Extracts the row programs, and the examples that they use.

#[path = "../extractor/mod.rs"]
#[allow(dead_code)]
mod extractor;

use extractor::{CWT, Group, LIBRARY, extract};

/// The programs and the crates below them, lowest first.
const PROGRAMS: &[&str] = &[
    "tool_fault",
    "tool_explain",
    "tool_spelled",
    "tool_notation",
    "tool_view",
    "tool_look",
    "tool_seals",
    "example_types",
    "example_uses",
    "example_tokens",
    "example_seen",
    "example_hello",
    "example_print",
    "example_subject",
    "example_files",
    "example_signature",
    "example_cwt",
    "test_lines",
    "coset_vectors",
    "test_cbor",
    "test_headers",
    "test_messages",
    "test_keys_and_claims",
    "test_verify",
    "test_seen",
    "test_notation",
    "test_spelled",
    "test_seals",
    "test_uses",
    "test_message_uses",
];

fn main() {
    extractor::build("../..", |crates, out| {
        let names = &[LIBRARY, CWT].concat();
        let below = Group {
            home: "::coset::__proved",
            names,
        };
        let programs = Group {
            home: "crate",
            names: PROGRAMS,
        };
        extract(crates, &[below], programs, &out.join("rows.rs"))
    });
}

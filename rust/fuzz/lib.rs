//! What `tools/fuzz --rust` lets libFuzzer attack: every type reads the bytes. What was read is
//! written, read again, cloned, compared and formatted. Messages make their structures, and call
//! their closures.
//!
//! The first byte of an input chooses the type, and the second whether the message is under its
//! tag. The rest are its bytes.
#![deny(unsafe_code)]

mod messages;
mod types;

/// Tries an input. A fault is a panic, which ends the program.
fn attack(input: &[u8]) {
    let [kind, tagged, bytes @ ..] = input else {
        return;
    };
    let is_tagged = tagged % 2 == 1;
    match kind % (types::COUNT + messages::COUNT) {
        kind if kind < types::COUNT => types::attack(kind, bytes),
        kind => messages::attack(kind - types::COUNT, is_tagged, bytes),
    }
}

/// What libFuzzer calls for each input.
///
/// # Safety
/// There must be `length` bytes at `start`.
#[allow(unsafe_code)]
#[unsafe(no_mangle)]
pub unsafe extern "C" fn LLVMFuzzerTestOneInput(start: *const u8, length: usize) -> i32 {
    if length > 0 {
        // SAFETY: libFuzzer gives an address of so many bytes.
        attack(unsafe { std::slice::from_raw_parts(start, length) });
    }
    0
}

//! The deepest input needs little stack.
//!
//! Headers nest through counter signatures: 127 in one item, each protected header is an item of
//! its own, and 16 of these nest. So 1,900 calls read one header each within another.

use coset::cbor::value::Value;
use coset::*;
use std::thread;

/// The stack that is enough, in kB: that of a thread of std, or half of it if optimized.
const STACK: usize = if cfg!(debug_assertions) { 2_048 } else { 1_024 };
/// `Debug` needs more.
const STACK_OF_DEBUG: usize = if cfg!(debug_assertions) { 4_096 } else { 2_048 };

/// Appends the head of an item (RFC 8949, section 3).
fn head(major_type: u8, n: usize, out: &mut Vec<u8>) {
    let first = major_type << 5;
    match n {
        0..24 => out.push(first + n as u8),
        24..256 => out.extend([first + 24, n as u8]),
        256..65_536 => out.extend([first + 25, (n >> 8) as u8, n as u8]),
        _ => {
            out.push(first + 26);
            out.extend((n as u32).to_be_bytes());
        }
    }
}

fn byte_string(bytes: &[u8]) -> Vec<u8> {
    let mut out = Vec::new();
    head(2, bytes.len(), &mut out);
    out.extend(bytes);
    out
}

/// How counter signatures are nested.
#[derive(Clone, Copy)]
struct Nest {
    /// The labels in turn: 7 (RFC 8152, section 4.5) and 11 (RFC 9338).
    labels: &'static [u8],
    /// Each signature is in a list of its own.
    is_list: bool,
}

impl Nest {
    /// A header with a counter signature, which has these headers.
    fn header(&self, i: usize, protected: &[u8], unprotected: &[u8]) -> Vec<u8> {
        let mut out = vec![0xa1, self.labels[i % self.labels.len()]];
        if self.is_list {
            out.push(0x81);
        }
        out.push(0x83);
        out.extend(byte_string(protected));
        out.extend(unprotected);
        out.push(0x40);
        out
    }

    /// The content of 16 nested protected headers. Each but the outermost is in the last of as
    /// many nested headers as an item can have.
    fn layers(&self, innermost: &[u8]) -> Vec<u8> {
        let levels = if self.is_list { 84 } else { 126 };
        let mut content = innermost.to_vec();
        for _ in 0..15 {
            let mut header = self.header(0, &content, &[0xa0]);
            for i in 1..=levels {
                header = self.header(i, b"", &header);
            }
            content = header;
        }
        content
    }

    fn message(&self, innermost: &[u8]) -> Vec<u8> {
        let protected = byte_string(&self.layers(innermost));
        [&[0x84][..], &protected, &[0xa0, 0xf6, 0x40]].concat()
    }

    /// 128 nested recipients. The innermost has the deepest protected header.
    fn recipients(&self) -> Vec<u8> {
        let innermost = byte_string(&self.layers(b""));
        let mut recipient = [&[0x83][..], &innermost, &[0xa0, 0xf6]].concat();
        for _ in 1..128 {
            recipient = [&b"\x84\x40\xa0\xf6\x81"[..], &recipient].concat();
        }
        recipient
    }
}

const NESTS: [Nest; 4] = [
    Nest {
        labels: &[7],
        is_list: false,
    },
    Nest {
        labels: &[11],
        is_list: false,
    },
    Nest {
        labels: &[7, 11],
        is_list: false,
    },
    Nest {
        labels: &[7],
        is_list: true,
    },
];

/// Calls with so many kB of stack. If they aren't enough, the program ends.
fn within(stack: usize, call: impl FnOnce() + Send + 'static) {
    let thread = thread::Builder::new().stack_size(stack * 1024);
    thread
        .spawn(call)
        .expect("a thread")
        .join()
        .expect("no panic");
}

#[test]
fn deepest_messages() {
    for nest in NESTS {
        let bytes = nest.message(b"");
        within(STACK, move || {
            let message = CoseSign1::from_slice(&bytes).expect("a message");
            assert!(message.clone() == message);
            assert!(message.tbs_data(b"").len() > bytes.len() - 10);
            assert!(message.to_vec().expect("its bytes") == bytes);
            let item = Value::from_slice(&bytes).expect("an item");
            assert!(CoseSign1::from_cbor_value(item).is_ok());
        });
    }
}

#[test]
fn deepest_messages_as_text() {
    for nest in NESTS {
        let bytes = nest.message(b"");
        within(STACK_OF_DEBUG, move || {
            let message = CoseSign1::from_slice(&bytes).expect("a message");
            assert!(format!("{message:?}").len() > bytes.len());
        });
    }
}

#[test]
fn deepest_messages_that_are_refused() {
    // A label twice in the innermost header.
    let twice = b"\xa2\x18\x46\x00\x18\x46\x00";
    for nest in NESTS {
        let bytes = nest.message(twice);
        within(STACK, move || {
            let error = CoseSign1::from_slice(&bytes).expect_err("a label twice");
            assert!(matches!(error, CoseError::DuplicateMapKey));
        });
    }
}

#[test]
fn deepest_recipients() {
    for nest in NESTS {
        let bytes = nest.recipients();
        within(STACK, move || {
            let recipient = CoseRecipient::from_slice(&bytes).expect("a recipient");
            assert!(recipient.clone() == recipient);
            assert!(recipient.to_vec().expect("its bytes") == bytes);
        });
    }
}

#[test]
fn deepest_values() {
    for front in [&b"\x81"[..], b"\xa1\x00", b"\xc6"] {
        let bytes = [front.repeat(255), vec![0x80]].concat();
        within(STACK, move || {
            let value = Value::from_slice(&bytes).expect("256 levels");
            assert!(value.clone() == value);
            assert!(format!("{value:?}").len() > bytes.len());
            assert!(value.to_vec().expect("its bytes") == bytes);
        });
    }
}

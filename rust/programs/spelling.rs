//! The kit's crates `hex`, `base64` and `fast_float`, as far as programs use them.

pub mod hex {
    use crate::programs::AllocError;
    use std::fmt;

    #[derive(Debug)]
    pub enum FromHexError {
        OutOfMemory,
        NotHexadecimal,
    }

    impl fmt::Display for FromHexError {
        fn fmt(&self, f: &mut fmt::Formatter<'_>) -> fmt::Result {
            write!(f, "{self:?}")
        }
    }

    impl std::error::Error for FromHexError {}

    pub fn encode(bytes: impl AsRef<[u8]>) -> Result<String, AllocError> {
        const DIGITS: &[u8; 16] = b"0123456789abcdef";
        let mut text = String::with_capacity(bytes.as_ref().len() * 2);
        for byte in bytes.as_ref() {
            text.push(char::from(DIGITS[usize::from(byte >> 4)]));
            text.push(char::from(DIGITS[usize::from(byte & 15)]));
        }
        Ok(text)
    }

    pub fn decode(digits: impl AsRef<[u8]>) -> Result<Vec<u8>, FromHexError> {
        let value = |digit: u8| char::from(digit).to_digit(16);
        let byte = |pair: &[u8]| {
            let [high, low] = pair else {
                return None;
            };
            u8::try_from(value(*high)? * 16 + value(*low)?).ok()
        };
        let bytes = digits.as_ref().chunks(2).map(byte).collect::<Option<_>>();
        bytes.ok_or(FromHexError::NotHexadecimal)
    }
}

pub mod base64 {
    pub mod engine {
        pub mod general_purpose {
            use crate::programs::AllocError;

            /// Standard base64, with padding.
            pub struct Standard;

            pub const STANDARD: Standard = Standard;

            const LETTERS: &[u8; 64] =
                b"ABCDEFGHIJKLMNOPQRSTUVWXYZabcdefghijklmnopqrstuvwxyz0123456789+/";

            impl Standard {
                pub fn encode(&self, bytes: impl AsRef<[u8]>) -> Result<String, AllocError> {
                    let mut text = String::new();
                    for group in bytes.as_ref().chunks(3) {
                        let byte = |at| group.get(at).map_or(0, |byte| u32::from(*byte));
                        let bits = byte(0) << 16 | byte(1) << 8 | byte(2);
                        for at in 0..4 {
                            let letter = LETTERS[(bits >> (18 - 6 * at)) as usize & 63];
                            text.push(if at <= group.len() {
                                char::from(letter)
                            } else {
                                '='
                            });
                        }
                    }
                    Ok(text)
                }
            }
        }
    }
}

pub mod fast_float {
    pub fn parse<F: std::str::FromStr, T: AsRef<[u8]>>(text: T) -> Result<F, ()> {
        let text = std::str::from_utf8(text.as_ref()).map_err(|_| ())?;
        text.parse().map_err(|_| ())
    }
}

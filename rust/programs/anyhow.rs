//! The kit's crate `anyhow`, as far as programs use it.

use std::fmt::{Debug, Display, Formatter};

/// The text of an error.
pub struct Error(String);

pub type Result<T, E = Error> = std::result::Result<T, E>;

impl Error {
    pub fn msg(text: impl Display) -> Error {
        Error(text.to_string())
    }
}

impl Debug for Error {
    fn fmt(&self, f: &mut Formatter<'_>) -> std::fmt::Result {
        f.write_str(&self.0)
    }
}

impl<E: std::error::Error> From<E> for Error {
    fn from(error: E) -> Error {
        Error::msg(error)
    }
}

pub trait Context<T> {
    fn context(self, text: impl Display) -> Result<T>;
}

impl<T, E: std::error::Error> Context<T> for std::result::Result<T, E> {
    fn context(self, text: impl Display) -> Result<T> {
        self.map_err(|error| Error(format!("{text}: {error}")))
    }
}

impl<T> Context<T> for Option<T> {
    fn context(self, text: impl Display) -> Result<T> {
        self.ok_or_else(|| Error::msg(text))
    }
}

macro_rules! bail {
    ($($part:tt)*) => {
        return Err($crate::programs::anyhow::Error::msg(format_args!($($part)*)).into())
    };
}

macro_rules! ensure {
    ($condition:expr) => {
        if !$condition {
            $crate::programs::anyhow::bail!("Condition failed: `{}`", stringify!($condition));
        }
    };
}
pub(crate) use {bail, ensure};

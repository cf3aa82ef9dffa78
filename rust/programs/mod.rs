//! The kit's std for programs and their tests: a runtime over the process, or over bytes in memory.
//! Then crates of the kit, as far as programs use them.
//!
//! `rust/rows` and `rust/show` have this module. It is no part of what users build.

pub mod anyhow;
pub mod io;
pub mod spelling;
pub mod unicode;

pub use spelling::{base64, fast_float, hex};
pub use unicode::{ucd_category, ucd_derived};

use coset::__proved::kit::{AllocError, AllocFailed};
use io::{Stdin, Stdout};
use std::borrow::Cow;
use std::collections::BTreeMap;
use std::fmt::{Debug, Display};
use std::path::PathBuf;

/// What programs name without a `use`.
pub mod prelude {
    pub use super::{
        AllocGlobal, DisplayCalls, HostRuntime, Input, LetterCalls, ListCalls, MapCalls, Print,
        WriteCalls,
    };
}

/// A program's arguments, its standard input, output and error, and the folder of its files.
pub struct HostRuntime {
    args: io::Result<Vec<String>>,
    stdin: Stdin,
    stdout: Stdout,
    stderr: Stdout,
    folder: PathBuf,
}

impl HostRuntime {
    /// Returns the runtime of this process, with the arguments after the first `skipped`.
    pub fn of_process(skipped: usize) -> HostRuntime {
        let texts = std::env::args_os().skip(skipped);
        let texts = texts.map(|it| it.into_string());
        let args = texts.collect::<Result<Vec<_>, _>>();
        HostRuntime {
            args: args.map_err(|_| io::ErrorKind::InvalidData.into()),
            stdin: io::process::stdin(),
            stdout: io::process::stdout(),
            stderr: io::process::stderr(),
            folder: PathBuf::new(),
        }
    }

    /// Returns a runtime over bytes in memory. `args` are those after the program's name.
    pub fn in_memory(args: Vec<String>, input: Vec<u8>, folder: PathBuf) -> HostRuntime {
        let name = String::from("program");
        HostRuntime {
            args: Ok([name].into_iter().chain(args).collect()),
            stdin: Stdin::new(std::io::Cursor::new(input)),
            stdout: Stdout::in_memory(),
            stderr: Stdout::in_memory(),
            folder,
        }
    }

    pub fn stdin(&self) -> Stdin {
        self.stdin.clone()
    }

    pub fn stdout(&self) -> Stdout {
        self.stdout.clone()
    }

    pub fn stderr(&self) -> Stdout {
        self.stderr.clone()
    }
}

impl Default for HostRuntime {
    fn default() -> HostRuntime {
        HostRuntime::in_memory(Vec::new(), Vec::new(), PathBuf::new())
    }
}

/// A runtime that has an allocator.
pub trait AllocGlobal {}

impl AllocGlobal for HostRuntime {}

/// A runtime that can end the program.
pub trait Abort {}

impl Abort for HostRuntime {}

/// A runtime that has standard input.
pub trait Input {
    fn reader(&self) -> Stdin;
}

impl Input for HostRuntime {
    fn reader(&self) -> Stdin {
        self.stdin()
    }
}

/// A runtime that has standard output.
pub trait Print {
    fn writer(&self) -> Stdout;
}

impl Print for HostRuntime {
    fn writer(&self) -> Stdout {
        self.stdout()
    }
}

/// The status of a program that ends.
#[derive(Clone, Copy, Debug, PartialEq, Eq)]
pub struct ExitCode(pub u8);

impl From<u8> for ExitCode {
    fn from(status: u8) -> ExitCode {
        ExitCode(status)
    }
}

/// What `main` returns.
pub trait Ended {
    /// Returns the status, and what standard error says.
    fn ended(self) -> (u8, String);
}

impl Ended for ExitCode {
    fn ended(self) -> (u8, String) {
        (self.0, String::new())
    }
}

impl<E: Debug> Ended for Result<(), E> {
    fn ended(self) -> (u8, String) {
        match self {
            Ok(()) => (0, String::new()),
            Err(error) => (1, format!("Error: {error:?}\n")),
        }
    }
}

/// What tests use.
pub mod test {
    use std::fmt::Debug;

    /// The error that ends a test.
    pub struct Fail(String);

    impl<E: Debug> From<E> for Fail {
        fn from(error: E) -> Fail {
            Fail(format!("error: {error:?}"))
        }
    }

    /// Panics if a test ended with an error.
    #[track_caller]
    pub fn passed(ended: Result<(), Fail>) {
        if let Err(Fail(text)) = ended {
            panic!("{text}");
        }
    }
}

pub mod env {
    pub use std::env::VarError;

    use super::{HostRuntime, io};

    /// A program's arguments, with its name.
    pub type Args = std::vec::IntoIter<String>;

    pub fn args(rt: &HostRuntime) -> io::Result<Args> {
        match &rt.args {
            Ok(args) => Ok(args.clone().into_iter()),
            Err(error) => Err(error.kind().into()),
        }
    }

    pub fn var(_rt: &HostRuntime, name: &str) -> Result<String, VarError> {
        std::env::var(name)
    }
}

pub mod fs {
    use super::{HostRuntime, io};

    pub fn read(rt: &HostRuntime, name: impl AsRef<str>) -> io::Result<Vec<u8>> {
        Ok(std::fs::read(rt.folder.join(name.as_ref()))?)
    }

    pub fn write(rt: &HostRuntime, name: impl AsRef<str>, bytes: &[u8]) -> io::Result<()> {
        Ok(std::fs::write(rt.folder.join(name.as_ref()), bytes)?)
    }
}

/// The kit has one NaN.
pub fn f64_to_bits_with_nan(number: f64) -> u64 {
    if number.is_nan() {
        0x7ff8_0000_0000_0000
    } else {
        number.to_bits()
    }
}

/// `Display`'s call that may fail.
pub trait DisplayCalls {
    fn try_to_string(&self) -> Result<String, AllocError>;
}

impl<T: Display> DisplayCalls for T {
    fn try_to_string(&self) -> Result<String, AllocError> {
        Ok(self.to_string())
    }
}

/// `String`'s call that may fail, for a letter.
pub trait LetterCalls {
    fn try_push(&mut self, letter: char) -> Result<(), AllocError>;
}

impl LetterCalls for String {
    fn try_push(&mut self, letter: char) -> Result<(), AllocError> {
        self.push(letter);
        Ok(())
    }
}

/// What `write!` to a text calls, which fails if an allocation does.
pub trait WriteCalls {
    fn write_fmt(&mut self, text: std::fmt::Arguments<'_>) -> Result<(), AllocError>;
}

impl WriteCalls for String {
    fn write_fmt(&mut self, text: std::fmt::Arguments<'_>) -> Result<(), AllocError> {
        std::fmt::Write::write_fmt(self, text).map_err(|_| AllocError)
    }
}

/// `Vec`'s calls that may fail, beyond those of the library.
pub trait ListCalls<T> {
    fn try_append(&mut self, other: &mut Vec<T>) -> Result<(), AllocError>;
}

impl<T> ListCalls<T> for Vec<T> {
    fn try_append(&mut self, other: &mut Vec<T>) -> Result<(), AllocError> {
        self.append(other);
        Ok(())
    }
}

pub fn new_list<T, const N: usize>(elements: [T; N]) -> Result<Vec<T>, AllocFailed<[T; N]>> {
    Ok(Vec::from(elements))
}

pub fn lossy_text(bytes: &[u8]) -> Result<Cow<'_, str>, AllocError> {
    Ok(String::from_utf8_lossy(bytes))
}

/// `BTreeMap`'s call that may fail.
pub trait MapCalls<K, V> {
    fn try_insert(&mut self, key: K, value: V) -> Result<Option<V>, AllocError>;
}

impl<K: Ord, V> MapCalls<K, V> for BTreeMap<K, V> {
    fn try_insert(&mut self, key: K, value: V) -> Result<Option<V>, AllocError> {
        Ok(self.insert(key, value))
    }
}

/// A text made from parts.
macro_rules! try_format {
    ($($part:tt)*) => { Ok::<String, coset::__proved::kit::AllocError>(format!($($part)*)) };
}
pub(crate) use try_format;

/// Elements, or copies of one.
macro_rules! try_vec {
    ($($element:tt)*) => { Ok::<_, coset::__proved::kit::AllocError>(vec![$($element)*]) };
}
pub(crate) use try_vec;

/// Writes to standard output or standard error.
macro_rules! print {
    ($rt:expr; $($part:tt)*) => {
        $crate::programs::io::put(&mut $rt.stdout(), format_args!($($part)*), "")
    };
}
macro_rules! println {
    ($rt:expr) => {
        $crate::programs::io::put(&mut $rt.stdout(), format_args!(""), "\n")
    };
    ($rt:expr; $($part:tt)*) => {
        $crate::programs::io::put(&mut $rt.stdout(), format_args!($($part)*), "\n")
    };
}
macro_rules! eprint {
    ($rt:expr; $($part:tt)*) => {
        $crate::programs::io::put(&mut $rt.stderr(), format_args!($($part)*), "")
    };
}
macro_rules! eprintln {
    ($rt:expr; $($part:tt)*) => {
        $crate::programs::io::put(&mut $rt.stderr(), format_args!($($part)*), "\n")
    };
}
pub(crate) use {eprint, eprintln, print, println};

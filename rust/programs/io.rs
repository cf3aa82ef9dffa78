//! The kit's `std::io`, as far as programs use it. Its error can be made from an allocation's.

use super::{AllocError, AllocFailed, Print};
use std::cell::RefCell;
use std::fmt;
use std::rc::Rc;

pub use std::io::ErrorKind;

/// An error of input or output.
#[derive(Debug)]
pub struct Error(std::io::Error);

pub type Result<T> = std::result::Result<T, Error>;

impl Error {
    pub fn kind(&self) -> ErrorKind {
        self.0.kind()
    }
}

impl fmt::Display for Error {
    fn fmt(&self, f: &mut fmt::Formatter<'_>) -> fmt::Result {
        self.0.fmt(f)
    }
}

impl std::error::Error for Error {}

impl From<std::io::Error> for Error {
    fn from(error: std::io::Error) -> Error {
        Error(error)
    }
}

impl From<ErrorKind> for Error {
    fn from(kind: ErrorKind) -> Error {
        Error(kind.into())
    }
}

impl From<AllocError> for Error {
    fn from(_: AllocError) -> Error {
        ErrorKind::OutOfMemory.into()
    }
}

impl<T> From<AllocFailed<T>> for Error {
    fn from(_: AllocFailed<T>) -> Error {
        ErrorKind::OutOfMemory.into()
    }
}

pub trait Read {
    fn read(&mut self, buffer: &mut [u8]) -> Result<usize>;

    fn read_to_end(&mut self, bytes: &mut Vec<u8>) -> Result<usize> {
        let mut buffer = [0; 4096];
        let before = bytes.len();
        loop {
            match self.read(&mut buffer) {
                Ok(0) => return Ok(bytes.len() - before),
                Ok(count) => bytes.extend_from_slice(&buffer[..count]),
                Err(error) if error.kind() == ErrorKind::Interrupted => {}
                Err(error) => return Err(error),
            }
        }
    }

    fn read_to_string(&mut self, text: &mut String) -> Result<usize> {
        let mut bytes = Vec::new();
        let count = self.read_to_end(&mut bytes)?;
        text.push_str(std::str::from_utf8(&bytes).map_err(|_| ErrorKind::InvalidData)?);
        Ok(count)
    }
}

impl Read for &[u8] {
    fn read(&mut self, buffer: &mut [u8]) -> Result<usize> {
        Ok(std::io::Read::read(self, buffer)?)
    }
}

pub trait Write {
    fn write(&mut self, bytes: &[u8]) -> Result<usize>;

    fn flush(&mut self) -> Result<()>;

    fn write_all(&mut self, mut bytes: &[u8]) -> Result<()> {
        while !bytes.is_empty() {
            match self.write(bytes) {
                Ok(0) => return Err(ErrorKind::WriteZero.into()),
                Ok(count) => bytes = &bytes[count..],
                Err(error) if error.kind() == ErrorKind::Interrupted => {}
                Err(error) => return Err(error),
            }
        }
        Ok(())
    }

    fn write_fmt(&mut self, text: fmt::Arguments<'_>) -> Result<()> {
        self.write_all(text.to_string().as_bytes())
    }
}

impl Write for Vec<u8> {
    fn write(&mut self, bytes: &[u8]) -> Result<usize> {
        self.extend_from_slice(bytes);
        Ok(bytes.len())
    }

    fn flush(&mut self) -> Result<()> {
        Ok(())
    }
}

/// Writes a text and its end.
pub fn put(output: &mut Stdout, text: fmt::Arguments<'_>, end: &str) -> Result<()> {
    output.write_all(format!("{text}{end}").as_bytes())
}

/// Standard input: a file of the process, or bytes in memory.
#[derive(Clone)]
pub struct Stdin(Rc<RefCell<dyn std::io::Read>>);

impl Stdin {
    pub fn new(source: impl std::io::Read + 'static) -> Stdin {
        Stdin(Rc::new(RefCell::new(source)))
    }
}

impl Read for Stdin {
    fn read(&mut self, buffer: &mut [u8]) -> Result<usize> {
        Ok(self.0.borrow_mut().read(buffer)?)
    }
}

/// Standard output or standard error: a file of the process, or bytes in memory.
#[derive(Clone)]
pub enum Stdout {
    Process(Rc<RefCell<dyn std::io::Write>>, bool),
    Memory(Rc<RefCell<Vec<u8>>>),
}

impl Stdout {
    /// Returns an output into memory.
    pub fn in_memory() -> Stdout {
        Stdout::Memory(Rc::default())
    }

    /// Returns what was written into memory so far.
    pub fn written(&self) -> Vec<u8> {
        match self {
            Stdout::Process(..) => Vec::new(),
            Stdout::Memory(bytes) => bytes.borrow().clone(),
        }
    }
}

impl Write for Stdout {
    fn write(&mut self, bytes: &[u8]) -> Result<usize> {
        match self {
            Stdout::Process(file, _) => Ok(file.borrow_mut().write(bytes)?),
            Stdout::Memory(written) => written.borrow_mut().write(bytes),
        }
    }

    fn flush(&mut self) -> Result<()> {
        match self {
            Stdout::Process(file, _) => Ok(file.borrow_mut().flush()?),
            Stdout::Memory(_) => Ok(()),
        }
    }
}

pub trait IsTerminal {
    fn is_terminal(&self) -> bool;
}

impl IsTerminal for Stdout {
    fn is_terminal(&self) -> bool {
        matches!(self, Stdout::Process(_, true))
    }
}

/// Lines of an input.
pub trait BufRead {
    fn lines(self) -> impl Iterator<Item = Result<String>>;
}

pub struct BufReader(std::io::BufReader<Source>);

/// An input as `std` reads it.
struct Source(Stdin);

impl std::io::Read for Source {
    fn read(&mut self, buffer: &mut [u8]) -> std::io::Result<usize> {
        self.0.0.borrow_mut().read(buffer)
    }
}

impl BufReader {
    pub fn new(inner: Stdin) -> Result<BufReader> {
        Ok(BufReader(std::io::BufReader::new(Source(inner))))
    }
}

impl BufRead for BufReader {
    fn lines(self) -> impl Iterator<Item = Result<String>> {
        std::io::BufRead::lines(self.0).map(|line| Ok(line?))
    }
}

/// A writer that collects small writes.
pub struct BufWriter<W: Write> {
    inner: W,
    bytes: Vec<u8>,
}

impl<W: Write> BufWriter<W> {
    const ROOM: usize = 1 << 16;

    pub fn new(inner: W) -> Result<BufWriter<W>> {
        Ok(BufWriter {
            inner,
            bytes: Vec::new(),
        })
    }
}

impl<W: Write> Write for BufWriter<W> {
    fn write(&mut self, bytes: &[u8]) -> Result<usize> {
        self.bytes.extend_from_slice(bytes);
        if self.bytes.len() >= Self::ROOM {
            self.flush()?;
        }
        Ok(bytes.len())
    }

    fn flush(&mut self) -> Result<()> {
        self.inner.write_all(&std::mem::take(&mut self.bytes))?;
        self.inner.flush()
    }
}

pub fn writer<R: Print>(rt: &R) -> Stdout {
    rt.writer()
}

/// The files of the process. `std`'s own ones take a closed input for an empty one, and a closed
/// output for one that takes everything.
pub mod process {
    use super::{Rc, RefCell, Stdin, Stdout};
    use std::fs::File;
    use std::io::{IsTerminal, Read, Result, Write};
    use std::os::fd::AsFd;

    /// A file, or the error of its opening for each call.
    struct Opened(Result<File>);

    impl Opened {
        fn new(of: impl AsFd) -> Opened {
            Opened(of.as_fd().try_clone_to_owned().map(File::from))
        }

        fn file(&mut self) -> Result<&mut File> {
            self.0.as_mut().map_err(|error| error.kind().into())
        }
    }

    impl Read for Opened {
        fn read(&mut self, buffer: &mut [u8]) -> Result<usize> {
            self.file()?.read(buffer)
        }
    }

    impl Write for Opened {
        fn write(&mut self, bytes: &[u8]) -> Result<usize> {
            self.file()?.write(bytes)
        }

        fn flush(&mut self) -> Result<()> {
            self.file()?.flush()
        }
    }

    fn output(of: impl AsFd + IsTerminal) -> Stdout {
        let is_terminal = of.is_terminal();
        Stdout::Process(Rc::new(RefCell::new(Opened::new(of))), is_terminal)
    }

    pub fn stdin() -> Stdin {
        Stdin::new(Opened::new(std::io::stdin()))
    }

    pub fn stdout() -> Stdout {
        output(std::io::stdout())
    }

    pub fn stderr() -> Stdout {
        output(std::io::stderr())
    }
}

//! `look [OPTION..] [KIND] [FILE]..` takes apart the content of files, or of standard input if no
//! file is named.
//!
//! A file contains raw bytes, hexadecimal, base64, diagnostic notation, or bytes in another
//! spelling. The options and the kind before a file say how it is shown. Standard error says how
//! each file was read. The status is 0 if all are of their kinds, and 1 if one was refused. It is 2
//! if one couldn't be read, or an argument wasn't understood.

#![forbid(unsafe_code)]

use look::explain::{Kind, comment, quoted_name};
use look::view::{Asked, END, FRONT, Form, To, UNANSWERED, look, respell};
use std::ffi::OsString;
use std::io::{self, IsTerminal, Read, Write};
use std::process::ExitCode;
use std::{env, fs};

const USAGE: &str = "usage: look [OPTION..] [KIND] [FILE]..
A file, or standard input if no file is named, contains raw bytes, hexadecimal, base64, diagnostic
notation, or bytes in another spelling. rust/look/README.md lists the spellings.
KIND is auto (what its tag says, otherwise what it can be), cwt (a web token), value, sign1, sign,
mac, mac0, encrypt, encrypt0, countersignature, key, keyset, claims or kdf. For cwt, status 0 says
that the input is a message by its tag, or CBOR without such a tag. The summary says whether the
library reads the payload as claims.
--to=hex, --to=binary or --to=base64 writes only the bytes. --edn writes only diagnostic notation.
--where writes only the offset of the fault, the path there and the fault, or accepted. --html
writes a page, and --json a line of JSON for each file. --from=edn reads the input only as
diagnostic notation. --short cuts long strings. --now=SECONDS is the moment for which a token's
times are judged, in seconds since 1970 began. --now=none judges nothing. --external-aad=HEX is the
external_aad of messages (RFC 8152, section 4.3). --color is auto, always or never. auto means: in
a terminal, unless NO_COLOR is set.
";

/// Returns the bytes that digits write in hexadecimal.
fn bytes_of(digits: &str) -> Option<Vec<u8>> {
    let digit = |digit: &u8| char::from(*digit).to_digit(16);
    let byte = |pair: &[u8]| match pair {
        [high, low] => Some((digit(high)? * 16 + digit(low)?) as u8),
        _ => None,
    };
    digits.as_bytes().chunks(2).map(byte).collect()
}

/// The options from the arguments so far.
struct Arguments {
    /// How the next input is shown.
    asked: Asked,
    /// The spelling in which the input's bytes are written, if they are written alone.
    to: Option<To>,
    is_terminal: bool,
}

impl Arguments {
    /// Takes the form of the output, and returns true if it is allowed. A page allows no other
    /// form.
    fn takes_form(&mut self, form: Form) -> bool {
        let is_allowed = self.asked.form != Form::Page || form == Form::Page;
        if is_allowed {
            self.asked.form = form;
        }
        is_allowed
    }

    /// Takes the moment for which times are judged, and returns true if it is one.
    fn takes_moment(&mut self, moment: &str) -> bool {
        self.asked.now = moment.parse().ok();
        self.asked.now.is_some() || moment == "none"
    }

    /// Takes the bytes of `external_aad`, and returns true if they are in hexadecimal.
    fn takes_aad(&mut self, digits: &str) -> bool {
        let bytes = bytes_of(digits);
        let is_understood = bytes.is_some();
        self.asked.external_aad = bytes.unwrap_or_default();
        is_understood
    }

    /// Takes a kind or an option, and returns true if the argument is one.
    fn takes(&mut self, argument: &str) -> bool {
        if let Some(kind) = Kind::of(argument) {
            self.asked.kind = kind;
            return true;
        }
        match argument.split_once('=').unwrap_or((argument, "")) {
            ("--now", moment) => return self.takes_moment(moment),
            ("--external-aad", digits) if argument.contains('=') => return self.takes_aad(digits),
            ("--color", "always") => self.asked.is_colored = true,
            ("--color", "never") => self.asked.is_colored = false,
            ("--color", "auto") => self.asked.is_colored = self.is_terminal,
            ("--to", _) if self.asked.form == Form::Page => return false,
            ("--to", "hex") => self.to = Some(To::Hexadecimal),
            ("--to", "binary") => self.to = Some(To::Binary),
            ("--to", "base64") => self.to = Some(To::Base64),
            ("--from", "edn") => self.asked.is_notation = true,
            _ => match argument {
                "--edn" => return self.takes_form(Form::Plain),
                "--where" => return self.takes_form(Form::Where),
                "--html" => return self.takes_form(Form::Page),
                "--json" => return self.takes_form(Form::Json),
                "--short" => self.asked.is_short = true,
                _ => return false,
            },
        }
        true
    }

    /// Shows an input of that name, which is quoted if it has to be, and returns the status.
    fn show(&self, input: &[u8], name: &str) -> io::Result<u8> {
        let mut out = io::stdout().lock();
        let say = |said: &str| match name {
            "" => writeln!(io::stderr(), "{said}"),
            _ => writeln!(io::stderr(), "{name}: {said}"),
        };
        if let Some(to) = self.to {
            let respelled = respell(to, self.asked.is_notation, input);
            say(&respelled.said)?;
            out.write_all(&respelled.output)?;
            return Ok(respelled.status);
        }
        let shown = look(&self.asked, input, name);
        say(&shown.said)?;
        if !name.is_empty() && !matches!(self.asked.form, Form::Page | Form::Json) {
            writeln!(out, "{}", comment(name))?;
        }
        out.write_all(shown.text.as_bytes())?;
        Ok(shown.status)
    }

    /// Shows all files that the arguments name, or standard input, and returns the greatest status.
    fn answer(mut self, words: &[OsString]) -> io::Result<u8> {
        let mut status = None;
        for word in words {
            if word.to_str().is_some_and(|argument| self.takes(argument)) {
                continue;
            }
            let text = word.to_string_lossy();
            let name = quoted_name(&text);
            if text.starts_with("--") {
                write!(io::stderr(), "error: {name} isn't understood\n{USAGE}")?;
                return Ok(UNANSWERED);
            }
            let shown = match fs::read(word) {
                Ok(input) => self.show(&input, &name)?,
                Err(error) => {
                    writeln!(io::stderr(), "error: {name}: {error}; nor is it a KIND")?;
                    UNANSWERED
                }
            };
            status = status.max(Some(shown));
        }
        if let Some(status) = status {
            return Ok(status);
        }
        let mut input = Vec::new();
        io::stdin().read_to_end(&mut input)?;
        self.show(&input, "")
    }
}

/// Shows all inputs, inside a page if the arguments ask for one.
fn answer_all() -> io::Result<u8> {
    let words: Vec<_> = env::args_os().skip(1).collect();
    let wants_color = env::var_os("NO_COLOR").is_none_or(|value| value.is_empty());
    let is_terminal = io::stdout().is_terminal() && wants_color;
    let is_page = words.iter().any(|word| word == "--html");
    let form = if is_page { Form::Page } else { Form::Annotated };
    let asked = Asked {
        form,
        is_colored: is_terminal,
        ..Asked::default()
    };
    if is_page {
        io::stdout().write_all(FRONT.as_bytes())?;
    }
    let status = Arguments {
        asked,
        to: None,
        is_terminal,
    }
    .answer(&words)?;
    if is_page {
        io::stdout().write_all(END.as_bytes())?;
    }
    Ok(status)
}

fn main() -> ExitCode {
    match answer_all() {
        Ok(status) => ExitCode::from(status),
        Err(error) => {
            // There is nowhere else to say it.
            let _ = writeln!(io::stderr(), "error: {error}");
            ExitCode::from(UNANSWERED)
        }
    }
}

//! What holds for all inputs, tried with random and damaged ones. `LOOK_RUNS` is the number of
//! inputs, by default 2,000: `LOOK_RUNS=1000000 cargo test --release -p look --test properties`.

use look::encode::{base64, hex};
use look::explain::{Kind, Line, explain, explain_whole, fault, notation};
use look::notation::bytes_of;
use look::seals::described;
use look::spell::read_input;
use look::view::{Asked, Form, look};
use std::fs;

const FORMS: [Form; 6] = [
    Form::Annotated,
    Form::Page,
    Form::Rows,
    Form::Json,
    Form::Plain,
    Form::Where,
];

/// Random numbers (xorshift64).
struct Random(u64);

impl Random {
    fn below(&mut self, end: usize) -> usize {
        self.0 ^= self.0 << 13;
        self.0 ^= self.0 >> 7;
        self.0 ^= self.0 << 17;
        (self.0 % end as u64) as usize
    }

    fn of<'a, T>(&mut self, list: &'a [T]) -> &'a T {
        &list[self.below(list.len())]
    }

    /// Returns the bytes with up to four changes.
    fn damaged(&mut self, bytes: &[u8]) -> Vec<u8> {
        let mut bytes = bytes.to_vec();
        for _ in 0..self.below(5) {
            let (at, byte) = (self.below(bytes.len() + 1), self.below(256) as u8);
            match self.below(4) {
                0 => bytes.insert(at, byte),
                1 if at < bytes.len() => bytes[at] = byte,
                2 => bytes.truncate(at),
                _ => {
                    let again = bytes[at..bytes.len().min(at + 8)].to_vec();
                    bytes.splice(at..at, again);
                }
            }
        }
        bytes
    }
}

/// The texts of the files and rows, and the bytes that they spell or write in notation.
struct Seeds {
    items: Vec<Vec<u8>>,
    texts: Vec<Vec<u8>>,
}

fn seeds() -> Seeds {
    let folder = concat!(env!("CARGO_MANIFEST_DIR"), "/tests");
    let files = fs::read_dir(format!("{folder}/files")).unwrap();
    let mut texts: Vec<Vec<u8>> = files
        .map(|file| fs::read(file.unwrap().path()).unwrap())
        .collect();
    for rows in ["notation", "spell"] {
        let rows = fs::read_to_string(format!("{folder}/rows/{rows}")).unwrap();
        texts.extend(rows.lines().map(|row| row.as_bytes().to_vec()));
    }
    texts.sort();
    let items = texts
        .iter()
        .filter_map(|text| Some(read_input(text).ok()?.bytes));
    let rows = texts
        .iter()
        .filter_map(|text| bytes_of(std::str::from_utf8(text).ok()?).ok());
    let items = items
        .chain(rows)
        .filter(|bytes| !bytes.is_empty())
        .collect();
    Seeds { items, texts }
}

/// Calls `check` as often as asked for.
fn run(seed: u64, check: fn(&mut Random, &Seeds)) {
    let count = std::env::var("LOOK_RUNS").map_or(2000, |count| count.parse().unwrap());
    let (seeds, mut random) = (seeds(), Random(seed));
    (0..count).for_each(|_| check(&mut random, &seeds));
}

/// The bytes of the lines are the input: each byte once and in order. The lines are no more than
/// twice the bytes and three.
#[test]
fn the_lines_are_the_input() {
    fn check(lines: &[Line], bytes: &[u8], kind: Kind) {
        let shown: Vec<u8> = lines.iter().flat_map(|line| line.bytes).copied().collect();
        assert_eq!(hex(&shown), hex(bytes), "{kind:?}");
        assert!(
            lines.len() <= 2 * bytes.len() + 3,
            "{kind:?} {}",
            hex(bytes)
        );
    }
    run(1, |random, Seeds { items, .. }| {
        let item = random.of(items).clone();
        let (bytes, kind) = (random.damaged(&item), *random.of(&Kind::ALL));
        let now = Some(1_500_000_000);
        check(&explain(kind, &bytes, now).lines, &bytes, kind);
        check(&explain_whole(kind, &bytes, now).lines, &bytes, kind);
        if let Some(place) = fault(kind, &bytes).and_then(|refusal| refusal.place) {
            assert!(place.offset <= bytes.len(), "{kind:?} {}", hex(&bytes));
        }
    });
}

/// The notation of an item that is accepted is read back as the item.
#[test]
fn the_notation_is_read_back() {
    run(2, |random, Seeds { items, .. }| {
        let item = random.of(items).clone();
        let bytes = random.damaged(&item);
        let explained = explain(Kind::Value, &bytes, None);
        if explained.error.is_none() {
            let notation = notation(&explained.lines);
            let read = bytes_of(&notation).map(|bytes| hex(&bytes));
            assert_eq!(read, Ok(hex(&bytes)), "{notation}");
        }
    });
}

/// Characters that move, hide or reorder text, or show nothing, by Unicode's tables.
const HIDDEN: [(u32, u32); 20] = [
    (0x00, 0x1f),
    (0x7f, 0x9f),
    (0xad, 0xad),
    (0x34f, 0x34f),
    (0x61c, 0x61c),
    (0x115f, 0x1160),
    (0x17b4, 0x17b5),
    (0x180b, 0x180f),
    (0x200b, 0x200f),
    (0x2028, 0x202e),
    (0x2060, 0x206f),
    (0x3164, 0x3164),
    (0xe000, 0xf8ff),
    (0xfe00, 0xfe0f),
    (0xfeff, 0xfeff),
    (0xffa0, 0xffa0),
    (0xfff9, 0xfffb),
    (0x1d173, 0x1d17a),
    (0xe0000, 0xe0fff),
    (0xf0000, 0x10ffff),
];

fn is_hidden(c: char) -> bool {
    HIDDEN
        .iter()
        .any(|(first, last)| (*first..=*last).contains(&c.into()))
}

/// Returns a text string of hidden and other characters, as the value of a claim.
fn hostile(random: &mut Random) -> Vec<u8> {
    let mut text = String::new();
    for _ in 0..random.below(6) {
        let (first, last) = *random.of(&HIDDEN);
        let hidden = first + random.below((last - first + 1) as usize) as u32;
        text.extend([
            char::from_u32(hidden).unwrap(),
            *random.of(&['x', '"', '/', 'א', '<']),
        ]);
    }
    [&[0xa1, 0x01, 0x78, text.len() as u8], text.as_bytes()].concat()
}

/// No form shows a hidden character raw. Rows have tabs between fields.
#[test]
fn nothing_hidden_is_shown_raw() {
    run(3, |random, Seeds { items, texts }| {
        let list = if random.below(2) == 0 { items } else { texts };
        let input = random.of(list).clone();
        let input = if random.below(2) == 0 {
            hostile(random)
        } else {
            random.damaged(&input)
        };
        let (kind, form) = (*random.of(&Kind::ALL), *random.of(&FORMS));
        let (is_short, is_notation) = (random.below(2) == 0, random.below(4) == 0);
        let asked = Asked {
            kind,
            form,
            is_short,
            is_notation,
            ..Asked::default()
        };
        let shown = look(&asked, &input, "");
        let is_separator = |c| c == '\n' || c == '\t' && form == Form::Rows;
        let hidden = shown
            .text
            .chars()
            .find(|c| is_hidden(*c) && !is_separator(*c));
        assert_eq!(hidden, None, "{form:?} {}", hex(&input));
        assert!(!shown.said.contains(is_hidden), "{}", hex(&input));
    });
}

/// A structure is read back from each spelling.
#[test]
fn spellings_are_read_back() {
    run(4, |random, Seeds { items, .. }| {
        let item = random.of(items).clone();
        // Arrays, maps and tags begin with bytes that no text has.
        let bytes = [&[0xd2], random.damaged(&item).as_slice()].concat();
        let each = |begin: &str, between: &str| {
            let digits: Vec<String> = bytes
                .iter()
                .map(|byte| format!("{begin}{byte:02x}"))
                .collect();
            digits.join(between)
        };
        let numbers: Vec<String> = bytes.iter().map(u8::to_string).collect();
        let text = match random.below(9) {
            0 => each("", " "),
            1 => each("\\x", ""),
            2 => format!("b64'{}'", base64(&bytes)),
            3 => format!("h'{}'", hex(&bytes)),
            4 => format!("uint8_t x[] = {{{}}};", numbers.join(", ")),
            5 => each("%", ""),
            6 => format!("b\"{}\"", each("\\x", "")),
            7 => format!("// comment\n{}", each("", "\n")),
            _ => format!("data:application/cbor;base64,{}", base64(&bytes)),
        };
        let read = read_input(text.as_bytes()).map(|reading| hex(&reading.bytes));
        assert_eq!(read, Ok(hex(&bytes)), "{text}");
    });
}

/// Whatever the message and the keys are, they are judged.
#[test]
fn any_message_and_key_is_judged() {
    run(5, |random, Seeds { items, .. }| {
        let (message, key) = (random.of(items).clone(), random.of(items).clone());
        let (message, key) = (random.damaged(&message), random.damaged(&key));
        let lines = described(None, &message, &key, b"").unwrap_or_default();
        assert!(
            lines
                .lines()
                .all(|line| line.starts_with(['X', 'S', 'K', 'E', '.'])),
            "{lines}"
        );
    });
}

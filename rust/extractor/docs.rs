//! Documentation: what it says of contracts and of errors that Rust's signatures don't have.

use super::file::File;
use super::rewrite::Known;
use super::tokens::Kind;

/// The beginnings of sentences about contracts and proofs.
const CONTRACTS: &[&str] = &[
    "An implementer ",
    "Contracts say",
    "Contracts see",
    "Each law ",
    "It also says what each value is written",
    "It has one reader",
    "The contract",
    "The implementer ",
    "The prover ",
    "The shape says",
    "They see",
];

/// Returns the documentation of the function beside one, from that one's. An error that it doesn't
/// return is a panic.
pub fn beside(docs: &str, is_plain: bool) -> String {
    if is_plain {
        let docs = docs.replace("# Errors", "# Panics");
        let errors = ["`OutOfMemory` if", "`DuplicateMapKey` if"];
        return errors
            .iter()
            .fold(docs, |docs, error| docs.replace(error, "If"));
    }
    let (mut kept, mut panics) = (String::new(), String::new());
    for line in docs.split_inclusive('\n') {
        if let Some((front, of)) = line.split_once("- `Coset` with an error of ") {
            panics = format!("{front}\n{front}# Panics\n{front}The panics of {of}");
        } else {
            let bullet = if panics.is_empty() { "- The " } else { "The " };
            kept += &line.replace("- `Caller` with the ", bullet);
        }
    }
    kept + &panics
}

/// Returns a paragraph without its sentences about contracts. A sentence ends with a full stop
/// before a word with a capital, or at the paragraph's end.
fn without_contracts(paragraph: &str) -> String {
    let mut rest = paragraph.to_string();
    while let Some(begin) = CONTRACTS.iter().filter_map(|it| rest.find(it)).min() {
        let is_end = |at: &usize| rest[at + 2..].starts_with(char::is_uppercase);
        let mut stops = rest[begin..].match_indices(". ").map(|(at, _)| begin + at);
        let end = stops.find(is_end).map_or(rest.len(), |at| at + 2);
        rest.replace_range(begin..end, "");
    }
    rest.trim_end().to_string()
}

/// Returns lines of documentation of at most 100 columns.
fn filled(paragraph: &str, mark: &str, indent: usize) -> String {
    let mut lines = vec![mark.to_string()];
    for word in paragraph.split_whitespace() {
        let last = lines.last().map_or(0, String::len);
        if last > mark.len() && indent + last + 1 + word.len() > 100 {
            lines.push(mark.to_string());
        }
        let line = lines.last_mut().expect("a line");
        *line += " ";
        *line += word;
    }
    lines.join(&format!("\n{}", " ".repeat(indent)))
}

impl File {
    /// Links name the homes of crates.
    pub fn links(&mut self, own: &str, known: &Known) {
        for token in self
            .tokens
            .iter_mut()
            .filter(|token| token.kind == Kind::Doc)
        {
            let (own, others): (Vec<_>, _) = known.homes.iter().partition(|(name, _)| name == own);
            let own = own.into_iter().map(|(_, home)| ("crate", home));
            for (name, home) in own.chain(others.into_iter().map(|(name, home)| (&name[..], home)))
            {
                for front in ["(", "[`"] {
                    let link = format!("{front}{name}::");
                    token.text = token.text.replace(&link, &format!("{front}{home}::"));
                }
            }
        }
    }

    /// Sentences about contracts go.
    pub fn sentences(&mut self) {
        let is_line = |file: &File, at: usize| {
            file.is_kind(at, Kind::Doc) && file.text(at).len() > 3 && !file.text(at).contains("- ")
        };
        let mut at = 0;
        while at < self.tokens.len() {
            let mut end = at;
            while is_line(self, end) && self.text(end)[..3] == self.text(at)[..3] {
                end += 2;
            }
            let lines = (at..end).step_by(2).map(|i| self.text(i)[3..].trim());
            let paragraph = lines.collect::<Vec<_>>().join(" ");
            if CONTRACTS.iter().any(|it| paragraph.contains(it)) {
                let column = self
                    .span(0, at)
                    .chars()
                    .rev()
                    .take_while(|c| *c == ' ')
                    .count();
                let left = without_contracts(&paragraph);
                let text = filled(&left, &self.text(at)[..3], column);
                self.drop(at, end - 1);
                if left.is_empty() {
                    self.drop_line(at, end - 1);
                } else {
                    self.set(at, &text);
                }
            }
            at = end.max(at + 1);
        }
    }
}

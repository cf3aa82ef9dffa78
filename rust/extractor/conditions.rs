//! What the program says if a caller breaks a condition: the text of coset 0.4.2.

use super::file::File;
use super::tokens::Kind;

/// Conditions of `prove!`, and the text of the panic. The text of any other is the condition.
const CONDITIONS: &[(&str, &str)] = &[
    (
        "label < 1 || (7 < label && !(label == 11 || label == 12))",
        "value() method used to set core header parameter",
    ),
    (
        "label < 0 || 5 < label",
        "param() method used to set KeyParameter",
    ),
    (
        "number < 1 || 7 < number",
        "claim() method used to set core claim",
    ),
    (
        "CwtClaimName::is_private(id)",
        "assertion failed: iana::CwtClaimName::is_private(id)",
    ),
    (
        "is_of_recipient(context)",
        "unsupported encryption context {context:?}",
    ),
];

/// Fields that a message must have for a call, and the text of the panic if it lacks them.
const FIELDS: &[(&str, &str)] = &[
    ("ciphertext", "called `Option::unwrap()` on a `None` value"),
    ("payload", "payload missing"),
];

impl File {
    /// Turns `prove!` into `assert!`, and what can't be reached in a proved program into a panic.
    pub fn conditions(&mut self) {
        for at in self.words() {
            let open = self.next(self.next(at));
            if !self.is(self.next(at), "!") {
                continue;
            }
            if self.is(at, "prove") {
                let close = self.pair[open];
                let condition = self.joined(open + 1, close);
                self.tokens[at].text = "assert".into();
                if let Some((_, text)) = CONDITIONS.iter().find(|(known, _)| *known == condition) {
                    self.tokens[close].text = format!(", {text:?})");
                }
            } else if self.is(at, "unreachable") {
                let field = self.matched_field(at);
                if let Some((_, text)) = FIELDS.iter().find(|(known, _)| Some(*known) == field) {
                    self.tokens[at].text = "panic".into();
                    self.tokens[open].text = format!("({text:?}");
                }
            }
        }
    }

    /// The field that the innermost `match &self.FIELD` around this place takes apart.
    fn matched_field(&self, at: usize) -> Option<&str> {
        let is_around = |i: &usize| self.tokens[*i].kind == Kind::Open && self.pair[*i] > at;
        let body = (0..at).rev().find(is_around)?;
        let field = self.prev(body);
        let begin = (0..4).fold(field, |at, _| self.prev(at));
        let is_match = self.after(begin, &["match", "&", "self", "."]) == Some(field);
        is_match.then(|| self.text(field))
    }
}

//! A source under work: its tokens, and questions about them.

use super::tokens::{Kind, Outcome, Token, tokens};

/// The tokens of a source. A token that is dropped keeps its place, with an empty text.
pub struct File {
    pub tokens: Vec<Token>,
    /// The place of the other bracket of each bracket.
    pub pair: Vec<usize>,
    /// Items that are written at the end of the file.
    pub added: String,
}

impl File {
    pub fn new(text: &str) -> Outcome<File> {
        let mut file = File {
            tokens: tokens(text)?,
            pair: Vec::new(),
            added: String::new(),
        };
        file.pair_brackets()?;
        Ok(file)
    }

    fn pair_brackets(&mut self) -> Outcome {
        let mut open = Vec::new();
        self.pair = vec![0; self.tokens.len()];
        for at in 0..self.tokens.len() {
            match self.tokens[at].kind {
                Kind::Open => open.push(at),
                Kind::Close => match open.pop() {
                    Some(begin) => (self.pair[begin], self.pair[at]) = (at, begin),
                    None => return self.refuse(at, "a bracket that closes none"),
                },
                _ => {}
            }
        }
        open.first()
            .map_or(Ok(()), |at| self.refuse(*at, "a bracket without an end"))
    }

    /// Inserts the tokens of a text before a place.
    pub fn insert(&mut self, at: usize, text: &str) -> Outcome {
        self.tokens.splice(at..at, tokens(text)?);
        self.pair_brackets()
    }

    pub fn refuse<T>(&self, at: usize, what: &str) -> Outcome<T> {
        let last = self.tokens.len() - 1;
        Err((
            self.tokens[at.min(last)].line,
            format!("{what} isn't known here"),
        ))
    }

    pub fn text(&self, at: usize) -> &str {
        self.tokens.get(at).map_or("", |token| &token.text)
    }

    /// The text from a place to another, as it is now.
    pub fn span(&self, from: usize, to: usize) -> String {
        self.tokens[from..to]
            .iter()
            .map(|token| &token.text[..])
            .collect()
    }

    /// The same with one space for white space of any kind, and without contracts.
    pub fn joined(&self, from: usize, to: usize) -> String {
        let tokens = self.tokens[from..to]
            .iter()
            .filter(|token| token.kind != Kind::Ghost);
        let text: String = tokens.map(|token| &token.text[..]).collect();
        text.split_whitespace().collect::<Vec<_>>().join(" ")
    }

    pub fn set(&mut self, at: usize, text: &str) {
        self.tokens[at].text = text.into();
    }

    pub fn is(&self, at: usize, text: &str) -> bool {
        self.text(at) == text
    }

    pub fn is_kind(&self, at: usize, kind: Kind) -> bool {
        self.tokens.get(at).is_some_and(|token| token.kind == kind)
    }

    fn is_code(&self, at: usize) -> bool {
        let token = &self.tokens[at];
        !token.text.is_empty() && !matches!(token.kind, Kind::Space | Kind::Doc)
    }

    /// The place of the next token of code, or the number of tokens.
    pub fn next(&self, at: usize) -> usize {
        let end = self.tokens.len();
        (at + 1..end).find(|i| self.is_code(*i)).unwrap_or(end)
    }

    /// The place of the token of code before, or the number of tokens.
    pub fn prev(&self, at: usize) -> usize {
        (0..at)
            .rev()
            .find(|i| self.is_code(*i))
            .unwrap_or(self.tokens.len())
    }

    /// The place after these tokens, if they are what begins there.
    pub fn after(&self, at: usize, wanted: &[&str]) -> Option<usize> {
        wanted
            .iter()
            .try_fold(at, |at, text| self.is(at, text).then(|| self.next(at)))
    }

    /// The place after what begins with `<` here, or this place.
    pub fn after_angles(&self, at: usize) -> usize {
        let (mut depth, mut end) = (0, at);
        loop {
            depth += i32::from(self.is(end, "<")) - i32::from(self.is(end, ">"));
            if depth == 0 || end >= self.tokens.len() {
                return if end == at { at } else { self.next(end) };
            }
            end = self.next(end);
        }
    }

    /// The place of the first token from here with one of these texts, outside of brackets.
    pub fn find(&self, from: usize, wanted: &[&str]) -> usize {
        let mut at = from;
        while at < self.tokens.len() && !wanted.contains(&self.text(at)) {
            at = if self.is_kind(at, Kind::Open) {
                self.pair[at]
            } else {
                at
            };
            at = self.next(at);
        }
        at
    }

    /// The places of all words.
    pub fn words(&self) -> Vec<usize> {
        let places = 0..self.tokens.len();
        places
            .filter(|i| self.is_kind(*i, Kind::Word) && self.is_code(*i))
            .collect()
    }

    /// The names of the functions that the file defines.
    pub fn functions(&self) -> Vec<String> {
        let words = self.words().into_iter().filter(|at| self.is(*at, "fn"));
        words
            .map(|at| self.text(self.next(at)).to_string())
            .collect()
    }

    /// The place of the documentation of what begins there, or that place if there is none.
    pub fn with_docs(&self, at: usize) -> usize {
        let mut first = at;
        for i in (0..at).rev() {
            match self.tokens[i].kind {
                Kind::Doc if self.text(i).starts_with("///") => first = i,
                Kind::Space => {}
                _ => break,
            }
        }
        first
    }

    pub fn drop(&mut self, from: usize, to: usize) {
        self.tokens[from..to]
            .iter_mut()
            .for_each(|token| token.text.clear());
    }

    /// Drops these tokens and the white space before them, up to the line's beginning.
    pub fn drop_line(&mut self, from: usize, to: usize) {
        self.drop(from, to);
        if let Some(before) = self.tokens[..from]
            .last_mut()
            .filter(|it| it.kind == Kind::Space)
        {
            let end = before.text.rfind('\n').unwrap_or(before.text.len());
            before.text.truncate(end);
        }
    }

    /// Drops an item of a list with its documentation, and one comma beside it.
    pub fn drop_item(&mut self, from: usize, end: usize) {
        let from = self.with_docs(from);
        let (before, has_comma) = (self.prev(from), self.is(end, ","));
        if has_comma && self.text(from.wrapping_sub(1)).contains('\n') {
            self.drop_line(from, end + 1);
        } else if has_comma {
            self.drop(from, self.next(end));
        } else if self.is(before, ",") {
            self.drop(before, end);
        } else {
            self.drop(from, end);
        }
    }
}

//! Compares extracted Rust with its source, token by token. Each difference must be one that a rule
//! names. Shares with the extractor its tables of names, and no code: it reads both texts itself.

use crate::extractor::tables;
use std::collections::BTreeMap;

/// How many tokens each rule dropped, replaced or added.
pub type Counts = BTreeMap<&'static str, usize>;

/// A token and its line. A word of documentation begins with `///`.
type Token = (String, usize);

/// Rules that drop tokens of the source: their names and what they drop. In a pattern, `$` is any
/// token, `{..}` brackets with their content, `<..>` the same of angles, `docs` any documentation.
const DROPPED: &[(&str, &str)] = &[
    ("attributes", "# [ tactic {..} ]"),
    ("attributes", "# ! [ tactic {..} ]"),
    ("attributes", "# [ cycle {..} ]"),
    ("attributes", "# [ derive ( Drop ) ]"),
    ("attributes", ", Drop"),
    ("attributes", "Drop ,"),
    ("impls", "docs impl Model for $ {..}"),
    ("impls", "docs impl Model for $ <..> {..}"),
    ("impls", "docs impl <..> Model for $ <..> {..}"),
    ("impls", "docs impl Drop for Header {..}"),
    ("bounds", "where $ : Drop"),
    ("bounds", "where"),
    ("bounds", "$ : Drop ,"),
    ("bounds", "$ : : $ : Drop ,"),
    ("bounds", "+ Drop"),
    ("bounds", "Drop +"),
    ("bounds", ": Drop"),
    ("allocators", "docs pub alloc : Global ,"),
    ("allocators", "docs alloc : Global ,"),
    ("macros", "in alloc ;"),
    ("macros", "rt ;"),
    ("macros", "& rt ;"),
    ("runtime", "< W : fmt : : Write >"),
    ("runtime", "$ : HostRuntime"),
];

/// Allocators as parameters, arguments, fields and values. They go with a comma beside them.
const ALLOCATORS: &[&str] = &[
    "docs pub alloc : Global",
    "docs alloc : Global",
    "_alloc : Global",
    "* $ . allocator ( )",
    "* $ . $ . allocator ( )",
    "* $ . $ . $ . allocator ( )",
    "* Box : : allocator {..}",
    "$ . alloc ( )",
    "$ . alloc",
    "alloc",
    "_alloc",
    "Global",
];

/// Rules that replace tokens, besides those of the tables.
const REPLACED: &[(&str, &str, &str)] = &[
    ("attributes", "derive_where", "derive"),
    ("clones", "Clone", "TryClone"),
    ("conditions", "prove", "assert"),
    ("conditions", "unreachable ! ( )", "panic ! ( $ )"),
    (
        "frames",
        "inline ( always )",
        "cfg_attr ( not ( debug_assertions ) , inline ( always ) )",
    ),
    ("runtime", "W", "'_"),
    (
        "runtime",
        "{",
        "{ programs : : test : : passed ( ( | $ : programs : : HostRuntime | {",
    ),
    (
        "runtime",
        "-",
        "{ programs : : test : : passed ( ( | $ : programs : : HostRuntime | -",
    ),
];

/// Words of sentences about contracts and proofs, which go from documentation.
const ABOUT: &[&str] = &[
    "Contract",
    "contract",
    "implementer",
    "law",
    "prover",
    "shape",
    "They see",
    "reader",
    "also says",
];

/// Rules that add tokens.
const ADDED: &[(&str, &str)] = &[
    ("builders", "# [ must_use ]"),
    ("calls", "# [ doc ( hidden ) ]"),
    ("conditions", ", $"),
    (
        "frames",
        "# [ cfg_attr ( debug_assertions , inline ( always ) ) ]",
    ),
    ("items", "impl Clone for $ {..}"),
    ("items", "impl <..> Clone for $ <..> {..}"),
    ("items", "impl Default for $ {..}"),
    ("items", "kit : : copies ! ( $ ) ;"),
    ("items", "docs pub fn program {..} - > {..} {..}"),
    (
        "prelude",
        "# [ allow ( unused_imports ) ] use $ : : $ : : kit : : { self , prelude : : * } ;",
    ),
    (
        "prelude",
        "# [ allow ( unused_imports ) ] use : : $ : : $ : : kit : : { self , prelude : : * } ;",
    ),
    (
        "prelude",
        "# [ allow ( unused_imports ) ] use crate : : programs : : { self , prelude : : * } ;",
    ),
    (
        "runtime",
        ") ( programs : : HostRuntime : : default ( ) ) ) }",
    ),
];

/// The end of the literal that begins a text, in quotes of this kind.
fn quoted(text: &str, quote: char) -> usize {
    let mut escaped = false;
    for (at, c) in text.char_indices().skip(1) {
        if c == quote && !escaped {
            return at + 1;
        }
        escaped = c == '\\' && !escaped;
    }
    text.len()
}

/// The length of the token that begins a text.
fn length(text: &str) -> usize {
    let first = text.chars().next().expect("a character");
    let after = text.chars().nth(1);
    let is_character = text.chars().nth(2) == Some('\'') || after == Some('\\');
    match first {
        '"' => quoted(text, '"'),
        'b' if after == Some('"') => 1 + quoted(&text[1..], '"'),
        'b' if after == Some('\'') => 1 + quoted(&text[1..], '\''),
        '\'' if is_character => quoted(text, '\''),
        c if c.is_alphanumeric() || c == '_' || c == '\'' => {
            let begin = c.len_utf8();
            let rest = text[begin..].find(|c: char| !c.is_ascii_alphanumeric() && c != '_');
            rest.map_or(text.len(), |rest| rest + begin)
        }
        c => c.len_utf8(),
    }
}

/// Reads the tokens of a text. White space and plain comments are none.
pub fn tokens(text: &str) -> Vec<Token> {
    let (mut found, mut at) = (Vec::new(), 0);
    while at < text.len() {
        let rest = &text[at..];
        let line = 1 + text[..at].matches('\n').count();
        let end = if rest.starts_with("//") {
            let end = rest.find('\n').unwrap_or(rest.len());
            let marks = ["//!", "///"];
            let mark = marks.iter().find(|mark| rest.starts_with(**mark));
            let words = mark
                .map_or("", |mark| &rest[mark.len()..end])
                .split_whitespace();
            found.extend(words.map(|word| (format!("{}{word}", mark.unwrap_or(&"")), line)));
            end
        } else if rest.starts_with(char::is_whitespace) {
            rest.len() - rest.trim_start().len()
        } else {
            let end = length(rest);
            found.push((rest[..end].to_string(), line));
            end
        };
        at += end;
    }
    found
}

/// A word of documentation, without its mark.
fn word_of(text: &str) -> Option<&str> {
    text.strip_prefix("///").or(text.strip_prefix("//!"))
}

fn text(tokens: &[Token], at: usize) -> &str {
    tokens.get(at).map_or("", |(text, _)| text)
}

/// The place after the brackets that begin here.
fn after_brackets(tokens: &[Token], at: usize, open: &[&str], close: &[&str]) -> Option<usize> {
    open.contains(&text(tokens, at)).then_some(())?;
    let mut depth = 0;
    for end in at..tokens.len() {
        depth += i32::from(open.contains(&text(tokens, end)));
        depth -= i32::from(close.contains(&text(tokens, end)));
        if depth == 0 {
            return Some(end + 1);
        }
    }
    None
}

fn after_block(tokens: &[Token], at: usize) -> Option<usize> {
    after_brackets(tokens, at, &["(", "[", "{"], &[")", "]", "}"])
}

/// The place after what a pattern matches here.
fn matched(tokens: &[Token], at: usize, pattern: &str) -> Option<usize> {
    let mut end = at;
    for part in pattern.split_whitespace() {
        end = match part {
            "docs" => {
                end + tokens[end..]
                    .iter()
                    .take_while(|it| it.0.starts_with("///"))
                    .count()
            }
            "{..}" => after_block(tokens, end)?,
            "<..>" => after_brackets(tokens, end, &["<"], &[">"])?,
            "$" if end < tokens.len() => end + 1,
            part if text(tokens, end) == part => end + 1,
            _ => return None,
        };
    }
    Some(end)
}

/// A text's tokens as a pattern.
fn spaced(text: &str) -> String {
    tokens(text)
        .into_iter()
        .map(|(text, _)| text + " ")
        .collect()
}

/// The place after a contract or a ghost item, with its documentation.
fn after_contract(source: &[Token], at: usize) -> Option<usize> {
    let item = matched(source, at, "docs")?;
    let item = matched(source, item, "pub ghost").map_or(item, |end| end - 1);
    match text(source, item) {
        "ghost" => {
            let mut end = item;
            while !matches!(text(source, end), ";" | ",") {
                end = after_block(source, end).unwrap_or(end + 1);
            }
            Some(end + 1)
        }
        "requires" | "ensures" if item == at => {
            let open = if text(source, at + 1) == "{" {
                at + 1
            } else {
                at + 2
            };
            after_block(source, open)
        }
        _ => None,
    }
}

/// A comparison under way: the places reached in both texts.
struct Walk<'a> {
    source: &'a [Token],
    rust: &'a [Token],
    at: (usize, usize),
    counts: Counts,
    /// The name and the parameters of the function before, and the words of its documentation.
    renamed: Option<(String, Vec<String>)>,
    homes: &'a [(String, String)],
}

impl Walk<'_> {
    fn count(&mut self, rule: &'static str, to: (usize, usize)) -> bool {
        *self.counts.entry(rule).or_default() += (to.0 - self.at.0).max(to.1 - self.at.1);
        self.at = to;
        true
    }

    /// Replaces a pattern of the source by one of the Rust, if both are here.
    fn replaced(&mut self, rule: &'static str, from: &str, to: &str) -> bool {
        let (i, j) = self.at;
        match (matched(self.source, i, from), matched(self.rust, j, to)) {
            (Some(i), Some(j)) => self.count(rule, (i, j)),
            _ => false,
        }
    }

    fn dropped(&mut self) -> bool {
        let (i, j) = self.at;
        if let Some(end) = after_contract(self.source, i) {
            return self.count("contracts", (end, j));
        }
        if text(self.source, i) == "?"
            && matched(self.rust, j.saturating_sub(4), ". clone ( )") == Some(j)
        {
            return self.count("clones", (i + 1, j));
        }
        for it in ALLOCATORS {
            let whole = it.strip_prefix("docs ").unwrap_or(it);
            let shapes = [
                format!("let alloc = {whole} ;"),
                format!(", {whole}"),
                format!("{it} ,"),
                it.to_string(),
            ];
            if let Some(end) = shapes.iter().find_map(|it| matched(self.source, i, it)) {
                return self.count("allocators", (end, j));
            }
        }
        let rule = DROPPED
            .iter()
            .find_map(|(rule, it)| Some((rule, matched(self.source, i, it)?)));
        rule.is_some_and(|(rule, end)| self.count(rule, (end, j)))
    }

    fn added(&mut self) -> bool {
        let (i, j) = self.at;
        let rule = ADDED.iter().find_map(|(rule, it)| {
            let end = matched(self.rust, j, it)?;
            let is_text = *it != ", $" || text(self.rust, j + 1).starts_with('"');
            is_text.then_some((rule, end))
        });
        rule.is_some_and(|(rule, end)| self.count(rule, (i, end)))
    }

    /// Names of calls that are renamed, and those of tables.
    fn named(&mut self) -> bool {
        let (i, j) = self.at;
        let checked = format!("{}_checked", text(self.source, i));
        let before = format!("{}_checked", text(self.source, i.saturating_sub(2)));
        if text(self.rust, j) == checked {
            if text(self.source, i - 1) == "fn" {
                let open = (j..)
                    .find(|j| matches!(text(self.rust, *j), "(" | ""))
                    .unwrap_or(j);
                self.renamed = Some((text(self.source, i).into(), self.names(open)));
            }
            return self.count("calls", (i + 1, j + 1));
        }
        let last = format!("{}_checked", text(self.source, i.saturating_sub(1)));
        let is_more = text(self.rust, j) == before && text(self.rust, j + 1) == ",";
        if is_more || text(self.rust, j) == "," && text(self.rust, j + 1) == last {
            return self.count("calls", (i, j + 2));
        }
        let both = format!("{{ {} , {checked} }}", text(self.source, i));
        if self.replaced("calls", "$", &both) {
            return true;
        }
        self.tabled()
    }

    /// Names of the tables and of crates.
    fn tabled(&mut self) -> bool {
        let tables: [(&'static str, &[(&str, &str)]); 5] = [
            ("paths", tables::PATHS),
            ("calls of std", tables::CALLS),
            ("methods", tables::METHODS),
            ("macros", tables::PRINTS),
            ("macros", tables::ALLOCATING_MACROS),
        ];
        for (rule, table) in tables {
            for (from, to) in table {
                if self.replaced(rule, &spaced(from), &spaced(to)) {
                    return true;
                }
            }
        }
        let name = text(self.source, self.at.0).to_string();
        self.homes
            .iter()
            .any(|(from, to)| from == &name && self.replaced("paths", "$", &spaced(to)))
            || self.replaced("paths", "$", &format!("programs : : {name}"))
    }

    /// The names of the parameters or arguments in these brackets.
    fn names(&self, open: usize) -> Vec<String> {
        let end = after_block(self.rust, open).unwrap_or(open);
        let (mut names, mut depth) = (Vec::new(), 0);
        for j in open..end {
            depth += i32::from(matches!(text(self.rust, j), "(" | "[" | "{" | "<"));
            depth -= i32::from(matches!(text(self.rust, j), ")" | "]" | "}" | ">"));
            let around = [j - 1, j + 1, j + 2].map(|j| text(self.rust, j));
            let is_argument = matches!(around[0], "(" | ",") && matches!(around[1], "," | ")");
            let is_typed = around[0] != ":" && around[1] == ":" && around[2] != ":";
            let is_name = is_argument || is_typed || text(self.rust, j) == "self";
            let is_word = text(self.rust, j).starts_with(char::is_alphabetic);
            if depth == 1 && is_word && is_name {
                names.push(text(self.rust, j).to_string());
            }
        }
        names
    }

    /// The function beside one that was renamed: it hands on its own parameters in order.
    fn beside(&mut self) -> bool {
        let (i, j) = self.at;
        let Some((name, parameters)) = &self.renamed else {
            return false;
        };
        let mut item = matched(self.rust, j, "docs").expect("a place");
        while let Some(end) = matched(self.rust, item, "# [ $ ]") {
            item = end;
        }
        if matched(self.rust, item, &format!("pub fn {name}")).is_none() {
            return false;
        }
        let body = (item..)
            .find(|j| matches!(text(self.rust, *j), "{" | ""))
            .unwrap_or(item);
        let Some(end) = after_block(self.rust, body) else {
            return false;
        };
        let open = (item..)
            .find(|j| matches!(text(self.rust, *j), "(" | ""))
            .unwrap_or(item);
        let call = (body..end).find(|j| text(self.rust, *j) == format!("{name}_checked"));
        let Some(call) = call else { return false };
        let makes = ["made", "serialized", "callers"]
            .iter()
            .any(|by| matched(self.rust, body, &format!("{{ kit : : {by} (")).is_some());
        let mut handed = self.names(call + 1);
        let own = self.names(open);
        if own.first().is_some_and(|it| it == "self") {
            handed.insert(0, "self".into());
        }
        let is_right = makes && own == *parameters && handed == own;
        self.renamed = None;
        is_right && self.count("functions beside", (i, end))
    }

    /// A `use` of the kit's std.
    fn uses(&mut self) -> bool {
        let (i, j) = self.at;
        if matched(self.source, i, "use std : :").is_none() {
            return false;
        }
        let end = (i..)
            .find(|i| matches!(text(self.source, *i), ";" | ""))
            .unwrap_or(i);
        let tree: String = self.source[i + 1..end].iter().map(|it| &it.0[..]).collect();
        let mut wanted = String::new();
        for path in leaves("", &tree) {
            let path = path.strip_suffix("::self").unwrap_or(&path).to_string();
            let rest = |known: &str| {
                path.strip_prefix(known)
                    .filter(|it| it.is_empty() || it.starts_with(':'))
            };
            match tables::PATHS
                .iter()
                .find_map(|(known, to)| Some((rest(known)?, to)))
            {
                Some((_, &"")) => {}
                Some((rest, to)) => wanted += &format!("use {to}{rest};"),
                None => return false,
            }
        }
        match matched(self.rust, j, &spaced(&wanted)) {
            Some(j) => self.count("paths", (end + 1, j)),
            None => false,
        }
    }

    /// Documentation: sentences about contracts go, links name homes.
    fn documented(&mut self) -> bool {
        let (i, j) = self.at;
        let word = |tokens: &[Token], at: usize| word_of(text(tokens, at)).map(String::from);
        let Some(from) = word(self.source, i) else {
            return false;
        };
        let linked = self.homes.iter().fold(from.clone(), |text, (name, home)| {
            let text = text.replace(&format!("({name}::"), &format!("({home}::"));
            text.replace(&format!("[`{name}::"), &format!("[`{home}::"))
        });
        if from != linked && word(self.rust, j) == Some(linked) {
            return self.count("links", (i + 1, j + 1));
        }
        let is_contract = matches!(
            &from[..],
            "Contracts" | "The" | "They" | "An" | "It" | "Each" | "This"
        );
        let mut end = i;
        while word(self.source, end).is_some_and(|word| !word.ends_with('.')) {
            end += 1;
        }
        let sentence: String = self.source[i..=end]
            .iter()
            .map(|it| it.0[3..].to_string() + " ")
            .collect();
        let is_about = ABOUT.iter().any(|it| sentence.contains(it));
        is_contract && is_about && self.count("sentences", (end + 1, j))
    }

    /// `crate`, whose path may itself begin with `crate`.
    fn own_path(&mut self) -> bool {
        let home = self.homes.iter().find(|(name, _)| name == "crate");
        let home = home.map_or(String::new(), |(_, home)| spaced(home));
        self.replaced("paths", "crate", &home)
    }

    /// Whole items and attributes, whose first tokens may also be those of what follows.
    fn items(&mut self) -> bool {
        let (i, j) = self.at;
        let is_item = |it: &&(&str, &str)| {
            it.1.starts_with(['#', 'i', 'l', 'd']) && matches!(it.0, "attributes" | "impls")
        };
        let mut dropped = DROPPED
            .iter()
            .filter(is_item)
            .map(|it| matched(self.source, i, it.1));
        let mut added = ADDED.iter().filter(|it| !it.1.starts_with(','));
        let values = [
            "let alloc =",
            "docs pub alloc : Global ,",
            "docs alloc : Global ,",
            "$ . alloc ,",
            "$ . alloc ( ) ,",
            "$ . alloc )",
        ];
        let is_value = values
            .iter()
            .any(|it| matched(self.source, i, it).is_some());
        let has_more = is_value
            || after_contract(self.source, i).is_some()
            || dropped.any(|end| end.is_some());
        has_more && self.dropped()
            || added.any(|it| {
                matched(self.rust, j, it.1).is_some() && matched(self.source, i, it.1).is_none()
            }) && self.added()
    }

    fn step(&mut self) -> bool {
        let (i, j) = self.at;
        if self.uses() || self.beside() || self.items() || self.own_path() {
            return true;
        }
        if text(self.source, i) == text(self.rust, j) {
            self.at = (i + 1, j + 1);
            return true;
        }
        self.documented() || self.rules()
    }

    fn rules(&mut self) -> bool {
        self.named()
            || REPLACED
                .iter()
                .any(|(rule, from, to)| self.replaced(rule, from, to))
            || self.dropped()
            || self.added()
    }
}

/// The paths of a tree of `use` that is written without white space.
fn leaves(front: &str, tree: &str) -> Vec<String> {
    let Some((path, rest)) = tree.split_once('{') else {
        return vec![format!("{front}{tree}")];
    };
    let inner = rest.strip_suffix('}').unwrap_or(rest);
    let (mut depth, mut begin, mut found) = (0, 0, Vec::new());
    for (at, c) in inner.char_indices().chain([(inner.len(), ',')]) {
        depth += i32::from(c == '{') - i32::from(c == '}');
        if c == ',' && depth == 0 {
            if begin < at {
                found.extend(leaves(&format!("{front}{path}"), &inner[begin..at]));
            }
            begin = at + 1;
        }
    }
    found
}

/// Compares a source with its Rust. `homes` are the paths of crates, with that of `crate`. An error
/// begins with the source's line.
pub fn compare(source: &str, rust: &str, homes: &[(String, String)]) -> Result<Counts, String> {
    let (source, rust) = (tokens(source), tokens(rust));
    let mut walk = Walk {
        source: &source,
        rust: &rust,
        at: (0, 0),
        counts: Counts::new(),
        renamed: None,
        homes,
    };
    while walk.at != (source.len(), rust.len()) {
        if !walk.step() {
            let (i, j) = walk.at;
            let line = source.get(i).map_or(0, |it| it.1);
            let of = |tokens: &[Token], at: usize| {
                (at..at + 8)
                    .map(|at| text(tokens, at).to_string() + " ")
                    .collect::<String>()
            };
            return Err(format!(
                "{line}: `{}` became `{}`",
                of(&source, i),
                of(&rust, j)
            ));
        }
    }
    Ok(walk.counts)
}

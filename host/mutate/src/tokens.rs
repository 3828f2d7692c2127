//! The words and signs of Rattle source, with their places. Comments, attributes and the prover's text (contract clauses
//! and `ghost use` items) have no tokens, so nothing that goes by tokens touches them.

#[derive(Clone, Copy, Debug, PartialEq, Eq)]
pub enum Sort {
    Word,
    Number,
    Quoted,
    Sign,
}

#[derive(Clone, Copy, Debug, PartialEq, Eq)]
pub struct Token<'a> {
    pub text: &'a str,
    pub start: usize,
    pub sort: Sort,
}

impl Token<'_> {
    pub fn end(&self) -> usize {
        self.start + self.text.len()
    }
}

/// The words that the prover's text follows, in braces or up to a semicolon.
const CLAUSES: [&str; 3] = ["requires", "ensures", "ghost"];

/// The signs of more than one character, the longer ones first.
const LONG_SIGNS: [&str; 24] = [
    "<<=", ">>=", "..=", "::<", "<=", ">=", "==", "!=", "&&", "||", "<<", ">>", "+=", "-=", "*=",
    "/=", "%=", "&=", "|=", "^=", "->", "=>", "::", "..",
];

pub fn tokens(source: &str) -> Vec<Token<'_>> {
    let mut found = Vec::new();
    let mut at = 0;
    while let Some(first) = source[at..].chars().next() {
        let rest = &source[at..];
        if first.is_whitespace() {
            at += first.len_utf8();
            continue;
        }
        if let Some(length) = comment(rest).or_else(|| attribute(rest)) {
            at += length;
            continue;
        }
        let (sort, length) = token(rest, first);
        let text = &rest[..length];
        at += length;
        if sort == Sort::Word && CLAUSES.contains(&text) {
            at += prover_text(&source[at..]);
        } else {
            let start = at - length;
            found.push(Token { text, start, sort });
        }
    }
    found
}

/// The length of the comment that the text begins with.
fn comment(rest: &str) -> Option<usize> {
    if rest.starts_with("//") {
        Some(rest.find('\n').unwrap_or(rest.len()))
    } else if rest.starts_with("/*") {
        Some(rest.find("*/").map_or(rest.len(), |end| end + 2))
    } else {
        None
    }
}

/// The length of the attribute that the text begins with.
fn attribute(rest: &str) -> Option<usize> {
    let begins = ["#[", "#!["].iter().any(|start| rest.starts_with(start));
    begins.then(|| bracketed(rest, b'[', b']'))
}

/// What the text begins with, and its length.
fn token(rest: &str, first: char) -> (Sort, usize) {
    let quoted = ["b'", "b\"", "\""]
        .iter()
        .find(|quote| rest.starts_with(**quote));
    if let Some(quote) = quoted {
        return (Sort::Quoted, quoted_length(rest, quote.len()));
    }
    if first.is_ascii_digit() {
        return (Sort::Number, word_length(rest));
    }
    // A quote by itself begins the name of a lifetime or a label.
    if first.is_alphabetic() || first == '_' || first == '\'' {
        return (
            Sort::Word,
            first.len_utf8() + word_length(&rest[first.len_utf8()..]),
        );
    }
    let long = LONG_SIGNS.iter().find(|sign| rest.starts_with(**sign));
    (Sort::Sign, long.map_or(first.len_utf8(), |sign| sign.len()))
}

fn word_length(rest: &str) -> usize {
    let other = |letter: char| !letter.is_alphanumeric() && letter != '_';
    rest.find(other).unwrap_or(rest.len())
}

/// The length with the closing quote, which is as the opening one that ends at `open`.
fn quoted_length(rest: &str, open: usize) -> usize {
    let quote = rest.as_bytes()[open - 1];
    let mut escaped = false;
    for (place, letter) in rest.bytes().enumerate().skip(open) {
        if letter == quote && !escaped {
            return place + 1;
        }
        escaped = letter == b'\\' && !escaped;
    }
    rest.len()
}

/// The length of the prover's text: a tree of names up to its semicolon, or a term in braces.
fn prover_text(rest: &str) -> usize {
    if rest.trim_start().starts_with("use ") {
        return rest.find(';').map_or(rest.len(), |end| end + 1);
    }
    bracketed(rest, b'{', b'}')
}

/// The length up to the bracket that closes the first one.
fn bracketed(rest: &str, open: u8, close: u8) -> usize {
    let mut depth = 0;
    for (place, letter) in rest.bytes().enumerate() {
        if letter == open {
            depth += 1;
        } else if letter == close && depth == 1 {
            return place + 1;
        } else if letter == close {
            depth -= 1;
        }
    }
    rest.len()
}

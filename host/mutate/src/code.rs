//! A source file as tokens with their brackets matched, and its parts that can be mutated: the bodies of functions and
//! the values of constants.

use std::ops::Range;

use crate::tokens::{tokens, Sort, Token};

pub struct Code<'a> {
    pub text: &'a str,
    pub tokens: Vec<Token<'a>>,
    /// For each bracket the place of its partner, for any other token its own.
    partner: Vec<usize>,
}

/// A function's body, with its braces, or a constant's value.
pub struct Part<'a> {
    pub name: &'a str,
    pub sort: PartSort<'a>,
    pub range: Range<usize>,
}

#[derive(Clone, Copy, Debug, PartialEq, Eq)]
pub enum PartSort<'a> {
    /// With the type that it returns, empty where it returns nothing.
    Function(&'a str),
    Constant,
}

/// Words that no call and no index follows as its name.
const KEYWORDS: [&str; 12] = [
    "as", "break", "else", "for", "if", "in", "let", "loop", "match", "mut", "return", "while",
];

impl<'a> Code<'a> {
    pub fn new(text: &'a str) -> Code<'a> {
        let tokens = tokens(text);
        let partner = partners(&tokens);
        Code {
            text,
            tokens,
            partner,
        }
    }

    /// The text of a token; there is nothing beyond the last.
    pub fn at(&self, token: usize) -> &'a str {
        self.tokens.get(token).map_or("", |found| found.text)
    }

    pub fn closing(&self, open: usize) -> usize {
        self.partner[open]
    }

    /// The token after this one, or after the brackets that it opens.
    pub fn after(&self, token: usize) -> usize {
        self.partner[token].max(token) + 1
    }

    /// The first token with one of the texts, from a place on, past whatever brackets enclose.
    pub fn find(&self, from: usize, to: usize, wanted: &[&str]) -> Option<usize> {
        let mut at = from;
        while at < to {
            if wanted.contains(&self.at(at)) {
                return Some(at);
            }
            at = self.after(at);
        }
        None
    }

    /// The place in the text that some tokens take.
    pub fn place(&self, range: &Range<usize>) -> Range<usize> {
        self.tokens[range.start].start..self.tokens[range.end - 1].end()
    }

    pub fn text_of(&self, range: &Range<usize>) -> &'a str {
        &self.text[self.place(range)]
    }

    /// Does a value end with the token, so that a sign after it is between two values?
    pub fn ends_value(&self, token: usize) -> bool {
        let found = &self.tokens[token];
        match found.sort {
            Sort::Word => !KEYWORDS.contains(&found.text),
            Sort::Number | Sort::Quoted => true,
            Sort::Sign => [")", "]", "?"].contains(&found.text) || self.closes_generics(token),
        }
    }

    /// Is it the last sign of `::<..>`, and so no comparison?
    pub fn closes_generics(&self, token: usize) -> bool {
        self.at(token) == ">" && self.partner[token] != token
    }

    /// Does the token name the struct whose fields are in the bracket after it?
    pub fn names(&self, token: usize) -> bool {
        self.tokens[token].sort == Sort::Word && self.ends_value(token)
    }

    /// What is between the commas within some brackets.
    pub fn items(&self, open: usize) -> Vec<Range<usize>> {
        let close = self.closing(open);
        let mut items = Vec::new();
        let mut start = open + 1;
        while start < close {
            let end = self.find(start, close, &[","]).unwrap_or(close);
            items.push(start..end);
            start = end + 1;
        }
        items
    }

    pub fn parts(&self) -> Vec<Part<'a>> {
        let mut parts = Vec::new();
        let mut at = 0;
        while at < self.tokens.len() {
            let part = match self.at(at) {
                "fn" => self.function(at),
                "const" => self.constant(at),
                _ => None,
            };
            at = part.as_ref().map_or(at + 1, |part| part.range.end);
            parts.extend(part);
        }
        parts
    }

    fn function(&self, at: usize) -> Option<Part<'a>> {
        let open = self.find(at, self.tokens.len(), &["{", ";"])?;
        if self.at(open) == ";" {
            return None;
        }
        let parameters = self.parameters(at, open)?;
        let arrow = self.find(parameters, open, &["->"]);
        let returns = arrow.map_or("", |arrow| self.text_of(&(arrow + 1..open)));
        Some(Part {
            name: self.at(at + 1),
            sort: PartSort::Function(returns),
            range: open..self.closing(open) + 1,
        })
    }

    /// The bracket of a function's parameters, which is in no angle brackets: `fn f<T: Fn(u8) -> u8>(test: T)`.
    fn parameters(&self, from: usize, to: usize) -> Option<usize> {
        let mut depth = 0;
        let mut at = from;
        while at < to {
            match self.at(at) {
                "<" => depth += 1,
                ">" => depth -= 1,
                ">>" => depth -= 2,
                "(" if depth == 0 => return Some(at),
                _ => {}
            }
            at = self.after(at);
        }
        None
    }

    fn constant(&self, at: usize) -> Option<Part<'a>> {
        let equals = self.find(at, self.tokens.len(), &["="])?;
        let end = self.find(equals, self.tokens.len(), &[";"])?;
        Some(Part {
            name: self.at(at + 1),
            sort: PartSort::Constant,
            range: equals + 1..end,
        })
    }
}

fn partners(tokens: &[Token<'_>]) -> Vec<usize> {
    let mut partner: Vec<usize> = (0..tokens.len()).collect();
    let mut open = Vec::new();
    for (place, token) in tokens.iter().enumerate() {
        let innermost = open.last().map_or("", |start: &usize| tokens[*start].text);
        match token.text {
            "(" | "[" | "{" | "::<" => open.push(place),
            ">" if innermost != "::<" => {}
            ")" | "]" | "}" | ">" => {
                if let Some(start) = open.pop() {
                    partner[start] = place;
                    partner[place] = start;
                }
            }
            _ => {}
        }
    }
    partner
}

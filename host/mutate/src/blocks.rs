//! The braces of a function's body, and the statements in its blocks.

use std::collections::HashMap;
use std::ops::Range;

use crate::code::Code;

#[derive(Clone, Copy, Debug, PartialEq, Eq)]
pub enum Braces {
    /// Statements.
    Block,
    /// The arms of a `match`.
    Arms,
    /// The fields of a struct that is made.
    Fields,
}

/// Statements that cannot be left out: later ones need the name (`_` is none), or the function its answer.
const NEEDED: [&str; 3] = ["let", "const", "return"];

const LOOPS: [&str; 3] = ["for", "while", "loop"];

impl Code<'_> {
    /// The opening braces in a body, and what each encloses.
    pub fn braces(&self, body: &Range<usize>) -> Vec<(usize, Braces)> {
        let heads = self.heads(body);
        let sort = |open: usize| match heads.get(&open) {
            Some(&"match") => Braces::Arms,
            None if open > body.start && self.names(open - 1) => Braces::Fields,
            _ => Braces::Block,
        };
        let opens = body.clone().filter(|place| self.at(*place) == "{");
        opens.map(|open| (open, sort(open))).collect()
    }

    /// What is after the head of each `if`, `while`, `for` and `match`: a head holds no struct that is made.
    fn heads(&self, body: &Range<usize>) -> HashMap<usize, &str> {
        let mut heads = HashMap::new();
        for place in body.clone() {
            if let word @ ("if" | "while" | "for" | "match") = self.at(place) {
                heads.extend(self.head(place, body.end).map(|head| (head.end, word)));
            }
        }
        heads
    }

    /// What is between such a word and its block, or the arrow of the arm that an `if` guards.
    pub fn head(&self, word: usize, to: usize) -> Option<Range<usize>> {
        let end = self.find(word, to, &["{", "=>"]);
        end.map(|end| word + 1..end)
    }

    /// The statements of all blocks of a body, block by block.
    pub fn statements_by_block(&self, body: &Range<usize>) -> Vec<Vec<Range<usize>>> {
        let blocks = self
            .braces(body)
            .into_iter()
            .filter(|(_, sort)| *sort == Braces::Block);
        blocks.map(|(open, _)| self.statements(open)).collect()
    }

    fn statements(&self, open: usize) -> Vec<Range<usize>> {
        let close = self.closing(open);
        let mut found = Vec::new();
        let mut start = open + 1;
        while start < close {
            let end = self.statement_end(start, close);
            found.push(start..end);
            start = end;
        }
        found
    }

    /// Past its semicolon, or past its block where it ends with one.
    fn statement_end(&self, start: usize, close: usize) -> usize {
        let end = match self.at(start) {
            "if" | "match" | "for" | "while" | "loop" | "{" => self.block_end(start, close),
            _ => None,
        };
        match end {
            Some(end) if self.at(end) != ";" => end,
            _ => self.find(start, close, &[";"]).map_or(close, |end| end + 1),
        }
    }

    /// Past the block of a statement, and past those of its `else`.
    fn block_end(&self, start: usize, close: usize) -> Option<usize> {
        let end = self.after(self.find(start, close, &["{"])?);
        if self.at(end) == "else" {
            self.block_end(end, close)
        } else {
            Some(end)
        }
    }

    fn has_else(&self, statement: &Range<usize>) -> bool {
        self.find(statement.start, statement.end, &["else"])
            .is_some()
    }

    /// Is what is left still a block of the same type without the statement?
    pub fn can_go(&self, statement: &Range<usize>) -> bool {
        let first = self.at(statement.start);
        let last_in_block = self.at(statement.end) == "}" && self.at(statement.end - 1) != ";";
        let gives_nothing = LOOPS.contains(&first) || first == "if" && !self.has_else(statement);
        let needed = NEEDED.contains(&first) && self.at(statement.start + 1) != "_";
        !needed && (gives_nothing || !last_in_block)
    }

    /// Is it `if .. { ..; return ..; }`, or `..?;`?
    pub fn is_guard(&self, statement: &Range<usize>) -> bool {
        let first = self.at(statement.start);
        if first != "if" {
            return !NEEDED.contains(&first) && self.at(statement.end - 2) == "?";
        }
        if self.has_else(statement) {
            return false;
        }
        let block = self.find(statement.start, statement.end, &["{"]);
        let last = block.and_then(|open| self.statements(open).pop());
        last.map_or(false, |last| self.at(last.start) == "return")
    }
}

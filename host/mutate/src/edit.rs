//! One change of a text.

use std::ops::Range;

use crate::tokens::Token;

#[derive(Clone, Debug, PartialEq, Eq)]
pub struct Edit {
    pub place: Range<usize>,
    pub new: String,
}

impl Edit {
    pub fn new(place: Range<usize>, new: impl Into<String>) -> Edit {
        let new = new.into();
        Edit { place, new }
    }

    /// Another text for one token.
    pub fn of(token: &Token, new: impl Into<String>) -> Edit {
        Edit::new(token.start..token.end(), new)
    }

    /// Two places, one after the other, swap their texts.
    pub fn swap(text: &str, first: Range<usize>, second: Range<usize>) -> Edit {
        let between = &text[first.end..second.start];
        let new = [&text[second.clone()], between, &text[first.clone()]].concat();
        Edit::new(first.start..second.end, new)
    }

    pub fn apply(&self, text: &str) -> String {
        [
            &text[..self.place.start],
            &self.new,
            &text[self.place.end..],
        ]
        .concat()
    }

    /// The whole lines that the edit touches, before it and after it, each as one line.
    pub fn lines(&self, text: &str) -> (String, String) {
        let start = text[..self.place.start]
            .rfind('\n')
            .map_or(0, |feed| feed + 1);
        let end = text[self.place.end..]
            .find('\n')
            .map_or(text.len(), |feed| self.place.end + feed);
        let new = [
            &text[start..self.place.start],
            &self.new,
            &text[self.place.end..end],
        ]
        .concat();
        (one_line(&text[start..end]), one_line(&new))
    }
}

fn one_line(text: &str) -> String {
    text.split_whitespace().collect::<Vec<_>>().join(" ")
}

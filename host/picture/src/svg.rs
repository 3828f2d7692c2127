//! Plain SVG 1.1 as a tree of elements.

use std::fmt::{self, Display, Formatter};

/// An element with its attributes, and text or elements within it.
pub struct Element {
    name: &'static str,
    attributes: Vec<(&'static str, String)>,
    text: String,
    children: Vec<Element>,
}

/// A part of a picture, drawn from the height 0 down.
pub struct Drawing {
    pub body: Element,
    pub height: f64,
}

impl Element {
    pub fn new(name: &'static str) -> Element {
        Element {
            name,
            attributes: Vec::new(),
            text: String::new(),
            children: Vec::new(),
        }
    }

    pub fn with(mut self, attribute: &'static str, value: impl Display) -> Element {
        self.attributes.push((attribute, value.to_string()));
        self
    }

    /// With a place or a length in pixels, to the tenth.
    pub fn at(self, attribute: &'static str, pixels: f64) -> Element {
        self.with(attribute, tenths(pixels))
    }

    pub fn text(mut self, text: impl Display) -> Element {
        self.text = text.to_string();
        self
    }

    pub fn child(mut self, child: Element) -> Element {
        self.children.push(child);
        self
    }

    pub fn children(mut self, children: impl IntoIterator<Item = Element>) -> Element {
        self.children.extend(children);
        self
    }
}

impl Display for Element {
    fn fmt(&self, out: &mut Formatter) -> fmt::Result {
        write!(out, "<{}", self.name)?;
        for (attribute, value) in &self.attributes {
            write!(out, " {attribute}=\"{}\"", escaped(value))?;
        }
        if self.text.is_empty() && self.children.is_empty() {
            return writeln!(out, "/>");
        }
        write!(out, ">{}", escaped(&self.text))?;
        if !self.children.is_empty() {
            writeln!(out)?;
        }
        for child in &self.children {
            child.fmt(out)?;
        }
        writeln!(out, "</{}>", self.name)
    }
}

fn escaped(text: &str) -> String {
    let text = text.replace('&', "&amp;").replace('<', "&lt;");
    text.replace('>', "&gt;").replace('"', "&quot;")
}

/// A number of pixels to the tenth, in as few digits as it needs.
pub fn tenths(pixels: f64) -> f64 {
    (pixels * 10.0).round() / 10.0
}

pub fn group() -> Element {
    Element::new("g")
}

pub fn line(from: (f64, f64), to: (f64, f64)) -> Element {
    let line = Element::new("line").at("x1", from.0).at("y1", from.1);
    line.at("x2", to.0).at("y2", to.1)
}

pub fn rect(corner: (f64, f64), width: f64, height: f64) -> Element {
    let rect = Element::new("rect").at("x", corner.0).at("y", corner.1);
    rect.at("width", width).at("height", height)
}

/// Text that starts at a place on its base line.
pub fn label(place: (f64, f64), text: impl Display) -> Element {
    let label = Element::new("text").at("x", place.0).at("y", place.1);
    label.text(text)
}

/// A heading of a part of the picture.
pub fn heading(text: impl Display) -> Element {
    let heading = label((20.0, 14.0), text).with("font-size", 16);
    heading.with("font-weight", "bold")
}

/// The lines of a text, each of at most that many characters: as few lines as can be, and all but
/// the last about as long.
pub fn evenly_wrapped(text: &str, longest: usize) -> Vec<String> {
    let lines = wrapped(text, longest);
    let mut narrower = (1..longest).map(|width| wrapped(text, width));
    let even = narrower.find(|narrow| narrow.len() == lines.len());
    even.unwrap_or(lines)
}

/// The lines of a text, each filled up to that many characters. It is cut only at plain spaces.
fn wrapped(text: &str, longest: usize) -> Vec<String> {
    let mut lines: Vec<String> = Vec::new();
    for word in text.split(' ') {
        match lines.last_mut() {
            Some(line) if line.chars().count() + 1 + word.chars().count() <= longest => {
                line.push(' ');
                line.push_str(word);
            }
            _ => lines.push(word.to_string()),
        }
    }
    lines
}

//! A strict reader of the part of XML that a plain SVG file needs: one element within an XML
//! declaration and nothing beside it, no comments, no other declarations, quotes always double.

/// An element. Its text is what is directly in it, with the white space around it removed.
#[derive(Debug)]
pub struct Node {
    pub name: String,
    pub attributes: Vec<(String, String)>,
    pub text: String,
    pub children: Vec<Node>,
}

impl Node {
    pub fn attribute(&self, name: &str) -> Option<&str> {
        let mut named = self.attributes.iter().filter(|(other, _)| other == name);
        named.next().map(|(_, value)| value.as_str())
    }

    /// An attribute that is a finite number.
    pub fn number(&self, name: &str) -> f64 {
        let value = self.attribute(name).expect(name);
        let number: f64 = value.parse().expect("a number");
        assert!(number.is_finite(), "{name} is {value}");
        number
    }

    /// Itself and all elements within it.
    pub fn all(&self) -> Vec<&Node> {
        let within = self.children.iter().flat_map(Node::all);
        [self].into_iter().chain(within).collect()
    }

    pub fn named(&self, name: &str) -> Vec<&Node> {
        let all = self.all().into_iter();
        all.filter(|node| node.name == name).collect()
    }

    pub fn with_id(&self, id: &str) -> &Node {
        let mut all = self.all().into_iter();
        let found = all.find(|node| node.attribute("id") == Some(id));
        found.unwrap_or_else(|| panic!("there is no {id}"))
    }
}

/// The outermost element, or what is wrong.
pub fn parse(text: &str) -> Result<Node, String> {
    let declaration = "<?xml version=\"1.0\" encoding=\"UTF-8\"?>\n";
    let rest = text.strip_prefix(declaration).ok_or("no declaration")?;
    let mut reader = Reader { rest };
    let node = reader.element()?;
    match reader.rest {
        "\n" => Ok(node),
        rest => Err(format!("more after the end: {rest:?}")),
    }
}

struct Reader<'a> {
    rest: &'a str,
}

impl<'a> Reader<'a> {
    fn takes(&mut self, token: &str) -> bool {
        let rest = self.rest.strip_prefix(token);
        self.rest = rest.unwrap_or(self.rest);
        rest.is_some()
    }

    fn expect(&mut self, token: &str) -> Result<(), String> {
        let start: String = self.rest.chars().take(40).collect();
        let error = || format!("{token:?} is missing before {start:?}");
        self.takes(token).then_some(()).ok_or_else(error)
    }

    /// What comes before the first character of this kind.
    fn until(&mut self, end: impl Fn(char) -> bool) -> Result<&'a str, String> {
        let at = self.rest.find(end).ok_or("the end comes too soon")?;
        let (found, rest) = self.rest.split_at(at);
        self.rest = rest;
        Ok(found)
    }

    fn name(&mut self) -> Result<String, String> {
        let name = self.until(|c| !c.is_ascii_alphanumeric() && c != '-')?;
        match name.starts_with(|c: char| c.is_ascii_alphabetic()) {
            true => Ok(name.to_string()),
            false => Err(format!("{name:?} is not a name")),
        }
    }

    fn element(&mut self) -> Result<Node, String> {
        self.expect("<")?;
        let mut node = Node {
            name: self.name()?,
            attributes: Vec::new(),
            text: String::new(),
            children: Vec::new(),
        };
        while self.takes(" ") {
            let name = self.name()?;
            self.expect("=\"")?;
            let value = unescaped(self.until(|c| c == '"' || c == '<')?)?;
            self.expect("\"")?;
            if node.attribute(&name).is_some() {
                return Err(format!("{name} is given twice in {}", node.name));
            }
            node.attributes.push((name, value));
        }
        if self.takes("/>") {
            return Ok(node);
        }
        self.expect(">")?;
        self.content(&mut node)?;
        Ok(node)
    }

    fn content(&mut self, node: &mut Node) -> Result<(), String> {
        loop {
            let text = unescaped(self.until(|c| c == '<')?)?;
            node.text.push_str(text.trim());
            if self.takes("</") {
                self.expect(&node.name)?;
                return self.expect(">");
            }
            node.children.push(self.element()?);
        }
    }
}

/// A text without its entities.
fn unescaped(text: &str) -> Result<String, String> {
    let entities = [("amp;", '&'), ("lt;", '<'), ("gt;", '>'), ("quot;", '"')];
    let mut parts = text.split('&');
    let mut plain = parts.next().unwrap_or_default().to_string();
    for part in parts {
        let entity = entities.iter().find(|(name, _)| part.starts_with(name));
        let (name, meant) = entity.ok_or_else(|| format!("&{part:?} is not an entity"))?;
        plain.push(*meant);
        plain.push_str(&part[name.len()..]);
    }
    match plain.chars().all(|c| c == '\n' || !c.is_control()) {
        true => Ok(plain),
        false => Err(format!("{text:?} has a control character")),
    }
}

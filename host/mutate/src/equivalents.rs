//! The list of mutants that no contract can rule out, because they do the same: an item of the Markdown section for each,
//! with the mutant's lasting name between backquotes, and the reason on the indented lines below it.

const HEADING: &str = "## Equivalent mutants";

#[derive(Clone, Debug, PartialEq, Eq)]
pub struct Equivalent {
    pub name: String,
    pub reason: String,
}

/// An error names the item that has no reason, or that is there twice.
pub fn parse(document: &str) -> Result<Vec<Equivalent>, String> {
    let mut found: Vec<Equivalent> = Vec::new();
    let section = document.lines().skip_while(|line| *line != HEADING).skip(1);
    for line in section.take_while(|line| !line.starts_with('#')) {
        if let Some(name) = line
            .strip_prefix("- `")
            .and_then(|rest| rest.strip_suffix('`'))
        {
            let (name, reason) = (name.to_string(), String::new());
            found.push(Equivalent { name, reason });
        } else if let (Some(reason), Some(last)) = (line.strip_prefix("  "), found.last_mut()) {
            last.reason = format!("{} {reason}", last.reason).trim().to_string();
        }
    }
    for (place, item) in found.iter().enumerate() {
        if item.reason.is_empty() {
            return Err(format!("no reason is given for: {}", item.name));
        }
        if found[..place]
            .iter()
            .any(|earlier| earlier.name == item.name)
        {
            return Err(format!("listed twice: {}", item.name));
        }
    }
    Ok(found)
}

//! Whether a text is well-formed XML: one root, tags that close, attributes in quotes and once each.

/// The elements in the order in which they open, each with its attributes; or what is wrong.
pub fn elements(text: &str) -> Result<Vec<Element>, String> {
    let mut rest = text;
    if let Some(behind) = rest.strip_prefix("<?xml ") {
        let end = behind.find("?>").ok_or("the declaration does not end")?;
        rest = &behind[end + 2..];
    }
    let mut found = Vec::new();
    let mut open: Vec<String> = Vec::new();
    while let Some(start) = rest.find('<') {
        characters(&rest[..start], open.is_empty())?;
        let end = rest.find('>').ok_or("a tag does not end")?;
        let tag = &rest[start + 1..end];
        rest = &rest[end + 1..];
        if let Some(name) = tag.strip_prefix('/') {
            match open.pop() {
                Some(opened) if opened == name => continue,
                other => return Err(format!("</{name}> closes {other:?}")),
            }
        }
        if open.is_empty() && !found.is_empty() {
            return Err(format!("a second root: {tag}"));
        }
        let whole = tag.strip_suffix('/');
        let element = element(whole.unwrap_or(tag))?;
        if whole.is_none() {
            open.push(element.name.clone());
        }
        found.push(element);
    }
    characters(rest, true)?;
    match open.last() {
        Some(name) => Err(format!("<{name}> is not closed")),
        None if found.is_empty() => Err("no element".to_string()),
        None => Ok(found),
    }
}

/// A tag's name and its attributes.
pub struct Element {
    pub name: String,
    pub attributes: Vec<(String, String)>,
}

impl Element {
    pub fn attribute(&self, name: &str) -> Option<&str> {
        let found = self.attributes.iter().find(|(other, _)| other == name);
        found.map(|(_, value)| value.as_str())
    }

    /// Whether the class attribute has this word.
    pub fn is(&self, class: &str) -> bool {
        let classes = self.attribute("class").unwrap_or_default();
        classes.split(' ').any(|word| word == class)
    }
}

fn is_name(name: &str) -> bool {
    name.starts_with(|c: char| c.is_ascii_alphabetic())
        && name
            .chars()
            .all(|c| c.is_ascii_alphanumeric() || "-_:".contains(c))
}

fn element(tag: &str) -> Result<Element, String> {
    let name = tag.split_whitespace().next().unwrap_or_default();
    if !is_name(name) || !tag.starts_with(name) {
        return Err(format!("no name: <{tag}>"));
    }
    let mut attributes: Vec<(String, String)> = Vec::new();
    let mut rest = tag[name.len()..].trim();
    while !rest.is_empty() {
        let (key, behind) = rest.split_once("=\"").ok_or(format!("no value: {rest}"))?;
        let (value, behind) = behind.split_once('"').ok_or(format!("no end: {behind}"))?;
        let twice = attributes.iter().any(|(other, _)| other == key);
        if !is_name(key) || twice || value.contains(['<', '&']) {
            return Err(format!("attribute {key} of <{tag}>"));
        }
        if !behind.is_empty() && !behind.starts_with(' ') {
            return Err(format!("no space behind {key} of <{tag}>"));
        }
        attributes.push((key.to_string(), value.to_string()));
        rest = behind.trim_start();
    }
    Ok(Element {
        name: name.to_string(),
        attributes,
    })
}

/// Text between tags: nothing but spaces outside the root, and no character that XML keeps.
fn characters(text: &str, outside: bool) -> Result<(), String> {
    let kept = text.contains(['&', '>']);
    let control = text.chars().any(|c| c.is_control() && c != '\n');
    if kept || control || (outside && !text.trim().is_empty()) {
        return Err(format!("text: {text:?}"));
    }
    Ok(())
}

//! Whether a page is well formed, as HTML and as XML: read strictly into a tree, which is then asked.

use std::collections::BTreeSet;

/// Elements that HTML has no end of.
const VOID: [&str; 4] = ["br", "col", "hr", "meta"];

#[derive(Debug, Default)]
pub struct Node {
    pub name: String,
    pub attributes: Vec<(String, String)>,
    pub inside: Vec<Node>,
    /// Of a piece of text, which has no name.
    pub words: String,
}

impl Node {
    pub fn get(&self, name: &str) -> Option<&str> {
        let found = self.attributes.iter().find(|(own, _)| own == name);
        found.map(|(_, value)| value.as_str())
    }

    /// All words inside.
    pub fn text(&self) -> String {
        let inside: String = self.inside.iter().map(Node::text).collect();
        format!("{}{inside}", self.words)
    }

    /// This element and all inside, front to back.
    pub fn all(&self) -> Vec<&Node> {
        let mut all = vec![self];
        all.extend(self.inside.iter().flat_map(Node::all));
        all
    }

    pub fn with(&self, attribute: &str) -> Vec<&Node> {
        let mut all = self.all();
        all.retain(|node| node.get(attribute).is_some());
        all
    }

    /// The values of an attribute, front to back.
    pub fn values(&self, attribute: &str) -> Vec<String> {
        let all = self.all().into_iter();
        let values = all.filter_map(|node| node.get(attribute));
        values.map(String::from).collect()
    }

    pub fn id(&self, id: &str) -> Option<&Node> {
        let mut all = self.all().into_iter();
        all.find(|node| node.get("id") == Some(id))
    }

    pub fn named(&self, name: &str) -> Vec<&Node> {
        let mut all = self.all();
        all.retain(|node| node.name == name);
        all
    }

    pub fn has_class(&self, class: &str) -> bool {
        let classes = self.get("class").unwrap_or_default();
        classes.split(' ').any(|own| own == class)
    }
}

/// The one element that a page is; or what is wrong with it.
pub fn page(text: &str) -> Result<Node, String> {
    let rest = text.strip_prefix("<!DOCTYPE html>\n").ok_or("doctype")?;
    let mut reader = Reader { rest };
    let node = reader.element()?;
    if reader.rest != "\n" {
        return Err(format!("behind the page: {:?}", reader.rest));
    }
    let mut ids = BTreeSet::new();
    for id in node.values("id") {
        if !ids.insert(id.clone()) {
            return Err(format!("id {id} stands twice"));
        }
    }
    Ok(node)
}

struct Reader<'a> {
    rest: &'a str,
}

impl<'a> Reader<'a> {
    fn take(&mut self, start: &str) -> Result<(), String> {
        let left = self.rest.strip_prefix(start);
        self.rest = left.ok_or_else(|| format!("no {start:?}: {}", self.here()))?;
        Ok(())
    }

    fn here(&self) -> String {
        self.rest.chars().take(40).collect()
    }

    fn until(&mut self, ends: &[char]) -> Result<&'a str, String> {
        let end = self.rest.find(ends);
        let end = end.ok_or_else(|| format!("none of {ends:?}: {}", self.here()))?;
        let (found, rest) = self.rest.split_at(end);
        self.rest = rest;
        Ok(found)
    }

    fn name(&mut self) -> Result<String, String> {
        let name = self.until(&[' ', '>', '/', '=', '<', '"', '\n'])?;
        let good = |letter: char| letter.is_ascii_alphanumeric() || letter == '-';
        let begins = name.starts_with(|letter: char| letter.is_ascii_alphabetic());
        if begins && name.chars().all(good) {
            Ok(name.to_string())
        } else {
            Err(format!("{name:?} is no name"))
        }
    }

    fn element(&mut self) -> Result<Node, String> {
        self.take("<")?;
        let name = self.name()?;
        let attributes = self.attributes()?;
        let mut node = Node {
            name: name.clone(),
            attributes,
            ..Node::default()
        };
        if VOID.contains(&name.as_str()) {
            self.take("/>")?;
            return Ok(node);
        }
        self.take(">")?;
        while !self.rest.starts_with("</") {
            node.inside.push(if self.rest.starts_with('<') {
                self.element()?
            } else {
                self.words(name == "style")?
            });
        }
        self.take(&format!("</{name}>"))?;
        Ok(node)
    }

    fn attributes(&mut self) -> Result<Vec<(String, String)>, String> {
        let mut attributes: Vec<(String, String)> = Vec::new();
        while self.rest.starts_with(' ') {
            self.take(" ")?;
            let name = self.name()?;
            if attributes.iter().any(|(own, _)| *own == name) {
                return Err(format!("attribute {name} stands twice"));
            }
            self.take("=\"")?;
            let value = plain(self.until(&['"', '<'])?)?;
            self.take("\"")?;
            attributes.push((name, value));
        }
        Ok(attributes)
    }

    fn words(&mut self, style: bool) -> Result<Node, String> {
        let words = self.until(&['<'])?;
        // HTML reads no entities in a style.
        if style && words.contains('&') {
            return Err("& in a style".to_string());
        }
        Ok(Node {
            words: plain(words)?,
            ..Node::default()
        })
    }
}

/// Words as they are meant, from words as they are written.
fn plain(written: &str) -> Result<String, String> {
    let (mut plain, mut rest) = (String::new(), written);
    while let Some(next) = rest.chars().next() {
        if next == '&' {
            let (entity, behind) = rest
                .split_once(';')
                .ok_or_else(|| format!("bare &: {rest}"))?;
            plain.push(meant(entity)?);
            rest = behind;
        } else if next == '>' && plain.ends_with("]]") {
            return Err("]]> in text".to_string());
        } else if (next.is_control() && next != '\n') || matches!(next, '\u{fffe}' | '\u{ffff}') {
            return Err(format!("{next:?} is no character of XML"));
        } else {
            plain.push(next);
            rest = &rest[next.len_utf8()..];
        }
    }
    Ok(plain)
}

fn meant(entity: &str) -> Result<char, String> {
    match entity {
        "&lt" => Ok('<'),
        "&gt" => Ok('>'),
        "&amp" => Ok('&'),
        "&quot" => Ok('"'),
        "&#39" => Ok('\''),
        _ => Err(format!("{entity}; is none of XML's entities")),
    }
}

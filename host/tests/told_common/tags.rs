//! A small checker of markup: every tag that is opened is closed, in turn; attributes are quoted; text is escaped.

/// An element's name, its attributes, and whether it was opened, closed or both.
#[derive(Clone, Debug, PartialEq)]
pub struct Tag {
    pub name: String,
    pub attributes: Vec<(String, String)>,
}

impl Tag {
    pub fn attribute(&self, name: &str) -> &str {
        let found = self.attributes.iter().find(|attribute| attribute.0 == name);
        &found.unwrap_or_else(|| panic!("{name} of {self:?}")).1
    }
}

/// What a document consists of.
#[derive(Default)]
pub struct Document {
    /// The elements in the order in which they open.
    pub tags: Vec<Tag>,
    /// The text of each element that has some, with the element's name.
    pub texts: Vec<(String, String)>,
}

impl Document {
    pub fn named<'a>(&'a self, name: &'a str) -> impl Iterator<Item = &'a Tag> {
        self.tags.iter().filter(move |tag| tag.name == name)
    }

    pub fn has_text(&self, text: &str) -> bool {
        self.texts.iter().any(|(_, found)| found == text)
    }
}

/// Takes a document apart; panics where it is not well formed.
pub fn document_of(markup: &str) -> Document {
    let mut document = Document::default();
    let mut open: Vec<String> = Vec::new();
    let mut rest = markup.strip_prefix("<!DOCTYPE html>\n").unwrap_or(markup);
    while let Some(at) = rest.find('<') {
        take_text(&rest[..at], &open, &mut document);
        let end = at + rest[at..].find('>').expect("a tag that ends");
        let tag = &rest[at + 1..end];
        rest = &rest[end + 1..];
        if let Some(name) = tag.strip_prefix('/') {
            assert_eq!(open.pop().as_deref(), Some(name), "closed in turn");
            continue;
        }
        let alone = tag.ends_with('/');
        let tag = tag_of(tag.trim_end_matches('/'));
        // HTML has elements that are never closed.
        if !alone && tag.name != "meta" {
            open.push(tag.name.clone());
        }
        document.tags.push(tag);
    }
    assert_eq!(
        (open.len(), rest.trim()),
        (0, ""),
        "all is closed at the end"
    );
    document
}

fn take_text(text: &str, open: &[String], document: &mut Document) {
    if text.trim().is_empty() {
        return;
    }
    let element = open.last().expect("text within an element").clone();
    document.texts.push((element, unescaped(text)));
}

fn tag_of(words: &str) -> Tag {
    let (name, mut rest) = words.split_once(' ').unwrap_or((words, ""));
    assert!(
        !name.is_empty() && name.chars().all(|c| c.is_ascii_alphanumeric()),
        "{words:?}"
    );
    let mut attributes: Vec<(String, String)> = Vec::new();
    while !rest.trim().is_empty() {
        let (attribute, after) = rest.trim_start().split_once("=\"").expect("a quoted value");
        let (value, after) = after.split_once('"').expect("the end of a value");
        assert!(
            attribute
                .chars()
                .all(|c| c.is_ascii_alphanumeric() || c == '-'),
            "{words:?}"
        );
        assert!(
            attributes.iter().all(|known| known.0 != attribute),
            "{attribute} twice"
        );
        attributes.push((attribute.to_string(), unescaped(value)));
        rest = after;
    }
    let name = name.to_string();
    Tag { name, attributes }
}

/// The text that escaped text stands for; panics on what XML 1.0 does not take.
fn unescaped(text: &str) -> String {
    assert!(!text.contains('>'), "{text:?}");
    assert!(
        text.chars()
            .all(|c| c == '\n' || (!c.is_control() && c != '\u{fffe}' && c != '\u{ffff}')),
        "{text:?}"
    );
    let mut plain = String::new();
    let mut parts = text.split('&');
    plain.push_str(parts.next().unwrap_or(""));
    for part in parts {
        let (name, after) = part.split_once(';').expect("an entity that ends");
        plain.push(match name {
            "amp" => '&',
            "lt" => '<',
            "gt" => '>',
            "quot" => '"',
            "#39" => '\'',
            _ => panic!("entity {name}"),
        });
        plain.push_str(after);
    }
    plain
}

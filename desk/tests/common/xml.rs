//! XML read strictly, as far as pictures and pages use it: elements, attributes in double quotes, text, the four escapes, a doctype before all.
//! Whatever is not balanced, escaped or quoted is a panic with what stands there.

#[derive(Debug, Default)]
pub struct Element {
    pub name: String,
    pub attributes: Vec<(String, String)>,
    pub children: Vec<Node>,
}

#[derive(Debug)]
pub enum Node {
    Element(Element),
    Text(String),
}

impl Element {
    pub fn get(&self, name: &str) -> Option<&str> {
        self.attributes.iter().find(|(attribute, _)| attribute == name).map(|(_, value)| value.as_str())
    }

    pub fn number(&self, name: &str) -> f64 {
        self.get(name).unwrap_or_else(|| panic!("{} has no {name}", self.name)).parse().unwrap()
    }

    pub fn has_class(&self, class: &str) -> bool {
        self.get("class").is_some_and(|classes| classes.split(' ').any(|one| one == class))
    }

    /// This element and all within it, in file order.
    pub fn all(&self) -> Vec<&Element> {
        let mut all = vec![self];
        for child in &self.children {
            if let Node::Element(child) = child {
                all.extend(child.all());
            }
        }
        all
    }

    pub fn classed(&self, class: &str) -> Vec<&Element> {
        self.all().into_iter().filter(|element| element.has_class(class)).collect()
    }

    pub fn named(&self, name: &str) -> Vec<&Element> {
        self.all().into_iter().filter(|element| element.name == name).collect()
    }

    /// The text of this element and all within it, one blank wherever there are blanks.
    pub fn text(&self) -> String {
        self.raw_text().split_whitespace().collect::<Vec<_>>().join(" ")
    }

    fn raw_text(&self) -> String {
        let text = |node: &Node| match node {
            Node::Text(text) => text.clone(),
            // a block ends a word, a possible line break does not
            Node::Element(child) if child.name == "style" => String::new(),
            Node::Element(child) if ["wbr", "code", "strong"].contains(&child.name.as_str()) => child.raw_text(),
            Node::Element(child) => format!(" {} ", child.raw_text()),
        };
        self.children.iter().map(text).collect()
    }
}

/// The one element that a file is.
pub fn read(file: &str) -> Element {
    let mut rest = file.strip_prefix("<!DOCTYPE html>\n").unwrap_or(file);
    let root = element(&mut rest);
    assert!(rest.trim().is_empty(), "behind the root: {}", near(rest));
    root
}

fn near(rest: &str) -> String {
    rest.chars().take(60).collect()
}

fn take(rest: &mut &str, what: &str) {
    *rest = rest.strip_prefix(what).unwrap_or_else(|| panic!("wanted {what} at: {}", near(rest)));
}

fn name(rest: &mut &str) -> String {
    let end = rest.find(|letter: char| !letter.is_ascii_alphanumeric() && letter != '-').unwrap_or(rest.len());
    assert!(end > 0, "wanted a name at: {}", near(rest));
    let (name, behind) = rest.split_at(end);
    *rest = behind;
    name.to_string()
}

fn element(rest: &mut &str) -> Element {
    take(rest, "<");
    let mut element = Element { name: name(rest), ..Element::default() };
    while let Some(behind) = rest.strip_prefix(' ') {
        *rest = behind;
        let attribute = name(rest);
        assert!(element.get(&attribute).is_none(), "{attribute} twice in {}", element.name);
        take(rest, "=\"");
        let end = rest.find('"').expect("a value ends");
        element.attributes.push((attribute, plain(&rest[..end])));
        *rest = &rest[end + 1..];
    }
    if let Some(behind) = rest.strip_prefix("/>") {
        *rest = behind;
        return element;
    }
    take(rest, ">");
    while !rest.starts_with("</") {
        let end = rest.find('<').expect("an element ends");
        if end > 0 {
            element.children.push(Node::Text(plain(&rest[..end])));
            *rest = &rest[end..];
        } else {
            element.children.push(Node::Element(self::element(rest)));
        }
    }
    take(rest, &format!("</{}>", element.name));
    element
}

/// Text with its escapes taken out.
fn plain(text: &str) -> String {
    assert!(!text.contains(['<', '\u{0}']), "not escaped: {}", near(text));
    let mut plain = String::new();
    let mut parts = text.split('&');
    plain += parts.next().unwrap();
    for part in parts {
        let (escape, behind) = part.split_once(';').unwrap_or_else(|| panic!("an & by itself: {}", near(part)));
        plain += match escape {
            "amp" => "&",
            "lt" => "<",
            "gt" => ">",
            "quot" => "\"",
            _ => panic!("an escape that XML does not have: {escape}"),
        };
        plain += behind;
    }
    plain
}

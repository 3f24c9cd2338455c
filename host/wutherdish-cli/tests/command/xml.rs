//! A small reader of XML: whether a text is well formed, and what stands in it.

/// An element of a document.
#[derive(Debug)]
pub struct Element {
    pub name: String,
    pub attributes: Vec<(String, String)>,
    /// The text right after its tag.
    pub text: String,
}

impl Element {
    pub fn attribute(&self, name: &str) -> Option<&str> {
        self.attributes.iter().find(|attribute| attribute.0 == name).map(|attribute| &attribute.1[..])
    }

    pub fn number(&self, name: &str) -> i32 {
        self.attribute(name).and_then(|value| value.parse().ok()).unwrap_or_else(|| panic!("{name} of {self:?}"))
    }

    pub fn class(&self) -> &str {
        self.attribute("class").unwrap_or("")
    }
}

/// The elements of a well-formed document, in its order.
pub fn elements(document: &str) -> Vec<Element> {
    let body = document.strip_prefix("<?xml version=\"1.0\" encoding=\"UTF-8\"?>\n").expect("it begins as XML does");
    let (mut elements, mut open): (Vec<Element>, Vec<String>) = (Vec::new(), Vec::new());
    let mut parts = body.split('<');
    assert_eq!(parts.next(), Some(""), "nothing stands before the first element");
    for part in parts {
        let (tag, text) = part.split_once('>').expect("each tag ends");
        assert!(!text.contains('>') && is_escaped(text), "{text}");
        assert!(!open.is_empty() || elements.is_empty(), "one element holds all others");
        if let Some(name) = tag.strip_prefix('/') {
            assert_eq!(open.pop().as_deref(), Some(name), "each element ends where it should");
        } else {
            let element = element(tag.trim_end_matches('/'), text);
            if !tag.ends_with('/') {
                open.push(element.name.clone());
            }
            elements.push(element);
        }
        assert!(!open.is_empty() || text.trim().is_empty(), "no text stands after the document");
    }
    assert!(open.is_empty() && !elements.is_empty(), "each element ends");
    elements
}

fn element(tag: &str, text: &str) -> Element {
    let (name, mut rest) = tag.split_once(' ').unwrap_or((tag, ""));
    assert!(!name.is_empty() && name.chars().all(char::is_alphanumeric), "{tag}");
    let mut attributes: Vec<(String, String)> = Vec::new();
    while !rest.is_empty() {
        let (key, after) = rest.split_once("=\"").expect("an attribute has a value in quotes");
        let (value, after) = after.split_once('"').expect("the quotes end");
        assert!(key.chars().all(char::is_alphabetic) && is_escaped(value), "{tag}");
        assert!(!attributes.iter().any(|attribute| attribute.0 == key), "{tag} has {key} once");
        assert!(after.is_empty() || after.starts_with(' '), "{tag}");
        attributes.push((key.to_owned(), value.to_owned()));
        rest = after.trim_start();
    }
    Element { name: name.to_owned(), attributes, text: text.to_owned() }
}

fn is_escaped(text: &str) -> bool {
    text.split('&').skip(1).all(|after| ["amp;", "lt;", "gt;"].iter().any(|name| after.starts_with(name)))
}

#[test]
fn documents_that_are_not_well_formed_are_noticed() {
    let noticed = |body: &str| {
        let document = format!("<?xml version=\"1.0\" encoding=\"UTF-8\"?>\n{body}");
        std::panic::catch_unwind(|| elements(&document)).is_err()
    };
    for bad in ["", "<a>", "</a>", "<a></b>", "<a/><b/>", "<a>x & y</a>", "<a b=c/>", "<a b=\"c/>", "<a>></a>", "<a/>x"]
    {
        assert!(noticed(bad), "{bad}");
    }
    assert!(!noticed("<a b=\"1\" c=\"&lt;\"><d/>x &amp; y<e></e></a>\n"));
}

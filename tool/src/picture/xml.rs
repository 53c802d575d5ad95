//! A small checker of XML: what the picture uses of it, and nothing else.

#[derive(Debug)]
pub struct Element {
    name: String,
    attributes: Vec<(String, String)>,
}

impl Element {
    pub fn name(&self) -> &str {
        &self.name
    }

    pub fn attribute(&self, name: &str) -> Option<&str> {
        self.attributes.iter().find(|(key, _)| key == name).map(|(_, value)| &value[..])
    }
}

fn is_name(text: &str) -> bool {
    !text.is_empty() && text.chars().all(|c| c.is_ascii_alphanumeric() || "-_:".contains(c))
}

/// Panics where a text has a raw `<`, `>` or `&`.
fn check_text(text: &str) {
    assert!(!text.contains(['<', '>']), "{text}");
    for after in text.split('&').skip(1) {
        assert!(["amp;", "lt;", "gt;"].iter().any(|name| after.starts_with(name)), "{text}");
    }
}

/// The attributes ` name="value"` of a tag, each name once.
fn attributes(mut rest: &str) -> Vec<(String, String)> {
    let mut found: Vec<(String, String)> = vec![];
    while !rest.trim().is_empty() {
        let (name, after) = rest.strip_prefix(' ').unwrap().split_once("=\"").unwrap();
        let (value, after) = after.split_once('"').unwrap();
        assert!(is_name(name) && found.iter().all(|(other, _)| other != name), "{name}");
        check_text(value);
        found.push((name.into(), value.into()));
        rest = after;
    }
    found
}

/// The elements of a document in the order of their tags. Panics where it is not well-formed.
pub fn elements(document: &str) -> Vec<Element> {
    let prolog = "<?xml version=\"1.0\" encoding=\"UTF-8\"?>\n";
    let mut rest = document.strip_prefix(prolog).unwrap();
    let (mut open, mut found): (Vec<String>, Vec<Element>) = (vec![], vec![]);
    while let Some((before, after)) = rest.split_once('<') {
        check_text(before);
        assert!(!open.is_empty() || before.trim().is_empty());
        let (tag, after) = after.split_once('>').unwrap();
        rest = after;
        if let Some(name) = tag.strip_prefix('/') {
            assert_eq!(open.pop().as_deref(), Some(name));
            continue;
        }
        assert!(!open.is_empty() || found.is_empty(), "a second root");
        let inner = tag.strip_suffix('/').unwrap_or(tag);
        let (name, attributes_text) = inner.split_at(inner.find(' ').unwrap_or(inner.len()));
        assert!(is_name(name), "{name}");
        found.push(Element { name: name.into(), attributes: attributes(attributes_text) });
        if inner == tag {
            open.push(name.into());
        }
    }
    assert!(open.is_empty() && rest.trim().is_empty());
    found
}

#[test]
fn the_checker_tells_what_is_wrong() {
    let prolog = "<?xml version=\"1.0\" encoding=\"UTF-8\"?>\n";
    let passes = |text: &str| {
        let document = format!("{prolog}{text}");
        std::panic::catch_unwind(|| elements(&document).len()).ok()
    };
    assert_eq!(passes("<a x=\"1\"><b/>t &lt; u<c y=\"\"></c></a>"), Some(3));
    for wrong in ["<a>", "<a></b>", "<a/><b/>", "<a x=1/>", "<a x=\"1\" x=\"2\"/>", "<a>&b</a>"] {
        assert_eq!(passes(wrong), None, "{wrong}");
    }
}

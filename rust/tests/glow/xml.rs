//! A small reader of XML, strict on what it knows: elements, attributes, text and the five entities.

pub struct Element {
    pub name: String,
    pub attributes: Vec<(String, String)>,
    /// The text directly inside, as a reader of the picture sees it.
    pub text: String,
}

impl Element {
    pub fn get(&self, name: &str) -> Option<&str> {
        self.attributes.iter().find(|(other, _)| other == name).map(|(_, value)| value.as_str())
    }

    pub fn number(&self, name: &str) -> f64 {
        self.get(name).unwrap_or_else(|| panic!("{} has no {name}", self.name)).parse().unwrap()
    }
}

/// All elements in the order in which they open, or what is wrong.
pub fn read(document: &str) -> Result<Vec<Element>, String> {
    let mut rest = document.strip_prefix("<?xml version=\"1.0\" encoding=\"UTF-8\"?>\n").ok_or("no declaration")?;
    let mut elements: Vec<Element> = Vec::new();
    let mut open: Vec<usize> = Vec::new();
    while let Some(start) = rest.find('<') {
        add_text(&mut elements, &open, &rest[..start])?;
        let length = rest[start..].find('>').ok_or("a tag does not end")?;
        tag(&rest[start + 1..start + length], &mut elements, &mut open)?;
        rest = &rest[start + length + 1..];
    }
    add_text(&mut elements, &open, rest)?;
    match open.last() {
        Some(&index) => Err(format!("{} is not closed", elements[index].name)),
        None => Ok(elements),
    }
}

fn add_text(elements: &mut [Element], open: &[usize], raw: &str) -> Result<(), String> {
    let text = decoded(raw)?;
    match open.last() {
        Some(&index) => elements[index].text += &text,
        None if text.trim().is_empty() => (),
        None => return Err(format!("text outside all elements: {text}")),
    }
    Ok(())
}

fn tag(tag: &str, elements: &mut Vec<Element>, open: &mut Vec<usize>) -> Result<(), String> {
    if let Some(name) = tag.strip_prefix('/') {
        return match open.pop() {
            Some(index) if elements[index].name == name => Ok(()),
            _ => Err(format!("{name} is closed and was not open")),
        };
    }
    if open.is_empty() && !elements.is_empty() {
        return Err(String::from("more than one root"));
    }
    let (content, is_empty) = tag.strip_suffix('/').map_or((tag, false), |content| (content, true));
    let (name, attributes) = content.split_once(' ').unwrap_or((content, ""));
    if name.is_empty() || !name.chars().all(|c| c.is_ascii_alphanumeric()) {
        return Err(format!("{name} is no name of an element"));
    }
    elements.push(Element { name: name.to_string(), attributes: read_attributes(attributes)?, text: String::new() });
    if !is_empty {
        open.push(elements.len() - 1);
    }
    Ok(())
}

fn read_attributes(mut rest: &str) -> Result<Vec<(String, String)>, String> {
    let mut found: Vec<(String, String)> = Vec::new();
    while !rest.is_empty() {
        let (name, after) = rest.split_once("=\"").ok_or_else(|| format!("no value in {rest}"))?;
        let (value, after) = after.split_once('"').ok_or_else(|| format!("no end of the value in {rest}"))?;
        if name.is_empty() || !name.chars().all(|c| c.is_ascii_alphanumeric() || c == '-') {
            return Err(format!("{name} is no name of an attribute"));
        }
        if value.contains('<') || found.iter().any(|(other, _)| other == name) {
            return Err(format!("bad attribute {name}"));
        }
        found.push((name.to_string(), decoded(value)?));
        rest = match after.strip_prefix(' ') {
            Some(more) if !more.is_empty() => more,
            None if after.is_empty() => after,
            _ => return Err(format!("bad blanks after {name}")),
        };
    }
    Ok(found)
}

fn decoded(raw: &str) -> Result<String, String> {
    let mut text = String::new();
    let mut parts = raw.split('&');
    text += parts.next().unwrap_or("");
    for part in parts {
        let (entity, after) = part.split_once(';').ok_or_else(|| format!("a bare & before {part}"))?;
        let known = [("amp", '&'), ("lt", '<'), ("gt", '>'), ("quot", '"'), ("apos", '\'')];
        let (_, c) = known.into_iter().find(|(name, _)| *name == entity).ok_or_else(|| format!("unknown entity {entity}"))?;
        text.push(c);
        text += after;
    }
    match text.chars().find(|c| c.is_control() && *c != '\n') {
        Some(c) => Err(format!("control character {c:?}")),
        None => Ok(text),
    }
}

/// The reader itself finds what it is there to find.
#[test]
fn wrong_documents() {
    let read_body = |body: &str| read(&format!("<?xml version=\"1.0\" encoding=\"UTF-8\"?>\n{body}"));
    assert_eq!(read_body("<a b=\"1\" c=\"&lt;\"><d/>x &amp; y</a>\n").unwrap()[0].text, "x & y");
    for wrong in [
        "<a>",
        "<a></b>",
        "</a>",
        "<a><b></a></b>",
        "<a>&</a>",
        "<a>&nbsp;</a>",
        "<a b=1></a>",
        "<a b=\"1></a>",
        "<a b=\"1\"c=\"2\"/>",
        "<a b=\"1\" b=\"2\"/>",
        "<a/><b/>",
        "<a/>text",
        "<a",
        "<a>\u{1}</a>",
    ] {
        assert!(read_body(wrong).is_err(), "{wrong}");
    }
    assert!(read("<a/>").is_err());
}

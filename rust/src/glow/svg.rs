//! Writing SVG.

/// A picture in the making. Attributes are written as they are; text is escaped.
pub struct Svg {
    written: String,
}

impl Svg {
    pub fn new(width: f64, height: f64, title: &str) -> Svg {
        let mut svg = Svg { written: String::from("<?xml version=\"1.0\" encoding=\"UTF-8\"?>\n") };
        let space = "http://www.w3.org/2000/svg";
        let fonts = "Helvetica, Arial, 'DejaVu Sans', 'Liberation Sans', sans-serif";
        svg.open(
            "svg",
            &format!(r#"xmlns="{space}" width="{width}" height="{height}" viewBox="0 0 {width} {height}" font-family="{fonts}""#),
        );
        svg.with_text("title", "", title);
        svg.empty("rect", &format!(r##"width="{width}" height="{height}" fill="#ffffff""##));
        svg
    }

    pub fn open(&mut self, element: &str, attributes: &str) {
        self.written += &format!("<{}>\n", tag(element, attributes));
    }

    pub fn close(&mut self, element: &str) {
        self.written += &format!("</{element}>\n");
    }

    pub fn empty(&mut self, element: &str, attributes: &str) {
        self.written += &format!("<{}/>\n", tag(element, attributes));
    }

    pub fn with_text(&mut self, element: &str, attributes: &str, text: &str) {
        self.written += &format!("<{}>{}</{element}>\n", tag(element, attributes), escaped(text));
    }

    pub fn finish(mut self) -> String {
        self.close("svg");
        self.written
    }
}

fn tag(element: &str, attributes: &str) -> String {
    let blank = if attributes.is_empty() { "" } else { " " };
    format!("{element}{blank}{attributes}")
}

fn escaped(text: &str) -> String {
    text.replace('&', "&amp;").replace('<', "&lt;").replace('>', "&gt;")
}

#[cfg(test)]
mod tests {
    #[test]
    fn text_is_escaped() {
        assert_eq!(super::escaped("a<b & \"c\">&lt;"), "a&lt;b &amp; \"c\"&gt;&amp;lt;");
    }
}

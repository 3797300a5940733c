//! SVG, written piece by piece. Lengths are whole numbers of tenths of a millimetre; a picture is as wide as the text of an A4 page.

use std::fmt::Write;

/// Tenths of a millimetre.
pub type Length = i64;

/// The width of every picture: A4 less margins of a centimetre.
pub const WIDTH: Length = 1900;
/// A text is not longer than this, whatever it is about.
const TEXT_MOST: usize = 400;
const FONT: &str = "DejaVu Sans, Verdana, Arial, sans-serif";
/// The width of a letter on average, in hundredths of the font's size.
const LETTER: Length = 58;
const LETTER_BOLD: Length = 68;
/// Text is not written smaller to fit: it is cut.
const SMALLEST: Length = 15;

/// Text as it is in XML: its special characters by name, and those that XML does not have replaced.
pub fn escape(text: &str) -> String {
    let mut out = String::with_capacity(text.len());
    for c in text.chars() {
        match c {
            '&' => out.push_str("&amp;"),
            '<' => out.push_str("&lt;"),
            '>' => out.push_str("&gt;"),
            '"' => out.push_str("&quot;"),
            '\'' => out.push_str("&#39;"),
            '\t' | '\n' | '\r' => out.push(' '),
            c if c.is_control() || is_hidden(c) => out.push('\u{fffd}'),
            c => out.push(c),
        }
    }
    out
}

/// Characters that XML does not have, and those that turn the direction of what follows them.
fn is_hidden(c: char) -> bool {
    matches!(c, '\u{fffe}' | '\u{ffff}' | '\u{200e}' | '\u{200f}' | '\u{202a}'..='\u{202e}' | '\u{2066}'..='\u{2069}')
}

/// The first characters of a text, with a mark where some are left out.
pub fn cut(text: &str, most: usize) -> String {
    match text.char_indices().nth(most) {
        None => text.to_string(),
        Some(_) => text.chars().take(most.saturating_sub(1)).chain(['…']).collect(),
    }
}

/// About how wide a text is.
pub fn width(text: &str, size: Length, bold: bool) -> Length {
    text.chars().count().min(TEXT_MOST) as Length * size * if bold { LETTER_BOLD } else { LETTER } / 100
}

/// A text that has so much room, and the size for it: smaller if need be, and cut if that does not do.
pub fn fitted(text: &str, room: Length, size: Length, bold: bool) -> (Length, String) {
    let size = (size * room / width(text, size, bold).max(1)).clamp(SMALLEST, size);
    let letters = room * 100 / (size * if bold { LETTER_BOLD } else { LETTER });
    (size, cut(text, letters.max(1) as usize))
}

/// Where a text's place is in it.
#[derive(Clone, Copy, Debug, PartialEq, Eq)]
pub enum Anchor {
    Start,
    Middle,
    End,
}

/// How a line or an outline is drawn.
#[derive(Clone, Copy, Debug, PartialEq, Eq)]
pub enum Stroke {
    Plain,
    Faint,
    Bold,
    Dashed,
    Dotted,
}

impl Stroke {
    fn attributes(self) -> &'static str {
        match self {
            Stroke::Plain => r##"stroke="#222" stroke-width="3""##,
            Stroke::Faint => r##"stroke="#bbb" stroke-width="2""##,
            Stroke::Bold => r##"stroke="#a00" stroke-width="7""##,
            Stroke::Dashed => r##"stroke="#a00" stroke-width="4" stroke-dasharray="16 9""##,
            Stroke::Dotted => r##"stroke="#222" stroke-width="3" stroke-dasharray="3 8""##,
        }
    }
}

#[derive(Default)]
pub struct Svg {
    body: String,
}

impl Svg {
    pub fn new() -> Svg {
        Svg::default()
    }

    /// Text that begins, is centred or ends at a place; `bold` is for what is to be seen first.
    pub fn text(&mut self, (x, y): (Length, Length), anchor: Anchor, size: Length, bold: bool, text: &str) {
        let anchor = match anchor {
            Anchor::Start => "",
            Anchor::Middle => r#" text-anchor="middle""#,
            Anchor::End => r#" text-anchor="end""#,
        };
        let bold = if bold { r#" font-weight="bold""# } else { "" };
        let text = escape(&cut(text, TEXT_MOST));
        let _ = writeln!(self.body, r#"<text x="{x}" y="{y}" font-size="{size}"{anchor}{bold}>{text}</text>"#);
    }

    /// Text on white, to be read above lines.
    pub fn label(&mut self, (x, y): (Length, Length), anchor: Anchor, size: Length, bold: bool, text: &str) {
        let wide = width(text, size, bold) + size / 2;
        let left = match anchor {
            Anchor::Start => x - size / 4,
            Anchor::Middle => x - wide / 2,
            Anchor::End => x - wide + size / 4,
        };
        let _ = writeln!(self.body, r##"<rect x="{left}" y="{}" width="{wide}" height="{}" fill="#fff"/>"##, y - size, size + size / 4);
        self.text((x, y), anchor, size, bold, text);
    }

    /// A path of straight pieces, as SVG writes them, not filled.
    pub fn path(&mut self, stroke: Stroke, d: &str) {
        let _ = writeln!(self.body, r#"<path fill="none" {} d="{d}"/>"#, stroke.attributes());
    }

    /// A closed path that is filled.
    pub fn solid(&mut self, colour: &str, d: &str) {
        let _ = writeln!(self.body, r#"<path fill="{colour}" d="{d}"/>"#);
    }

    pub fn rect(&mut self, (x, y): (Length, Length), (wide, high): (Length, Length), fill: &str, stroke: Option<Stroke>) {
        let stroke = stroke.map_or(String::new(), |s| format!(" {}", s.attributes()));
        let _ = writeln!(self.body, r#"<rect x="{x}" y="{y}" width="{wide}" height="{high}" fill="{fill}"{stroke}/>"#);
    }

    /// The whole picture. The title and the description are what is told to who can't see it.
    pub fn finish(self, height: Length, title: &str, description: &str) -> String {
        let (title, description) = (escape(&cut(title, TEXT_MOST)), escape(&cut(description, TEXT_MOST)));
        let (wide, high) = (millimetres(WIDTH), millimetres(height));
        format!(
            "<svg xmlns=\"http://www.w3.org/2000/svg\" width=\"{wide}mm\" height=\"{high}mm\" viewBox=\"0 0 {WIDTH} {height}\" role=\"img\" \
             font-family=\"{FONT}\">\n<title>{title}</title>\n<desc>{description}</desc>\n\
             <rect width=\"{WIDTH}\" height=\"{height}\" fill=\"#fff\"/>\n{}</svg>\n",
            self.body
        )
    }
}

fn millimetres(length: Length) -> String {
    format!("{}.{}", length / 10, length % 10)
}

/// The height of an A4 page less margins of a centimetre, and of a picture.
#[cfg(test)]
pub const PAGE: Length = 2770;

#[cfg(test)]
pub fn height(svg: &str) -> Length {
    svg.split("viewBox=\"0 0 1900 ").nth(1).and_then(|s| s.split('"').next()?.parse().ok()).expect("a height")
}

#[cfg(test)]
mod tests {
    use super::*;

    #[test]
    fn text_is_text_whatever_it_is() {
        assert_eq!(escape("a<b>&\"'\n\u{0}\u{1b}\u{ffff}é"), "a&lt;b&gt;&amp;&quot;&#39; \u{fffd}\u{fffd}\u{fffd}é");
        assert_eq!(escape("\u{202e}desrever"), "\u{fffd}desrever");
        assert_eq!(cut("abcdef", 6), "abcdef");
        assert_eq!(cut("abcdefg", 6), "abcde…");
        assert_eq!(cut("ééé", 2), "é…");
        assert_eq!(fitted("abc", 1000, 20, false), (20, "abc".to_string()));
        let (size, text) = fitted(&"a".repeat(500), 300, 20, true);
        assert!(size == SMALLEST && text.ends_with('…') && width(&text, size, true) <= 300, "{size} {text}");
        let mut svg = Svg::new();
        svg.text((1, 2), Anchor::End, 24, true, &"<".repeat(1000));
        assert_eq!(svg.finish(10, "</title>", "&").matches("&lt;").count(), TEXT_MOST - 1 + 1);
    }

    #[test]
    fn a_picture_says_its_size() {
        let svg = Svg::new().finish(1234, "t", "d");
        assert!(svg.starts_with("<svg xmlns=\"http://www.w3.org/2000/svg\" width=\"190.0mm\" height=\"123.4mm\" viewBox=\"0 0 1900 1234\""));
        assert!(svg.ends_with("</svg>\n"));
    }
}

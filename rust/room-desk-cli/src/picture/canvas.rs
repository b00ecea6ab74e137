//! SVG elements, one a line.

use std::fmt::Write;

/// What is drawn so far.
#[derive(Debug, Default)]
pub struct Canvas(String);

impl Canvas {
    pub fn svg(&self) -> &str {
        &self.0
    }

    /// Markup as it is.
    pub fn raw(&mut self, markup: &str) {
        self.0.push_str(markup);
        self.0.push('\n');
    }

    pub fn text(&mut self, x: f64, y: f64, class: &str, text: &str) {
        let text = escape(&minus(text));
        let _ = writeln!(self.0, "<text x='{x:.1}' y='{y:.1}' class='{class}'>{text}</text>");
    }

    /// Text that ends at `x`.
    pub fn text_before(&mut self, x: f64, y: f64, class: &str, text: &str) {
        let text = escape(&minus(text));
        let end = "text-anchor='end'";
        let _ = writeln!(self.0, "<text x='{x:.1}' y='{y:.1}' class='{class}' {end}>{text}</text>");
    }

    pub fn path(&mut self, class: &str, data: &str) {
        if !data.is_empty() {
            let _ = writeln!(self.0, "<path class='{class}' d='{data}'/>");
        }
    }

    pub fn rect(&mut self, class: &str, x: f64, y: f64, width: f64, height: f64) {
        self.titled(class, x, y, width, height, "");
    }

    /// A rectangle with words that show where one points at it.
    pub fn titled(&mut self, class: &str, x: f64, y: f64, width: f64, height: f64, title: &str) {
        let place = format!("x='{x:.1}' y='{y:.1}' width='{width:.1}' height='{height:.1}'");
        let _ = match title {
            "" => writeln!(self.0, "<rect class='{class}' {place}/>"),
            _ => {
                let title = escape(&minus(title));
                writeln!(self.0, "<rect class='{class}' {place}><title>{title}</title></rect>")
            }
        };
    }

    /// White words on a coloured ground; gives the width.
    pub fn badge(&mut self, class: &str, x: f64, y: f64, text: &str) -> f64 {
        let width = wide(text, 10.0) + 16.0;
        let place = format!("x='{x:.1}' y='{y:.1}' width='{width:.1}' height='15' rx='7.5'");
        let _ = writeln!(self.0, "<rect class='{class}' {place}/>");
        self.text(x + 8.0, y + 11.0, "badge-text", text);
        width
    }
}

/// About how wide a text is; DejaVu Sans is the widest of the fonts that are asked for.
pub fn wide(text: &str, size: f64) -> f64 {
    text.chars().count() as f64 * size * 0.6
}

/// As much of a text as fits, with a mark where some is left out.
pub fn fit(text: &str, pixels: f64, size: f64) -> String {
    if wide(text, size) <= pixels {
        return text.into();
    }
    let letters = (pixels / (size * 0.6)).max(2.0) as usize - 1;
    text.chars().take(letters).chain(['…']).collect()
}

pub fn escape(text: &str) -> String {
    let visible = |c: char| if c.is_control() { '\u{fffd}' } else { c };
    let text: String = text.chars().map(visible).collect();
    text.replace('&', "&amp;").replace('<', "&lt;").replace('>', "&gt;").replace('\'', "&#39;")
}

/// A minus sign in place of a hyphen before a number.
pub fn minus(text: &str) -> String {
    let chars: Vec<char> = text.chars().collect();
    let sign = |at: usize| {
        let digit = chars.get(at + 1).is_some_and(char::is_ascii_digit);
        let inside = at > 0 && !chars[at - 1].is_whitespace();
        chars[at] == '-' && digit && !inside
    };
    (0..chars.len()).map(|at| if sign(at) { '−' } else { chars[at] }).collect()
}

#[cfg(test)]
mod tests {
    use super::*;

    #[test]
    fn names_cannot_break_the_markup() {
        assert_eq!(escape("a<b>&'\u{7}"), "a&lt;b&gt;&amp;&#39;\u{fffd}");
        assert_eq!(minus("-6 dB, track-1 to -3"), "−6 dB, track-1 to −3");
        assert_eq!(fit("a long name", 30.0, 10.0), "a lo…");
    }
}

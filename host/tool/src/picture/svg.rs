//! Elements of an SVG file as strings, and how much room a text takes: nobody can be asked for a font, so widths are
//! estimates on the wide side.

/// A point in pixels, x to the right and y down.
pub type Point = (f64, f64);

pub const ELLIPSIS: char = '…';

/// Text that may stand in an element.
fn escaped(text: &str) -> String {
    let mut safe = String::new();
    for c in visible(text).chars() {
        match c {
            '<' => safe.push_str("&lt;"),
            '>' => safe.push_str("&gt;"),
            '&' => safe.push_str("&amp;"),
            '"' => safe.push_str("&quot;"),
            '\'' => safe.push_str("&apos;"),
            c => safe.push(c),
        }
    }
    safe
}

/// A text with what XML does not allow, and what would turn the text around it, written out as `\u{..}`.
pub fn visible(name: &str) -> String {
    let mut shown = String::new();
    for c in name.chars() {
        match c.is_control() || turns_or_hides(c) {
            true => shown.extend(c.escape_unicode()),
            false => shown.push(c),
        }
    }
    shown
}

/// Characters without a shape of their own, and the two that XML leaves out above the controls.
fn turns_or_hides(c: char) -> bool {
    matches!(c, '\u{200b}'..='\u{200f}' | '\u{2028}'..='\u{202e}' | '\u{2060}'..='\u{206f}' | '\u{feff}')
        || matches!(c, '\u{fffe}' | '\u{ffff}')
}

/// Width of a text in a sans-serif font of this size.
pub fn width(text: &str, size: f64) -> f64 {
    text.chars().map(share).sum::<f64>() * size
}

/// A character's width as a part of the font's size.
fn share(c: char) -> f64 {
    match c {
        'f' | 'i' | 'j' | 'l' | 'r' | 't' | ' ' | '.' | ',' | ':' | ';' | '\'' | '!' | '|' => 0.42,
        'm' | 'w' | 'M' | 'W' | '@' | '%' => 1.05,
        'A'..='Z' | '→' | '=' | '<' | '>' | '+' | '~' => 0.85,
        '\0'..='\u{7f}' => 0.65,
        '\u{80}'..='\u{10ff}' => 0.8,
        ELLIPSIS => 1.0,
        _ => 1.1,
    }
}

/// A text that fits `room`: whole, or with an ellipsis for its middle.
pub fn shortened(text: &str, size: f64, room: f64) -> String {
    if width(text, size) <= room {
        return text.to_string();
    }
    let letters: Vec<char> = text.chars().collect();
    let with = |kept: usize| -> String {
        let (front, back) = (kept - kept / 2, kept / 2);
        let tail = &letters[letters.len() - back..];
        letters[..front]
            .iter()
            .chain([&ELLIPSIS])
            .chain(tail)
            .collect()
    };
    let fitting = (0..letters.len()).rev().map(with);
    let mut fitting = fitting.filter(|short| width(short, size) <= room);
    fitting.next().unwrap_or_else(|| ELLIPSIS.to_string())
}

/// An element without content; `style` are its other attributes.
pub fn rect(at: Point, size: Point, style: &str) -> String {
    let ((x, y), (w, h)) = (at, size);
    format!("<rect x=\"{x:.1}\" y=\"{y:.1}\" width=\"{w:.1}\" height=\"{h:.1}\" {style}/>\n")
}

pub fn line(from: Point, to: Point, style: &str) -> String {
    let ((x1, y1), (x2, y2)) = (from, to);
    format!("<line x1=\"{x1:.1}\" y1=\"{y1:.1}\" x2=\"{x2:.1}\" y2=\"{y2:.1}\" {style}/>\n")
}

/// Straight lines from point to point.
pub fn polyline(points: &[Point], style: &str) -> String {
    let points: Vec<String> = points
        .iter()
        .map(|(x, y)| format!("{x:.1},{y:.1}"))
        .collect();
    format!(
        "<polyline points=\"{}\" fill=\"none\" {style}/>\n",
        points.join(" ")
    )
}

pub fn polygon(points: &[Point], style: &str) -> String {
    let points: Vec<String> = points
        .iter()
        .map(|(x, y)| format!("{x:.1},{y:.1}"))
        .collect();
    format!("<polygon points=\"{}\" {style}/>\n", points.join(" "))
}

pub fn circle(at: Point, radius: f64, style: &str) -> String {
    let (x, y) = at;
    format!("<circle cx=\"{x:.1}\" cy=\"{y:.1}\" r=\"{radius:.1}\" {style}/>\n")
}

/// A line of text that starts, ends or is centred at `at`, as `style` says.
pub fn text(at: Point, style: &str, words: &str) -> String {
    let ((x, y), words) = (at, escaped(words));
    format!("<text x=\"{x:.1}\" y=\"{y:.1}\" {style}>{words}</text>\n")
}

/// Elements with attributes in common.
pub fn group(style: &str, content: &str) -> String {
    format!("<g {style}>\n{content}</g>\n")
}

/// What the element around it says when it is pointed at.
pub fn title(words: &str) -> String {
    format!("<title>{}</title>\n", escaped(words))
}

/// Elements with a title.
pub fn titled(words: &str, content: &str) -> String {
    format!("<g>{}{content}</g>\n", title(words))
}

#[cfg(test)]
mod tests {
    use super::*;

    #[test]
    fn markup_in_a_text_stays_text() {
        let element = text((1.0, 2.0), "", "<a&\"b'>");
        assert!(
            element.contains(">&lt;a&amp;&quot;b&apos;&gt;</text>"),
            "{element}"
        );
    }

    #[test]
    fn what_xml_forbids_is_written_out() {
        assert_eq!(visible("a\x1b\n\0b"), "a\\u{1b}\\u{a}\\u{0}b");
        assert_eq!(visible("\u{202e}\u{ffff}ä→日"), "\\u{202e}\\u{ffff}ä→日");
    }

    #[test]
    fn a_long_name_keeps_both_ends() {
        let name = "a-very-long-folder/and-a-very-long-name-0017.diff";
        let short = shortened(name, 12.0, 160.0);
        let (front, back) = short.split_once(ELLIPSIS).expect("an ellipsis");
        assert!(name.starts_with(front) && name.ends_with(back), "{short}");
        assert!(front.len() > 5 && back.len() > 5, "{short}");
        assert!(width(&short, 12.0) <= 160.0);
        assert_eq!(shortened("s0", 12.0, 160.0), "s0");
        assert_eq!(shortened("日本語", 12.0, 1.0), "…");
    }
}

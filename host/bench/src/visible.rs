//! Text that others chose (names of files and symbols, lines that a message quotes) made safe to look at: a character
//! that a terminal obeys, that turns the order of its neighbours or that has no picture is written out.

use std::borrow::Cow;
use std::path::Path;

/// The most letters that are shown of one name, or of a text that a message quotes.
pub const MOST_LETTERS: usize = 120;
/// The most letters of a line. No report of ours comes near.
const MOST_LINE: usize = 1 << 13;
/// The name that stands for standard input.
pub const INPUT: &str = "-";

/// Whether a character is written out: controls, marks of direction, and those without a width.
fn is_hidden(letter: char) -> bool {
    letter.is_control()
        || matches!(
            letter,
            '\u{ad}'
                | '\u{61c}'
                | '\u{180e}'
                | '\u{200b}'..='\u{200f}'
                | '\u{2028}'..='\u{202e}'
                | '\u{2060}'..='\u{206f}'
                | '\u{feff}'
                | '\u{fff9}'..='\u{fffb}'
                | '\u{e0000}'..='\u{e007f}'
        )
}

/// A text with such characters written out, as `\n` or `\u{202e}`.
pub fn visible(text: &str) -> String {
    let mut shown = String::with_capacity(text.len());
    for letter in text.chars() {
        match is_hidden(letter) {
            true => shown.extend(letter.escape_default()),
            false => shown.push(letter),
        }
    }
    shown
}

/// The same as text of an HTML page, between tags or in a quoted attribute.
pub fn html(text: &str) -> String {
    let mut shown = String::with_capacity(text.len());
    for letter in visible(text).chars() {
        match letter {
            '&' => shown.push_str("&amp;"),
            '<' => shown.push_str("&lt;"),
            '>' => shown.push_str("&gt;"),
            '"' => shown.push_str("&quot;"),
            '\'' => shown.push_str("&#39;"),
            letter => shown.push(letter),
        }
    }
    shown
}

/// A name's first letters, and how many more there are.
pub fn shortened(name: &str) -> String {
    let (first, more) = parted(name, MOST_LETTERS);
    format!("{first}{more}")
}

/// Text of a file or of the command line as a message quotes it: its first letters, written out.
pub fn quoted(text: &str) -> String {
    let (first, more) = parted(text, MOST_LETTERS);
    visible(first) + &more
}

/// The first letters of a text, and how many more there are in words.
fn parted(text: &str, most: usize) -> (&str, String) {
    match text.char_indices().nth(most) {
        None => (text, String::new()),
        Some((end, _)) => {
            let (first, rest) = text.split_at(end);
            let more = rest.chars().count();
            (first, format!(".. ({more} letters more)"))
        }
    }
}

/// The name of a file that is read, as a message has it.
pub fn name(path: &Path) -> String {
    quoted(&plain_name(path))
}

/// The name of a file that is written, of which - is one like any other.
pub fn output(path: &Path) -> String {
    quoted(&path.display().to_string())
}

/// The name of a file that is read, whole, for what writes it out itself.
pub fn plain_name(path: &Path) -> String {
    match path == Path::new(INPUT) {
        true => "standard input".into(),
        false => path.display().to_string(),
    }
}

/// All that goes to a terminal as text: lines stay, each cut where it is too long, and what else is not seen is written out.
pub fn said(text: &str) -> Cow<'_, str> {
    let fits = |line: &str| line.chars().count() <= MOST_LINE && !line.chars().any(is_hidden);
    if text.lines().all(fits) && !text.contains('\r') {
        return text.into();
    }
    let line = |line: &str| {
        let (body, end) = match line.strip_suffix('\n') {
            Some(body) => (body, "\n"),
            None => (line, ""),
        };
        let (first, more) = parted(body, MOST_LINE);
        visible(first) + &more + end
    };
    text.split_inclusive('\n').map(line).collect()
}

/// JSON text that says the same, and on a terminal too: characters that are not seen stand in its strings alone.
pub fn json(text: &str) -> Cow<'_, str> {
    let hidden = |letter: char| letter != '\n' && is_hidden(letter);
    if !text.contains(hidden) {
        return text.into();
    }
    let written = |letter: char| match hidden(letter) {
        true => {
            let units = letter.encode_utf16(&mut [0; 2]).to_vec();
            units.iter().map(|unit| format!("\\u{unit:04x}")).collect()
        }
        false => letter.to_string(),
    };
    text.chars().map(written).collect()
}

#[cfg(test)]
mod tests {
    use super::*;

    #[test]
    fn what_is_not_seen_is_written_out() {
        assert_eq!(visible("a b-é_\\"), "a b-é_\\");
        let hostile = "\x1b[2J\n\t\u{202e}gpj\u{200b}\u{feff}\u{85}\u{e0041}";
        let shown = "\\u{1b}[2J\\n\\t\\u{202e}gpj\\u{200b}\\u{feff}\\u{85}\\u{e0041}";
        assert_eq!(visible(hostile), shown);
    }

    #[test]
    fn html_has_no_tag_and_no_quote_of_the_text() {
        let hostile = "</title><script>alert('1')</script>\"&amp;\u{2066}";
        let shown =
            "&lt;/title&gt;&lt;script&gt;alert(&#39;1&#39;)&lt;/script&gt;&quot;&amp;amp;\\u{2066}";
        assert_eq!(html(hostile), shown);
    }

    #[test]
    fn a_long_name_is_cut_at_a_letter() {
        let name = "é".repeat(MOST_LETTERS);
        assert_eq!(shortened(&name), name);
        let longer = format!("{name}xyz");
        assert_eq!(shortened(&longer), format!("{name}.. (3 letters more)"));
    }

    #[test]
    fn what_is_quoted_is_written_out_and_cut() {
        assert_eq!(quoted("\x1b[2J é"), "\\u{1b}[2J é");
        let zeros = "\0".repeat(1 << 22);
        let shown = "\\u{0}".repeat(MOST_LETTERS) + ".. (4194184 letters more)";
        assert_eq!(quoted(&zeros), shown);
        assert_eq!(name(Path::new("a\u{9b}b")), "a\\u{9b}b");
        assert_eq!(name(Path::new("-")), "standard input");
        assert_eq!(name(Path::new("./-")), "./-");
        assert_eq!(output(Path::new("-")), "-");
        assert_eq!(output(Path::new("a\nb")), "a\\nb");
    }

    #[test]
    fn what_is_said_keeps_its_lines_alone() {
        assert!(matches!(said("a\n\n  b\n"), Cow::Borrowed("a\n\n  b\n")));
        assert_eq!(said("a\tb\r\n\x1b[2J"), "a\\tb\\r\n\\u{1b}[2J");
        let long = "x".repeat(MOST_LINE);
        assert_eq!(said(&long), long);
        let more = format!("{long}.. (1 letters more)\nb");
        assert_eq!(said(&format!("{long}x\nb")), more);
    }

    #[test]
    fn json_says_the_same_without_orders() {
        let value = serde_json::json!({ "a": "\u{9b}2J\u{7f}\u{e0041}é\n" });
        let text = format!("{value:#}\n");
        let shown = json(&text);
        assert!(
            !shown.contains(|letter| letter != '\n' && is_hidden(letter)),
            "{shown}"
        );
        assert_eq!(
            serde_json::from_str::<serde_json::Value>(&shown).unwrap(),
            value
        );
        assert!(matches!(json("{}\n"), Cow::Borrowed("{}\n")));
    }
}

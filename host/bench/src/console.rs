//! What a program says: the bytes that it stores to its console, an address of memory, as text. A store that touches that
//! byte says what is there afterwards.

use crate::capability_text::count;
use crate::visible::visible;
use lent::{Range, State};
use serde_json::{json, Value};

/// The region of a map whose first byte is the console.
pub const CONSOLE: &str = "console";
/// The most bytes that are kept for a report. All are shown as they come.
const MOST_KEPT: usize = 1 << 20;
/// The most bytes of a letter.
const LETTER: usize = 4;

/// A console, what was said there, and who is shown it.
pub struct Console<'a> {
    address: u32,
    bytes: Vec<u8>,
    said: u64,
    /// Whether the last of it ended a line.
    ended: bool,
    /// The bytes of a letter that is not whole yet.
    letter: Vec<u8>,
    show: &'a dyn Fn(&str),
}

impl<'a> Console<'a> {
    pub fn new(address: u32, show: &'a dyn Fn(&str)) -> Console<'a> {
        Console {
            address,
            bytes: Vec::new(),
            said: 0,
            ended: true,
            letter: Vec::new(),
            show,
        }
    }

    /// Takes up a store by the state after it.
    pub fn hear(&mut self, state: &State) {
        let Some(byte) = state.byte(self.address.into()) else {
            return;
        };
        self.said += 1;
        self.ended = byte == b'\n';
        if self.bytes.len() < MOST_KEPT {
            self.bytes.push(byte);
        }
        self.letter.push(byte);
        let whole = match std::str::from_utf8(&self.letter) {
            Ok(text) => lines(text),
            Err(error) if error.error_len().is_some() || self.letter.len() >= LETTER => {
                self.letter.escape_ascii().to_string()
            }
            Err(_) => return,
        };
        (self.show)(&whole);
        self.letter.clear();
    }

    /// What was said, at the end; a letter that is not whole is written out, and a last line ended, where they are shown.
    pub fn said(self) -> Said {
        if !self.letter.is_empty() {
            (self.show)(&self.letter.escape_ascii().to_string());
        }
        if !self.ended {
            (self.show)("\n");
        }
        Said {
            address: self.address,
            bytes: self.bytes,
            said: self.said,
        }
    }
}

/// The range of the watch record that a console is heard by.
pub fn range(address: u32) -> Range {
    Range {
        start: address,
        length: 1,
        count: 0,
    }
}

/// Text as a terminal may have it: lines and tabs stay, and what else is not seen is written out.
fn lines(text: &str) -> String {
    let kept = |letter: char| matches!(letter, '\n' | '\t');
    let pieces = text.split_inclusive(kept);
    let shown = pieces.map(|piece| {
        let body = piece.trim_end_matches(kept);
        visible(body) + &piece[body.len()..]
    });
    shown.collect()
}

/// What a program said.
#[derive(Clone, PartialEq, Eq, Debug)]
pub struct Said {
    address: u32,
    bytes: Vec<u8>,
    said: u64,
}

impl Said {
    /// Its text, without orders to a terminal: at most so many bytes of it, and how many more there are.
    pub fn text(&self, most: usize) -> String {
        let begins = |at: &usize| self.bytes.get(*at).is_none_or(|byte| byte & 0xC0 != 0x80);
        // No letter is cut through.
        let end = (0..=self.bytes.len().min(most)).rev().find(begins);
        let end = end.unwrap_or(0);
        let text = lines(&String::from_utf8_lossy(&self.bytes[..end]));
        match self.said - end as u64 {
            0 => text,
            more => format!("{text}.. ({} more)", count(more, "byte")),
        }
    }

    /// How much was said, for a report.
    pub fn line(&self) -> String {
        let (bytes, at) = (count(self.said, "byte"), self.address);
        format!("Console: {bytes} stored to {at:08x}.\n")
    }

    pub fn json(&self) -> Value {
        let text = String::from_utf8_lossy(&self.bytes);
        let kept = self.bytes.len();
        json!({ "address": self.address, "bytes": self.said, "kept": kept, "text": text })
    }
}

#[cfg(test)]
mod tests {
    use super::*;
    use std::cell::RefCell;

    fn heard(bytes: &[u8]) -> (Vec<String>, Said) {
        let shown = RefCell::new(Vec::new());
        let show = |text: &str| shown.borrow_mut().push(text.to_string());
        let mut console = Console::new(4, &show);
        let mut state = State::new(0, vec![0; 64]);
        for byte in bytes {
            state.write(4, &[*byte]);
            console.hear(&state);
        }
        let said = console.said();
        (shown.into_inner(), said)
    }

    #[test]
    fn letters_are_shown_as_they_come_whole() {
        let (shown, said) = heard("aé\n".as_bytes());
        assert_eq!(shown, ["a", "é", "\n"]);
        assert_eq!(said.line(), "Console: 4 bytes stored to 00000004.\n");
        assert_eq!(said.text(9), "aé\n");
        for (most, shown) in [(0, ".. (4 bytes more)"), (1, "a.. (3 bytes more)")] {
            assert_eq!((said.text(most), most), (shown.into(), most));
        }
        assert_eq!(
            (said.text(2), said.text(3)),
            ("a.. (3 bytes more)".into(), "aé.. (1 byte more)".into())
        );
        assert_eq!(heard(b"a").0, ["a", "\n"]);
        assert_eq!(heard(b"").0, Vec::<String>::new());
    }

    #[test]
    fn the_last_line_is_ended_whatever_was_kept() {
        let mut bytes = vec![b'\n'; MOST_KEPT];
        bytes.extend(b"ab");
        let (shown, said) = heard(&bytes);
        assert_eq!(shown.concat().len(), MOST_KEPT + 3);
        assert_eq!(said.text(1), format!("\n.. ({} bytes more)", "1,048,577"));
    }

    #[test]
    fn a_terminal_gets_no_orders() {
        let (shown, said) = heard(b"\x1b[2J\xff\t\xc3(\n");
        assert_eq!(shown.concat(), "\\u{1b}[2J\\xff\t\\xc3(\n");
        assert_eq!(said.text(99), "\\u{1b}[2J\u{fffd}\t\u{fffd}(\n");
        assert_eq!(heard(b"a\xe2\x82").0, ["a", "\\xe2\\x82", "\n"]);
    }
}

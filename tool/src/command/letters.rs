//! Where base64 goes wrong: the first character with which a text cannot be base64, and why.

use crate::shown::{character, quoted};
use crate::text::{count, is_space};

/// What is wrong with a base64 text.
pub struct Fault {
    /// Where it stands in the text.
    pub byte: usize,
    /// What is wrong there, in words.
    pub words: String,
}

/// What is wrong first; none where the text is base64 (RFC 4648, white space skipped anywhere).
pub fn fault(text: &[u8]) -> Option<Fault> {
    let mut group = Group::behind(text, plain_start(text));
    let rest = group.start..text.len();
    for byte in rest.filter(|byte| !is_space(text[*byte])) {
        if let Err(fault) = group.take(text, byte) {
            return Some(fault);
        }
    }
    group.end()
}

const BLOCK: usize = 64;

/// How many bytes at the start, in whole blocks, are letters and white space alone. A long text is passed over quickly that way.
fn plain_start(text: &[u8]) -> usize {
    let is_plain = |byte: u8| is_letter(byte) | is_space(byte);
    text.chunks_exact(BLOCK).take_while(|block| block.iter().fold(true, |all, byte| all & is_plain(*byte))).count() * BLOCK
}

fn is_letter(byte: u8) -> bool {
    byte.is_ascii_alphanumeric() | (byte == b'+') | (byte == b'/')
}

/// The six bits of a letter.
fn value(letter: u8) -> u8 {
    match letter {
        b'A'..=b'Z' => letter - b'A',
        b'a'..=b'z' => letter - b'a' + 26,
        b'0'..=b'9' => letter - b'0' + 52,
        b'+' => 62,
        _ => 63,
    }
}

/// The group of four that is begun.
struct Group {
    /// Where what is still to be looked at starts.
    start: usize,
    letters: usize,
    padding: usize,
    /// Where the last character that is not white space stands.
    last: usize,
}

impl Group {
    /// The group that is begun behind letters and white space alone.
    fn behind(text: &[u8], start: usize) -> Group {
        let plain = &text[..start];
        let letters = (count(plain, |byte| !is_space(byte)) % 4) as usize;
        let last = plain.iter().rposition(|byte| !is_space(*byte)).unwrap_or(0);
        Group { start, letters, padding: 0, last }
    }

    fn take(&mut self, text: &[u8], byte: usize) -> Result<(), Fault> {
        let shown = quoted(character(&text[byte..]));
        let wrong = |words: &str| Err(Fault { byte, words: format!("{shown} {words}") });
        match text[byte] {
            b'=' if self.padding > 0 && self.letters + self.padding < 4 => self.padding += 1,
            b'=' if self.padding == 0 && self.letters < 2 => return wrong("stands where a letter should"),
            b'=' if self.padding == 0 => self.pad(text)?,
            other if !is_letter(other) && other != b'=' => return wrong("is no letter of base64"),
            _ if self.padding > 0 => return wrong("stands behind the '=' that ends a text"),
            _ => self.letters = (self.letters + 1) % 4,
        }
        self.last = byte;
        Ok(())
    }

    /// Two letters before `=` have four bits more than the byte that they stand for, three letters two.
    fn pad(&mut self, text: &[u8]) -> Result<(), Fault> {
        let unused = if self.letters == 2 { 0b1111 } else { 0b11 };
        let letter = text[self.last];
        if value(letter) & unused != 0 {
            let words = format!("{} sets bits that stand for nothing and must be 0", quoted(&[letter]));
            return Err(Fault { byte: self.last, words });
        }
        self.padding = 1;
        Ok(())
    }

    fn end(self) -> Option<Fault> {
        let begun = (self.letters + self.padding) % 4;
        let words = format!("the text ends inside a group of four, behind {begun} of them");
        (begun > 0).then_some(Fault { byte: self.last + 1, words })
    }
}

//! Answers as a port gives them that has no heap and writes each text into a buffer that it is lent. The text is the reference's; what
//! becomes of it in a buffer of a given length is said by the rules R7 and R9 of docs/READER.md.

use crate::reading::{hex, number};
use std::io::{Result, Write};

/// The longest buffer that is lent, and what it holds before.
const ROOM: usize = 4096;
const FILL: u8 = b'~';

/// The length of the buffer that a case says, if it does.
pub fn length(words: &[&str]) -> Result<Option<usize>> {
    words.first().map(|word| Ok(number::<usize>(word)?.min(ROOM))).transpose()
}

/// Whether a text has room. Without a length it always has.
pub fn fits(text: &[u8], length: Option<usize>) -> bool {
    length.map_or(true, |n| text.len() <= n)
}

/// The text between `before` and `behind`, or refusal 7 with the length that it needs; then the buffer.
pub fn put(before: &str, text: &str, behind: &str, length: Option<usize>, out: &mut impl Write) -> Result<()> {
    if fits(text.as_bytes(), length) {
        write!(out, "{before}{text}{behind}")?;
    } else {
        writeln!(out, "refused 7 {}", text.len())?;
    }
    buffer(text.as_bytes(), length, out)
}

/// The buffer, where a case says its length: the text and what is left of the content before, or that alone if the text has no room.
pub fn buffer(text: &[u8], length: Option<usize>, out: &mut impl Write) -> Result<()> {
    let Some(n) = length else {
        return Ok(());
    };
    let mut lent = vec![FILL; n];
    if text.len() <= n {
        lent[..text.len()].copy_from_slice(text);
    }
    writeln!(out, "buffer {}", if n == 0 { "-".into() } else { hex(&lent) })
}

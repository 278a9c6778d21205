//! Numbers and bytes from the words of a case line.

use std::io::{Error, ErrorKind, Result};
use std::str::FromStr;

pub fn refuse(why: String) -> Error {
    Error::new(ErrorKind::InvalidInput, why)
}

pub fn number<N: FromStr>(word: &str) -> Result<N> {
    word.parse().map_err(|_| refuse(format!("no number that fits here: {word}")))
}

/// A number, or `-` for none.
pub fn number_or_none<N: FromStr>(word: &str) -> Result<Option<N>> {
    if word == "-" {
        return Ok(None);
    }
    number(word).map(Some)
}

pub fn flag(word: &str) -> Result<bool> {
    match word {
        "0" => Ok(false),
        "1" => Ok(true),
        _ => Err(refuse(format!("neither 0 nor 1: {word}"))),
    }
}

/// Two hexadecimal digits for each byte, or `-` for no byte.
pub fn bytes(word: &str) -> Result<Vec<u8>> {
    if word == "-" {
        return Ok(Vec::new());
    }
    let digits: Option<Vec<u8>> = word.chars().map(|c| c.to_digit(16).map(|d| d as u8)).collect();
    match digits {
        Some(digits) if digits.len() % 2 == 0 => Ok(digits.chunks(2).map(|pair| pair[0] * 16 + pair[1]).collect()),
        _ => Err(refuse(format!("no bytes in hexadecimal: {word}"))),
    }
}

/// Two lower-case digits for each byte.
pub fn hex(bytes: &[u8]) -> String {
    const DIGITS: &[u8; 16] = b"0123456789abcdef";
    let digit = |d: u8| DIGITS[usize::from(d)] as char;
    bytes.iter().flat_map(|b| [digit(b / 16), digit(b % 16)]).collect()
}

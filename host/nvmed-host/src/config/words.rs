#![forbid(unsafe_code)]
//! A line's words, and the numbers in them. What is wrong is a text, without the line's number.

use super::{MOST_LINE, MOST_WORDS};

/// Takes a line apart, without its line feed.
pub(super) fn cut(line: &[u8]) -> Result<Vec<Vec<u8>>, String> {
    if line.len() > MOST_LINE {
        return Err(format!("it is longer than {MOST_LINE} bytes"));
    }
    if let Some(at) = line.iter().position(|byte| byte.is_ascii_control()) {
        let byte = line.get(at).copied().unwrap_or(0);
        return Err(format!("byte {} is a control character, 0x{byte:02x}", at + 1));
    }
    let mut words = Vec::new();
    let mut rest = line;
    loop {
        match rest.split_first() {
            None | Some((b'#', _)) => return Ok(words),
            Some((b' ', after)) => rest = after,
            Some(_) if words.len() == MOST_WORDS => return Err(format!("it has more than {MOST_WORDS} words")),
            Some((b'"', after)) => {
                let (word, left) = quoted(after, words.len() + 1)?;
                words.push(word);
                rest = left;
            }
            Some(_) => {
                let (word, left) = plain(rest, words.len() + 1)?;
                words.push(word);
                rest = left;
            }
        }
    }
}

/// A word without quotes, and what follows it.
fn plain(text: &[u8], number: usize) -> Result<(Vec<u8>, &[u8]), String> {
    let end = text
        .iter()
        .position(|byte| matches!(byte, b' ' | b'#'))
        .unwrap_or(text.len());
    let (word, rest) = text.split_at(end);
    if word.contains(&b'"') {
        return Err(format!("a quote stands in the middle of word {number}"));
    }
    Ok((word.to_vec(), rest))
}

/// A word after its first quote, and what follows the second.
fn quoted(text: &[u8], number: usize) -> Result<(Vec<u8>, &[u8]), String> {
    let mut word = Vec::new();
    let mut rest = text;
    loop {
        match rest {
            [] => return Err(format!("the quote of word {number} is not closed")),
            [b'"', after @ ..] => {
                rest = after;
                break;
            }
            [b'\\', byte @ (b'"' | b'\\'), after @ ..] => {
                word.push(*byte);
                rest = after;
            }
            [b'\\', ..] => {
                return Err(format!(
                    "after a backslash there is no quote or backslash in word {number}"
                ))
            }
            [byte, after @ ..] => {
                word.push(*byte);
                rest = after;
            }
        }
    }
    match rest.first() {
        None | Some(b' ' | b'#') => Ok((word, rest)),
        Some(_) => Err(format!("something follows the quote that closes word {number}")),
    }
}

/// The first 40 bytes of a word, for a message.
pub(super) fn shown(word: &[u8]) -> String {
    let text = String::from_utf8_lossy(word.get(..40).unwrap_or(word)).into_owned();
    text.chars()
        .map(|c| if c.is_control() { char::REPLACEMENT_CHARACTER } else { c })
        .collect()
}

/// Reads digits from the begin of a text: the number and what follows. `None` where there is no digit, or the number is 2^64 or more.
fn digits(text: &[u8]) -> Option<(u64, &[u8])> {
    let (radix, text) = match text {
        [b'0', b'x', rest @ ..] => (16, rest),
        _ => (10, text),
    };
    let end = text
        .iter()
        .position(|byte| !char::from(*byte).is_digit(radix))
        .unwrap_or(text.len());
    let (number, rest) = text.split_at(end);
    let number = std::str::from_utf8(number).ok()?;
    Some((u64::from_str_radix(number, radix).ok()?, rest))
}

/// A number from `least` to `most`.
pub(super) fn number(what: &str, word: &[u8], least: u64, most: u64) -> Result<u64, String> {
    let Some((value, [])) = digits(word) else {
        return Err(format!("{what} is no number below 2^64: {}", shown(word)));
    };
    if value < least || value > most {
        return Err(format!("{what} is {value}, not in {least} to {most}"));
    }
    Ok(value)
}

/// A number that fits into 32 bits, from `least` to `most`.
pub(super) fn small(what: &str, word: &[u8], least: u32, most: u32) -> Result<u32, String> {
    let value = number(what, word, least.into(), most.into())?;
    u32::try_from(value).map_err(|_| format!("{what} is {value}, not in {least} to {most}"))
}

/// A size in bytes: a multiple of 4,096 from 4,096 to `most`.
pub(super) fn size(what: &str, word: &[u8], most: u64) -> Result<u64, String> {
    let shift = match digits(word) {
        Some((_, [])) => 0,
        Some((_, b"K")) => 10,
        Some((_, b"M")) => 20,
        Some((_, b"G")) => 30,
        _ => return Err(format!("{what} is no size, such as 512M: {}", shown(word))),
    };
    let count = digits(word).map_or(0, |(count, _)| count);
    if count > most >> shift {
        return Err(format!("{what} is {}, more than {most} bytes", shown(word)));
    }
    let bytes = count << shift;
    if bytes == 0 || bytes % 4096 != 0 {
        return Err(format!("{what} is {}, no multiple of 4096 from 4096 on", shown(word)));
    }
    Ok(bytes)
}

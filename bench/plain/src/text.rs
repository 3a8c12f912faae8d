//! Texts in their stored form: UTF-8, with lone surrogates in three bytes.

use std::str;

/// Whether the bytes are the stored form of some text.
#[inline]
pub fn is_lawful(text: &[u8]) -> bool {
    text.is_ascii() || is_lawful_wide(text)
}

fn is_lawful_wide(mut text: &[u8]) -> bool {
    let mut behind_leading = false;
    while let Err(error) = str::from_utf8(text) {
        let (valid, rest) = text.split_at(error.valid_up_to());
        behind_leading &= valid.is_empty();
        let [0xED, second @ 0xA0..=0xBF, 0x80..=0xBF, rest @ ..] = rest else {
            return false;
        };
        let leading = *second < 0xB0;
        if behind_leading && !leading {
            return false;
        }
        behind_leading = leading;
        text = rest;
    }
    true
}

/// Whether the text begins with a trailing surrogate.
#[inline]
pub fn begins_trailing(text: &[u8]) -> bool {
    matches!(text, [0xED, 0xB0..=0xBF, _, ..])
}

/// Whether the text ends with a leading surrogate.
#[inline]
pub fn ends_leading(text: &[u8]) -> bool {
    matches!(text, [.., 0xED, 0xA0..=0xAF, _])
}

/// The code unit that three bytes of a lawful text spell.
fn unit_of(bytes: [u8; 3]) -> u32 {
    let [first, second, third] = bytes.map(u32::from);
    (first & 0xF) << 12 | (second & 0x3F) << 6 | third & 0x3F
}

/// The character of two surrogates, in four bytes.
pub fn paired(leading: [u8; 3], trailing: [u8; 3]) -> [u8; 4] {
    let code = 0x10000 + ((unit_of(leading) & 0x3FF) << 10 | unit_of(trailing) & 0x3FF);
    [
        0xF0 | (code >> 18) as u8,
        0x80 | (code >> 12 & 0x3F) as u8,
        0x80 | (code >> 6 & 0x3F) as u8,
        0x80 | (code & 0x3F) as u8,
    ]
}

/// A code point in stored form.
#[derive(Clone, Copy)]
pub struct Encoded {
    bytes: [u8; 4],
    len: usize,
}

impl Encoded {
    pub fn of(code: u32) -> Encoded {
        let mut bytes = [0; 4];
        let len = match char::from_u32(code) {
            Some(c) => c.encode_utf8(&mut bytes).len(),
            None => {
                bytes = [0xED, 0x80 | (code >> 6 & 0x3F) as u8, 0x80 | (code & 0x3F) as u8, 0];
                3
            }
        };
        Encoded { bytes, len }
    }

    pub fn bytes(&self) -> &[u8] {
        &self.bytes[..self.len]
    }
}

/// The code unit at an index of a lawful text.
pub fn unit_at(text: &[u8], index: usize) -> Option<u16> {
    let front = text.get(..=index)?;
    if front.is_ascii() {
        return Some(u16::from(front[index]));
    }
    let mut unit = 0;
    let mut at = 0;
    while at < text.len() {
        let first = text[at];
        let len = (first.leading_ones() as usize).max(1);
        if len == 4 && index < unit + 2 {
            let c = text[at..at + 4].iter().fold(0, |code, byte| code << 6 | u32::from(byte & 0x3F)) & 0x1FFFFF;
            let half = if index == unit { 0xD7C0 + (c >> 10) } else { 0xDC00 | c & 0x3FF };
            return Some(half as u16);
        }
        if index == unit {
            return Some(match len {
                1 => u16::from(first),
                2 => u16::from(first & 0x1F) << 6 | u16::from(text[at + 1] & 0x3F),
                _ => unit_of([first, text[at + 1], text[at + 2]]) as u16,
            });
        }
        unit += if len == 4 { 2 } else { 1 };
        at += len;
    }
    None
}

#[inline]
fn is_escaped(byte: u8) -> bool {
    matches!(byte, b'\\' | b'`' | b'$' | b'\r')
}

fn is_surrogate(window: &[u8]) -> bool {
    matches!(window, [0xED, 0xA0..=0xBF])
}

/// By how many bytes the raw text of a lawful text is longer.
pub fn growth(text: &[u8]) -> usize {
    let marks = text.iter().filter(|&&byte| is_escaped(byte)).count();
    if text.is_ascii() { marks } else { marks + 3 * text.windows(2).filter(|window| is_surrogate(window)).count() }
}

/// Writes the raw text of a lawful text to the front of `out`, and answers how long it is.
pub fn escape(text: &[u8], out: &mut [u8]) -> usize {
    let mut len = 0;
    let mut rest = text;
    let mut write = |bytes: &[u8]| {
        out[len..len + bytes.len()].copy_from_slice(bytes);
        len += bytes.len();
    };
    while let Some(at) = rest.iter().position(|&byte| is_escaped(byte) || byte == 0xED) {
        write(&rest[..at]);
        rest = &rest[at..];
        let taken = match *rest {
            [b'\r', ..] => {
                write(b"\\r");
                1
            }
            [first @ 0xED, second @ 0xA0..=0xBF, third, ..] => {
                let unit = unit_of([first, second, third]);
                let digit = |shift: u32| b"0123456789abcdef"[(unit >> shift & 15) as usize];
                write(&[b'\\', b'u', digit(12), digit(8), digit(4), digit(0)]);
                3
            }
            [0xED, ..] => {
                write(&rest[..3]);
                3
            }
            [mark, ..] => {
                write(&[b'\\', mark]);
                1
            }
            [] => break,
        };
        rest = &rest[taken..];
    }
    write(rest);
    len
}

/// Whether the raw text is well formed and cooks to the text.
#[inline]
pub fn cooks_to(raw: &[u8], cooked: &[u8]) -> bool {
    if raw.iter().any(|&byte| is_escaped(byte)) {
        Cooking { cooked, leading: None }.matches(raw).is_some()
    } else {
        raw == cooked && (raw.is_ascii() || str::from_utf8(raw).is_ok())
    }
}

/// What is left to compare, and a leading surrogate that came last, since a trailing one would make one character with
/// it.
struct Cooking<'a> {
    cooked: &'a [u8],
    leading: Option<u32>,
}

impl Cooking<'_> {
    fn matches(mut self, raw: &[u8]) -> Option<()> {
        let mut raw = str::from_utf8(raw).ok()?;
        while let Some(at) = raw.bytes().position(is_escaped) {
            if at > 0 {
                self.put(&raw.as_bytes()[..at])?;
            }
            let (mark, rest) = (raw.as_bytes()[at], &raw[at + 1..]);
            raw = match mark {
                b'`' => return None,
                b'$' if rest.starts_with('{') => return None,
                b'$' => {
                    self.put(b"$")?;
                    rest
                }
                b'\r' => {
                    self.put(b"\n")?;
                    rest.strip_prefix('\n').unwrap_or(rest)
                }
                _ => self.escape(rest)?,
            };
        }
        if !raw.is_empty() {
            self.put(raw.as_bytes())?;
        }
        self.put_leading()?;
        self.cooked.is_empty().then_some(())
    }

    /// What follows the escape behind a backslash.
    fn escape<'t>(&mut self, behind: &'t str) -> Option<&'t str> {
        let c = behind.chars().next()?;
        let rest = &behind[c.len_utf8()..];
        let (code, rest) = match c {
            '\n' | '\u{2028}' | '\u{2029}' => return Some(rest),
            '\r' => return Some(rest.strip_prefix('\n').unwrap_or(rest)),
            '0' if !rest.starts_with(|c: char| c.is_ascii_digit()) => (0, rest),
            '0'..='9' => return None,
            'x' => digits(rest, 2)?,
            'u' => match rest.strip_prefix('{') {
                Some(rest) => {
                    let (number, rest) = rest.split_once('}')?;
                    (hex_number(number)?, rest)
                }
                None => digits(rest, 4)?,
            },
            'b' => (0x8, rest),
            't' => (0x9, rest),
            'n' => (0xA, rest),
            'v' => (0xB, rest),
            'f' => (0xC, rest),
            'r' => (0xD, rest),
            _ => (u32::from(c), rest),
        };
        self.put_code(code)?;
        Some(rest)
    }

    fn put(&mut self, bytes: &[u8]) -> Option<()> {
        self.put_leading()?;
        self.cooked = self.cooked.strip_prefix(bytes)?;
        Some(())
    }

    fn put_leading(&mut self) -> Option<()> {
        if let Some(leading) = self.leading.take() {
            self.cooked = self.cooked.strip_prefix(Encoded::of(leading).bytes())?;
        }
        Some(())
    }

    fn put_code(&mut self, code: u32) -> Option<()> {
        if let (Some(leading), 0xDC00..=0xDFFF) = (self.leading, code) {
            self.leading = None;
            return self.put(Encoded::of(0x10000 + ((leading & 0x3FF) << 10 | code & 0x3FF)).bytes());
        }
        if let 0xD800..=0xDBFF = code {
            self.put_leading()?;
            self.leading = Some(code);
            return Some(());
        }
        self.put(Encoded::of(code).bytes())
    }
}

/// The number that so many hexadecimal digits write, and what follows them.
fn digits(text: &str, count: usize) -> Option<(u32, &str)> {
    let (number, rest) = text.split_at_checked(count)?;
    Some((hex_number(number)?, rest))
}

/// The code point that one or more hexadecimal digits write.
fn hex_number(digits: &str) -> Option<u32> {
    if digits.is_empty() {
        return None;
    }
    let mut number = 0u32;
    for c in digits.chars() {
        number = (number << 4 | c.to_digit(16)?).min(0x110000);
    }
    (number < 0x110000).then_some(number)
}

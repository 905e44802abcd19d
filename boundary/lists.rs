// List text and the register, naively: 01's grammar over slices of bytes, with 02's styles, and 02's pages.
use crate::case::Style;

fn blank(c: &u8) -> bool {
    (9..=13).contains(c) || *c == 32
}

// 02's limits: the joiner is printable ASCII, no digit, comma or blank.
pub fn allowed(y: &Style) -> bool {
    let printable = y.joiner >= b' ' as usize && y.joiner <= b'~' as usize;
    let barred = b" ,0123456789".iter().any(|&c| c as usize == y.joiner);
    y.first <= 1000 && printable && !barred && (2..=9).contains(&y.shortest)
}

fn stripped(mut t: &[u8]) -> &[u8] {
    while t.first().is_some_and(blank) {
        t = &t[1..];
    }
    while t.last().is_some_and(blank) {
        t = &t[..t.len() - 1];
    }
    t
}

// The bit that a number stands for. Digits only above the limit are 16, anything else that is none is 7.
fn number(t: &[u8], y: &Style) -> Result<u64, u32> {
    let t = stripped(t);
    if t.is_empty() || t.iter().any(|c| !c.is_ascii_digit()) {
        return Err(7);
    }
    let value = t.iter().fold(0u64, |v, c| (v * 10 + (c - b'0') as u64).min(1 << 40));
    match value.checked_sub(y.first as u64) {
        Some(bit) if bit <= u32::MAX as u64 => Ok(bit),
        Some(_) => Err(16),
        None => Err(7),
    }
}

// The ranges of a text in an allowed style, or 8, 7 or 16: the first bad token's, its left number before its right.
pub fn read(text: &[u8], y: &Style) -> Result<Vec<(u64, u64)>, u32> {
    if text.iter().any(|&c| c >= 128) {
        return Err(8);
    }
    let tokens: Vec<&[u8]> = text.split(|&c| c == b',').collect();
    let mut ranges = vec![];
    for (k, token) in tokens.iter().enumerate() {
        if stripped(token).is_empty() && k > 0 && k + 1 == tokens.len() {
            break;
        }
        let (low, high) = match token.iter().position(|&c| c as usize == y.joiner) {
            Some(h) => (number(&token[..h], y)?, number(&token[h + 1..], y)?),
            None => (number(token, y)?, number(token, y)?),
        };
        if high < low {
            return Err(7);
        }
        ranges.push((low, high));
    }
    Ok(ranges)
}

// Maximal runs upward, each with the place behind it.
fn runs(s: &[bool]) -> Vec<(usize, usize)> {
    let starts = (0..s.len()).filter(|&i| s[i] && (i == 0 || !s[i - 1]));
    starts.map(|i| (i, (i..s.len()).find(|&p| !s[p]).unwrap_or(s.len()))).collect()
}

// The runs in an allowed style.
pub fn text(s: &[bool], y: &Style) -> Vec<u8> {
    let printed = |p: usize| (p as u64 + y.first as u64).to_string();
    let mut parts = vec![];
    for (i, end) in runs(s) {
        if end - i >= y.shortest {
            parts.push(format!("{}{}{}", printed(i), y.joiner as u8 as char, printed(end - 1)));
        } else {
            parts.extend((i..end).map(printed));
        }
    }
    parts.join(if y.blank != 0 { ", " } else { "," }).into_bytes()
}

// The runs on pages of 50 lines: 49 runs, or blank lines where there are no more, and the foot. There is a page where no run is.
pub fn register(s: &[bool]) -> Vec<u8> {
    let line = |a: usize, b: usize, c: usize| format!("{a:12}{b:12}{c:12}{:36}\n", "");
    let mut left = runs(s).into_iter();
    let pages = left.len().div_ceil(49).max(1);
    let mut text = String::new();
    for page in 1..=pages {
        for _ in 0..49 {
            text += &left.next().map_or_else(|| format!("{:72}\n", ""), |(i, end)| line(i, end - 1, end - i));
        }
        text += &line(page, pages, s.iter().filter(|&&v| v).count());
    }
    text.into_bytes()
}

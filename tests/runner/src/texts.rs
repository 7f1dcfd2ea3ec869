//! Texts of pictures: as words of a script, and put together from lines.

/// Reckoned here once more, beside the second model's.
fn sum_of(bytes: &[u8]) -> u64 {
    bytes.iter().map(|&byte| u64::from(byte)).sum::<u64>() % (1 << 32)
}

/// One word of a script: only lower-case letters, digits and `=` stand for themselves.
pub fn escaped(text: &[u8]) -> String {
    let byte = |&byte: &u8| match byte {
        b'\n' => "\\n".to_string(),
        b'a'..=b'z' | b'0'..=b'9' | b'=' => char::from(byte).to_string(),
        _ => format!("\\x{byte:02x}"),
    };
    text.iter().map(byte).collect()
}

pub fn unescaped(word: &str) -> Option<Vec<u8>> {
    let mut parts = word.split('\\');
    let mut text = parts.next()?.as_bytes().to_vec();
    for part in parts {
        let (byte, rest) = match part.strip_prefix('x') {
            Some(hex) => (u8::from_str_radix(hex.get(..2)?, 16).ok()?, &hex[2..]),
            None => (b'\n', part.strip_prefix('n')?),
        };
        text.push(byte);
        text.extend_from_slice(rest.as_bytes());
    }
    Some(text)
}

/// The lines with the sum line that is right for them.
pub fn summed(lines: &str) -> String {
    format!("{lines}sum={}\n", sum_of(lines.as_bytes()))
}

/// The text with the right sum in place of its last line, if that is a sum line, else behind its end.
pub fn mended(text: &[u8]) -> Vec<u8> {
    let last = text.strip_suffix(b"\n").unwrap_or(text);
    let start = last.iter().rposition(|&byte| byte == b'\n').map_or(0, |at| at + 1);
    let mut lines = if text[start..].starts_with(b"sum=") { text[..start].to_vec() } else { text.to_vec() };
    let sum = sum_of(&lines);
    lines.extend_from_slice(format!("sum={sum}\n").as_bytes());
    lines
}

/// The lines of a text, each with its line feed, if it has one.
pub fn lines(text: &[u8]) -> Vec<&[u8]> {
    text.split_inclusive(|&byte| byte == b'\n').collect()
}

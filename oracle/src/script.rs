// A line of a script: the word options, a blank, and an option text in lower-case hex.

pub fn line_of(text: &[u8]) -> String {
    let mut line = String::with_capacity(8 + 2 * text.len());
    line.push_str("options ");
    for byte in text {
        for digit in [byte >> 4, byte & 15] {
            line.push(b"0123456789abcdef"[digit as usize] as char);
        }
    }
    line
}

// The text of a line, where the line has this form.
pub fn text_of(line: &[u8]) -> Option<Vec<u8>> {
    let hex = line.strip_prefix(b"options ")?;
    if hex.len() % 2 != 0 {
        return None;
    }
    hex.chunks(2).map(|pair| Some(digit(pair[0])? << 4 | digit(pair[1])?)).collect()
}

fn digit(byte: u8) -> Option<u8> {
    match byte {
        b'0'..=b'9' => Some(byte - b'0'),
        b'a'..=b'f' => Some(byte - b'a' + 10),
        _ => None,
    }
}

//! The words of requests and answers.

/// The bytes of one request's arguments together.
pub const MOST_BYTES: usize = 1_048_576;
/// The bytes of one line.
pub const LONGEST_LINE: usize = 262_143;

#[derive(Clone, Debug, PartialEq, Eq)]
pub enum Word {
    Number(u64),
    Bytes(Vec<u8>),
    /// So many times this byte. Read words are never of this kind.
    Repeated(usize, u8),
}

pub fn number(value: u64) -> Word {
    Word::Number(value)
}

pub fn bytes(value: &[u8]) -> Word {
    Word::Bytes(value.to_vec())
}

pub fn repeated(count: usize, byte: u8) -> Word {
    Word::Repeated(count, byte)
}

/// One byte over and over is written shorter.
pub fn short(value: &[u8]) -> Word {
    match value {
        [first, .., _] if value.iter().all(|byte| byte == first) => repeated(value.len(), *first),
        _ => bytes(value),
    }
}

impl Word {
    pub fn as_number(&self) -> Option<u64> {
        match self {
            Word::Number(value) => Some(*value),
            _ => None,
        }
    }

    pub fn as_flag(&self) -> Option<bool> {
        match self {
            Word::Number(0) => Some(false),
            Word::Number(1) => Some(true),
            _ => None,
        }
    }

    pub fn as_bytes(&self) -> Option<&[u8]> {
        match self {
            Word::Bytes(value) => Some(value),
            _ => None,
        }
    }

    pub fn as_hash(&self) -> Option<[u8; 32]> {
        self.as_bytes()?.try_into().ok()
    }

    /// The bytes as words of four bytes, the highest first.
    pub fn as_words(&self) -> Option<Vec<u32>> {
        let bytes = self.as_bytes()?;
        if bytes.len() % 4 != 0 {
            return None;
        }
        let word = |four: &[u8]| u32::from_be_bytes(four.try_into().unwrap());
        Some(bytes.chunks_exact(4).map(word).collect())
    }

    pub fn write(&self, line: &mut Vec<u8>) {
        match self {
            Word::Number(value) => line.extend(value.to_string().bytes()),
            Word::Bytes(value) => {
                line.push(b'x');
                write_hex(value, line);
            }
            Word::Repeated(count, byte) => {
                line.extend(count.to_string().bytes());
                line.push(b'*');
                write_hex(&[*byte], line);
            }
        }
    }
}

fn write_hex(bytes: &[u8], line: &mut Vec<u8>) {
    const DIGITS: &[u8; 16] = b"0123456789abcdef";
    for byte in bytes {
        line.push(DIGITS[(byte >> 4) as usize]);
        line.push(DIGITS[(byte & 15) as usize]);
    }
}

pub fn hex(bytes: &[u8]) -> String {
    let mut line = Vec::new();
    write_hex(bytes, &mut line);
    String::from_utf8(line).unwrap()
}

/// Lower-case hex digits, an even count of them.
pub fn read_hex(digits: &[u8]) -> Option<Vec<u8>> {
    if digits.len() % 2 != 0 {
        return None;
    }
    let digit = |d: u8| match d {
        b'0'..=b'9' => Some(d - b'0'),
        b'a'..=b'f' => Some(d - b'a' + 10),
        _ => None,
    };
    digits.chunks_exact(2).map(|two| Some(digit(two[0])? << 4 | digit(two[1])?)).collect()
}

fn read_decimal(digits: &[u8]) -> Option<u64> {
    if digits.is_empty() {
        return None;
    }
    let mut value: u64 = 0;
    for d in digits {
        if !d.is_ascii_digit() {
            return None;
        }
        value = value.checked_mul(10)?.checked_add((d - b'0') as u64)?;
    }
    Some(value)
}

/// One word of a request; `None` where it is none, or has more bytes than `room`.
fn read_word(word: &[u8], room: usize) -> Option<Word> {
    if let Some(digits) = word.strip_prefix(b"x") {
        return read_hex(digits).filter(|b| b.len() <= room).map(Word::Bytes);
    }
    if let Some(star) = word.iter().position(|c| *c == b'*') {
        let count = read_decimal(&word[..star])?;
        let byte = read_hex(&word[star + 1..])?;
        if byte.len() != 1 || count > room as u64 {
            return None;
        }
        return Some(Word::Bytes(vec![byte[0]; count as usize]));
    }
    read_decimal(word).map(Word::Number)
}

/// A line without its line feed: the entry's name and its arguments.
pub fn read_line(line: &[u8]) -> Option<(&[u8], Vec<Word>)> {
    if line.len() > LONGEST_LINE {
        return None;
    }
    let mut parts = line.split(|c| *c == b' ');
    let name = parts.next()?;
    let mut room = MOST_BYTES;
    let mut words = Vec::new();
    for part in parts {
        let word = read_word(part, room)?;
        room -= word.as_bytes().map_or(0, <[u8]>::len);
        words.push(word);
    }
    Some((name, words))
}

/// Words with one space between, ended by a line feed.
pub fn write_line(name: Option<&str>, words: &[Word], out: &mut Vec<u8>) {
    let mut first = true;
    if let Some(name) = name {
        out.extend(name.bytes());
        first = false;
    }
    for word in words {
        if !first {
            out.push(b' ');
        }
        first = false;
        word.write(out);
    }
    out.push(b'\n');
}

#[cfg(test)]
mod tests {
    use super::*;

    fn arguments(line: &str) -> Option<Vec<Word>> {
        read_line(line.as_bytes()).map(|(_, words)| words)
    }

    #[test]
    fn words_are_read() {
        assert_eq!(arguments("e x x00ff 3*61 12"), Some(vec![bytes(&[]), bytes(&[0, 255]), bytes(b"aaa"), number(12)]));
        assert_eq!(arguments("e 0*00"), Some(vec![bytes(&[])]));
        assert_eq!(arguments("e 18446744073709551615"), Some(vec![number(u64::MAX)]));
        assert_eq!(arguments("e"), Some(vec![]));
    }

    #[test]
    fn other_words_are_none() {
        for word in
            ["", "X00", "x0", "xFF", "x0g", "*61", "3*", "3*6", "3*616", "3*6G", "18446744073709551616", "-1", "1 ", "x00,", "3*6*6"]
        {
            assert_eq!(arguments(&format!("e {word}")), None, "{word}");
        }
    }

    #[test]
    fn bytes_are_limited_together() {
        assert!(arguments("e 1048576*00").is_some());
        assert!(arguments("e 1048577*00").is_none());
        assert!(arguments("e 1048575*00 x00").is_some());
        assert!(arguments("e 1048575*00 x0000").is_none());
    }
}

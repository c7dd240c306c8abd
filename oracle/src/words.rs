//! The words of a line: keys, prefixes and images in lower-case hex, `-` for none; numbers decimal without leading zeros; lists
//! joined by commas, `-` for none; pools 0 and 1.

pub trait Word {
    fn pool(&self) -> Option<usize>;
    fn bytes(&self) -> Option<Vec<u8>>;
    fn numbers(&self) -> Option<Vec<u64>>;
}

fn digit(b: u8) -> Option<u8> {
    match b {
        b'0'..=b'9' => Some(b - b'0'),
        b'a'..=b'f' => Some(b - b'a' + 10),
        _ => None,
    }
}

pub fn number(word: &[u8]) -> Option<u64> {
    if word.is_empty() || (word.len() > 1 && word[0] == b'0') {
        return None;
    }
    let mut n: u64 = 0;
    for &b in word {
        if !b.is_ascii_digit() {
            return None;
        }
        n = n.checked_mul(10)?.checked_add((b - b'0') as u64)?;
    }
    Some(n)
}

impl Word for [u8] {
    fn pool(&self) -> Option<usize> {
        match self {
            b"0" => Some(0),
            b"1" => Some(1),
            _ => None,
        }
    }
    fn bytes(&self) -> Option<Vec<u8>> {
        if self == b"-" {
            return Some(Vec::new());
        }
        if self.is_empty() || self.len() % 2 == 1 {
            return None;
        }
        self.chunks(2).map(|two| Some(digit(two[0])? * 16 + digit(two[1])?)).collect()
    }
    fn numbers(&self) -> Option<Vec<u64>> {
        if self == b"-" {
            return Some(Vec::new());
        }
        self.split(|&b| b == b',').map(number).collect()
    }
}

pub fn hex(bytes: &[u8]) -> String {
    if bytes.is_empty() {
        return "-".into();
    }
    bytes.iter().map(|b| format!("{b:02x}")).collect()
}

pub fn list(numbers: &[u64]) -> String {
    if numbers.is_empty() {
        return "-".into();
    }
    numbers.iter().map(u64::to_string).collect::<Vec<_>>().join(",")
}

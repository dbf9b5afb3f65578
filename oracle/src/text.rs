//! How case lines write what they hold: hex digits, decimal numbers, lists and
//! strings of bytes.

/// No string of bytes of a case line is longer.
pub const MOST_BYTES: usize = 512;

/// At most sixteen digits. Rust's own reading of numbers isn't used: it takes
/// a sign and upper case.
pub fn hex(digits: &[u8]) -> Option<u64> {
    let mut bits = 0;
    for &digit in digits {
        let number = match digit {
            b'0'..=b'9' => digit - b'0',
            b'a'..=b'f' => digit - b'a' + 10,
            _ => return None,
        };
        bits = bits << 4 | u64::from(number);
    }
    Some(bits)
}

/// A number in decimal as it is printed: no sign, and no zero in front.
pub fn decimal(text: &[u8], greatest: usize) -> Option<usize> {
    let text = std::str::from_utf8(text).ok()?;
    let number: usize = text.parse().ok()?;
    (number <= greatest && number.to_string() == text).then_some(number)
}

/// At most so many items, joined by commas; `-` where there are none.
pub fn list<T>(text: &[u8], most: usize, item: impl Fn(&[u8]) -> Option<T>) -> Option<Vec<T>> {
    if text == b"-" {
        return Some(Vec::new());
    }
    let items: Option<Vec<T>> = text.split(|&byte| byte == b',').map(item).collect();
    items.filter(|items| items.len() <= most)
}

pub fn list_text(items: impl IntoIterator<Item = impl ToString>) -> String {
    let items: Vec<String> = items.into_iter().map(|item| item.to_string()).collect();
    if items.is_empty() {
        return "-".to_string();
    }
    items.join(",")
}

/// Two digits a byte; `-` where there are none.
pub fn bytes(text: &[u8]) -> Option<Vec<u8>> {
    if text == b"-" {
        return Some(Vec::new());
    }
    if text.is_empty() || text.len() % 2 == 1 || text.len() / 2 > MOST_BYTES {
        return None;
    }
    let byte = |digits| Some(hex(digits)? as u8);
    text.chunks(2).map(byte).collect()
}

pub fn bytes_text(bytes: &[u8]) -> String {
    if bytes.is_empty() {
        return "-".to_string();
    }
    bytes.iter().map(|byte| format!("{byte:02x}")).collect()
}

#[cfg(test)]
mod tests {
    use super::*;

    #[test]
    fn decimals() {
        for number in [0, 1, 9, 10, 8192, usize::MAX] {
            let text = number.to_string();
            assert_eq!(decimal(text.as_bytes(), usize::MAX), Some(number));
        }
        assert_eq!(decimal(b"128", 128), Some(128));
        assert_eq!(decimal(b"129", 128), None);
        for text in [
            "",
            "-",
            "-0",
            "+1",
            "00",
            "01",
            "1.",
            "0x1",
            "a",
            "18446744073709551616",
        ] {
            assert_eq!(decimal(text.as_bytes(), usize::MAX), None, "{text}");
        }
    }

    #[test]
    fn printed_bytes_read_back() {
        let all: Vec<u8> = (0..=255).collect();
        for some in [&[][..], &[0], &[0xa5, 5], &all, &[7; MOST_BYTES]] {
            assert_eq!(bytes(bytes_text(some).as_bytes()), Some(some.to_vec()));
        }
        assert_eq!(bytes_text(&[0, 0x5a, 0xff]), "005aff");
        for text in ["", "0", "000", "--", "-00", "0A", "0g", "+1", "00,00"] {
            assert_eq!(bytes(text.as_bytes()), None, "{text}");
        }
        assert_eq!(bytes(&[b'0'; 2 * MOST_BYTES + 2]), None);
    }

    #[test]
    fn lists() {
        let read = |text: &str| list(text.as_bytes(), 3, bytes);
        assert_eq!(read("-"), Some(vec![]));
        assert_eq!(read("07,0102"), Some(vec![vec![7], vec![1, 2]]));
        assert_eq!(list_text(["07", "0102"]), "07,0102");
        for text in ["", ",", "00,", ",00", "00,,00", "00;00", "00,00,00,00"] {
            assert_eq!(read(text), None, "{text}");
        }
    }
}

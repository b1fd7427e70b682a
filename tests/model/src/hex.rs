//! Lower-case hexadecimal.

/// Two digits a byte.
pub fn digits(bytes: &[u8]) -> String {
    bytes.iter().map(|b| format!("{b:02x}")).collect()
}

/// Two digits a byte, `-` for none.
pub fn digits_or_dash(bytes: &[u8]) -> String {
    if bytes.is_empty() {
        "-".to_string()
    } else {
        digits(bytes)
    }
}

/// The value of one lower-case digit.
pub fn digit(byte: u8) -> Option<u8> {
    match byte {
        b'0'..=b'9' => Some(byte - b'0'),
        b'a'..=b'f' => Some(byte - b'a' + 10),
        _ => None,
    }
}

/// The bytes written with two lower-case digits each.
pub fn bytes(field: &[u8]) -> Option<Vec<u8>> {
    if field.len() % 2 != 0 {
        return None;
    }
    field
        .chunks(2)
        .map(|pair| pair.iter().try_fold(0, |value, byte| Some(value * 16 + digit(*byte)?)))
        .collect()
}

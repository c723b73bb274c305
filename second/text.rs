//! Numbers and bits as text (document 01, "Saved mask and listing"): decimal
//! without leading zeros, hexadecimal with capitals only.

/// Longest decimal looked at; every number in these forms is far shorter.
const DIGITS: usize = 9;

pub fn decimal(text: &[u8]) -> Option<usize> {
    let digits = (1..=DIGITS).contains(&text.len()) && text.iter().all(u8::is_ascii_digit);
    let leading_zero = text.len() > 1 && text[0] == b'0';
    if !digits || leading_zero {
        return None;
    }
    Some(text.iter().fold(0, |sum, digit| sum * 10 + usize::from(digit - b'0')))
}

/// Four bits for each digit.
pub fn hex_bits(text: &[u8]) -> Option<Vec<bool>> {
    let mut bits = Vec::new();
    for digit in text {
        let value = match digit {
            b'0'..=b'9' => digit - b'0',
            b'A'..=b'F' => digit - b'A' + 10,
            _ => return None,
        };
        super::bits::push(&mut bits, u64::from(value), 4);
    }
    Some(bits)
}

/// One digit for each four bits, the last one padded at its end with zero bits.
pub fn hex(bits: &[bool]) -> String {
    let digit = |four: &[bool]| {
        let value = super::bits::number(four) << (4 - four.len());
        char::from(b"0123456789ABCDEF"[value as usize])
    };
    bits.chunks(4).map(digit).collect()
}

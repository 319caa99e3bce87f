//! The numbers of a header, and those of code tags and control files.

fn within_32_bits(value: i64) -> Option<i32> {
    i32::try_from(value).ok()
}

/// "A number is an optional minus and 1 to 10 decimal digits within signed 32 bits."
pub fn header_number(word: &[u8]) -> Option<i32> {
    let digits = word.strip_prefix(b"-").unwrap_or(word);
    if digits.is_empty() || digits.len() > 10 || !digits.iter().all(u8::is_ascii_digit) {
        return None;
    }
    let size = digits.iter().fold(0i64, |n, d| n * 10 + (d - b'0') as i64);
    within_32_bits(if digits.len() < word.len() { -size } else { size })
}

/// The digits at the start of a text, and what stands behind them. A value that is too large stays too large.
fn leading_digits(text: &[u8], base: u32) -> Option<(i64, &[u8])> {
    let count = text.iter().take_while(|b| (**b as char).is_digit(base)).count();
    if count == 0 {
        return None;
    }
    let add = |n: i64, b: &u8| (n * base as i64 + (*b as char).to_digit(base).unwrap() as i64).min(1 << 40);
    Some((text[..count].iter().fold(0, add), &text[count..]))
}

fn without_sign(text: &[u8]) -> Option<(i64, &[u8])> {
    let hexadecimal = text.starts_with(b"0x") || text.starts_with(b"0X");
    if hexadecimal {
        if let Some(found) = leading_digits(&text[2..], 16) {
            return Some(found);
        }
    }
    leading_digits(text, if text.starts_with(b"0") { 8 } else { 10 })
}

/// The longest number at the start of a text, and what stands behind it: "decimal, octal after 0, or hexadecimal after 0x or 0X, with
/// optional minus, within signed 32 bits". "A lone 0 is zero."
pub fn leading_number(text: &[u8]) -> Option<(i32, &[u8])> {
    let minus = text.starts_with(b"-");
    let (size, rest) = without_sign(if minus { &text[1..] } else { text })?;
    Some((within_32_bits(if minus { -size } else { size })?, rest))
}

/// A word that is such a number as a whole.
pub fn number_word(word: &[u8]) -> Option<i32> {
    leading_number(word).filter(|(_, rest)| rest.is_empty()).map(|(n, _)| n)
}

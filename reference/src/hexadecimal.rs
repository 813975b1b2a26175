//! Words as 16 lower-case hexadecimal digits, and lines `key=word`.

const DIGITS: &[u8; 16] = b"0123456789abcdef";

/// Number of digits of a word.
pub const WORD_DIGITS: usize = 16;

pub fn word_digits(word: u64) -> [u8; WORD_DIGITS] {
    std::array::from_fn(|place| DIGITS[(word >> (60 - 4 * place) & 15) as usize])
}

/// The word of 16 digits, or nothing where one is no lower-case digit.
fn word(digits: &[u8]) -> Option<u64> {
    digits.iter().try_fold(0, |word, &digit| Some(word << 4 | digit_value(digit)?))
}

fn digit_value(digit: u8) -> Option<u64> {
    match digit {
        b'0'..=b'9' => Some(u64::from(digit - b'0')),
        b'a'..=b'f' => Some(u64::from(digit - b'a') + 10),
        _ => None,
    }
}

/// Number of bytes of the line of `key`.
pub const fn line_length(key: &str) -> usize {
    key.len() + 1 + WORD_DIGITS + 1
}

/// Takes the line of `key` off the start of `text` and gives its word, or
/// nothing where the text does not start with such a line.
pub fn take_line(text: &mut &[u8], key: &str) -> Option<u64> {
    let rest = text.strip_prefix(key.as_bytes())?.strip_prefix(b"=")?;
    let (digits, rest) = rest.split_at_checked(WORD_DIGITS)?;
    *text = rest.strip_prefix(b"\n")?;
    word(digits)
}

/// Puts the line of `key` at the start of `buffer`, which is long enough, and
/// gives what follows it.
pub fn put_line<'a>(buffer: &'a mut [u8], key: &str, word: u64) -> &'a mut [u8] {
    let (line, rest) = buffer.split_at_mut(line_length(key));
    let (name, value) = line.split_at_mut(key.len());
    name.copy_from_slice(key.as_bytes());
    value[0] = b'=';
    value[1..=WORD_DIGITS].copy_from_slice(&word_digits(word));
    value[1 + WORD_DIGITS] = b'\n';
    rest
}

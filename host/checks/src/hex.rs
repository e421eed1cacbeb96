//! Bytes written in hex.

/// Pairs of digits, with spaces and line ends between them and remarks behind `#`.
/// `00*5` is a byte five times.
pub fn bytes(text: &str) -> Option<Vec<u8>> {
    let kept = text
        .lines()
        .map(|line| line.split('#').next().unwrap_or_default());
    let words = kept.flat_map(str::split_whitespace);
    let all: Vec<Vec<u8>> = words.map(word).collect::<Option<_>>()?;
    Some(all.concat())
}

fn word(word: &str) -> Option<Vec<u8>> {
    match word.split_once('*') {
        Some((byte, times)) => Some(pairs(byte)?.repeat(times.parse().ok()?)),
        None => pairs(word),
    }
}

fn pairs(digits: &str) -> Option<Vec<u8>> {
    let digits: Vec<u32> = digits
        .chars()
        .map(|c| c.to_digit(16))
        .collect::<Option<_>>()?;
    let byte = |pair: &[u32]| match pair {
        [high, low] => Some((16 * high + low) as u8),
        _ => None,
    };
    digits.chunks(2).map(byte).collect()
}

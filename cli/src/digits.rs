//! Numbers as rows have them. Rows are mostly numbers, and there may be
//! millions of them: this is quicker than `write!`.

/// A number behind a mark.
pub fn number(mark: u8, mut number: u64, to: &mut Vec<u8>) {
    // Most have one digit.
    if number < 10 {
        to.extend_from_slice(&[mark, b'0' + number as u8]);
        return;
    }
    let mut digits = [b'0'; 21];
    let mut first = digits.len() - 1;
    while number > 9 {
        digits[first] += (number % 10) as u8;
        number /= 10;
        first -= 1;
    }
    digits[first] += number as u8;
    digits[first - 1] = mark;
    to.extend_from_slice(&digits[first - 1..]);
}

#[cfg(test)]
mod tests {
    use super::number;

    #[test]
    fn a_number_stands_behind_its_mark() {
        for value in [0, 9, 10, 99, 100, 65_536, 1_000_000_007, u64::MAX] {
            let mut text = b"before".to_vec();
            number(b',', value, &mut text);
            assert_eq!(String::from_utf8_lossy(&text), format!("before,{value}"));
        }
    }
}

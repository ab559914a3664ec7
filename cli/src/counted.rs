//! Numbers as people read them.

/// A number with its thousands apart: 65,536.
pub fn grouped(number: u64) -> String {
    let digits = number.to_string();
    let mut text = String::new();
    for (i, digit) in digits.chars().enumerate() {
        if i > 0 && (digits.len() - i).is_multiple_of(3) {
            text.push(',');
        }
        text.push(digit);
    }
    text
}

/// A count and what is counted: `1 row`, `2 rows`.
pub fn of(number: u64, one: &str) -> String {
    let plural = if number == 1 { "" } else { "s" };
    format!("{} {one}{plural}", grouped(number))
}

/// A number in at most eleven characters: from a thousand million on in
/// three digits and G, T, P or E for the thousands that follow, rounded down.
pub fn short(number: u64) -> String {
    if number < 1_000_000_000 {
        return grouped(number);
    }
    let units = [(18, 'E'), (15, 'P'), (12, 'T'), (9, 'G')];
    let of = |(power, _): &(u32, char)| number >= 10u64.pow(*power);
    let (power, letter) = units.into_iter().find(of).unwrap_or((9, 'G'));
    let whole = number / 10u64.pow(power);
    let hundredths = number / 10u64.pow(power - 2) % 100;
    match whole {
        0..10 => format!("{whole}.{hundredths:02} {letter}"),
        10..100 => format!("{whole}.{} {letter}", hundredths / 10),
        _ => format!("{whole} {letter}"),
    }
}

#[cfg(test)]
mod tests {
    use super::{grouped, of, short};

    #[test]
    fn large_numbers_are_shortened() {
        for (number, text) in [
            (0, "0"),
            (999_999_999, "999,999,999"),
            (1_000_000_000, "1.00 G"),
            (12_399_999_999, "12.3 G"),
            (999_999_999_999, "999 G"),
            (1_069_000_000_000, "1.06 T"),
            (u64::MAX, "18.4 E"),
        ] {
            assert_eq!(short(number), text);
        }
    }

    #[test]
    fn thousands_stand_apart() {
        assert_eq!(grouped(0), "0");
        assert_eq!(grouped(999), "999");
        assert_eq!(grouped(65_536), "65,536");
        assert_eq!(grouped(u64::MAX), "18,446,744,073,709,551,615");
        assert_eq!(of(1, "row"), "1 row");
        assert_eq!(of(1_024, "sequence"), "1,024 sequences");
    }
}

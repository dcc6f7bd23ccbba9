//! Numbers as people write them.

/// A count: digits, `_` or `,` between them, and K, M or G for thousands, millions, thousand millions.
pub fn count(text: &str) -> Result<u64, String> {
    let wrong = || {
        format!("'{text}' is no count; write digits, with K, M or G behind them for 1,000, 1,000,000 or 1,000,000,000")
    };
    let (digits, unit) = match text.char_indices().last() {
        Some((at, 'K' | 'k')) => (&text[..at], 1_000),
        Some((at, 'M' | 'm')) => (&text[..at], 1_000_000),
        Some((at, 'G' | 'g')) => (&text[..at], 1_000_000_000),
        _ => (text, 1),
    };
    let digits = digits.replace(['_', ','], "");
    if digits.is_empty() || !digits.bytes().all(|byte| byte.is_ascii_digit()) {
        return Err(wrong());
    }
    let number: Option<u64> = digits.parse().ok();
    number.and_then(|number| number.checked_mul(unit)).ok_or(format!("'{text}' is more than can be counted"))
}

/// A word in hex, with 0x or without.
pub fn word(text: &str) -> Result<u32, String> {
    let digits = text.strip_prefix("0x").or(text.strip_prefix("0X")).unwrap_or(text);
    let good = !digits.is_empty() && digits.len() <= 8 && digits.bytes().all(|byte| byte.is_ascii_hexdigit());
    u32::from_str_radix(digits, 16)
        .ok()
        .filter(|_| good)
        .ok_or(format!("'{text}' is no word in hex; write one to eight hex digits, as in 000002E4"))
}

/// 1234567 as 1,234,567.
pub fn grouped(number: u64) -> String {
    let digits = number.to_string();
    let mut out = String::new();
    for (k, digit) in digits.chars().enumerate() {
        if k > 0 && (digits.len() - k) % 3 == 0 {
            out.push(',');
        }
        out.push(digit);
    }
    out
}

#[cfg(test)]
mod tests {
    use super::*;

    #[test]
    fn counts() {
        assert_eq!(count("1G"), Ok(1_000_000_000));
        assert_eq!(count("16_384"), Ok(16_384));
        for wrong in ["", "K", "-1", "1.5M", "0x10", "1GG", "é", "20000000000G"] {
            assert!(count(wrong).is_err(), "{wrong}");
        }
    }

    #[test]
    fn words() {
        assert_eq!(word("2E4"), Ok(0x2E4));
        assert_eq!(word("0x8000ABCD"), Ok(0x8000_ABCD));
        for wrong in ["", "0x", "123456789", "+1", "g", "1 2"] {
            assert!(word(wrong).is_err(), "{wrong}");
        }
    }

    #[test]
    fn groups() {
        assert_eq!(grouped(0), "0");
        assert_eq!(grouped(1_000_000_000), "1,000,000,000");
        assert_eq!(grouped(123), "123");
    }
}

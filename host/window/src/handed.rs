//! Scripts as the fragments by which they are handed on.

/// Returns the script in a fragment: its text in UTF-8 in base64url, without padding.
pub fn script(fragment: &str) -> Option<String> {
    String::from_utf8(decoded(fragment.as_bytes())?).ok()
}

fn decoded(digits: &[u8]) -> Option<Vec<u8>> {
    let mut bytes = Vec::new();
    for group in digits.chunks(4) {
        let mut bits = 0_u32;
        for at in 0..4 {
            let six = group.get(at).map_or(Some(0), |digit| value(*digit))?;
            bits = bits << 6 | six;
        }
        let [_, first, second, third] = bits.to_be_bytes();
        let count = group.len().checked_sub(1).filter(|count| *count > 0)?;
        let all = [first, second, third];
        let (whole, rest) = all.split_at_checked(count)?;
        // (a text has one fragment: bits that encode nothing are 0)
        if rest.iter().any(|byte| *byte != 0) {
            return None;
        }
        bytes.extend_from_slice(whole);
    }
    Some(bytes)
}

fn value(digit: u8) -> Option<u32> {
    Some(u32::from(match digit {
        b'A'..=b'Z' => digit - b'A',
        b'a'..=b'z' => digit - b'a' + 26,
        b'0'..=b'9' => digit - b'0' + 52,
        b'-' => 62,
        b'_' => 63,
        _ => return None,
    }))
}

#[cfg(test)]
mod tests {
    use super::script;

    #[test]
    fn fragments_are_scripts() {
        for (fragment, text) in [("", ""), ("Zg", "f"), ("Zm8", "fo"), ("Zm9v", "foo")] {
            assert_eq!(script(fragment).as_deref(), Some(text), "{fragment}");
        }
        assert_eq!(script("w6nigqw").as_deref(), Some("é€"));
        assert_eq!(script("Pz8_Pj4-").as_deref(), Some("???>>>"));
        for wrong in ["Z", "Zh", "Zg==", "Zm9vZ", "Zm 9v", "_w"] {
            assert_eq!(script(wrong), None, "{wrong}");
        }
    }
}

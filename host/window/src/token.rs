//! Random numbers from the system.
use std::fs::File;
use std::io::{self, Read};

/// Returns 128 random bits, as 32 hexadecimal digits.
pub fn token() -> io::Result<String> {
    let mut bytes = [0; 16];
    File::open("/dev/urandom")?.read_exact(&mut bytes)?;
    Ok(bytes.iter().map(|byte| format!("{byte:02x}")).collect())
}

/// Compares a token in a time that doesn't depend on where the two differ.
pub fn is_same(token: &str, given: &str) -> bool {
    let different = token.bytes().zip(given.bytes()).fold(0, |sum, (one, other)| sum | (one ^ other));
    token.len() == given.len() && different == 0
}

#[cfg(test)]
mod tests {
    use super::*;

    #[test]
    fn tokens_differ() -> io::Result<()> {
        let (one, other) = (token()?, token()?);
        assert_eq!(one.len(), 32);
        assert!(one.bytes().all(|byte| byte.is_ascii_hexdigit()));
        assert!(is_same(&one, &one) && !is_same(&one, &other));
        assert!(!is_same(&one, "") && !is_same(&one, &one[1..]) && !is_same(&one, &format!("{one}0")));
        Ok(())
    }
}

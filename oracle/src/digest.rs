//! FNV-1a over 32 bits: a short witness of a large state.

/// The digest of what has been put in so far.
pub struct Digest(u32);

impl Digest {
    pub fn new() -> Self {
        Self(0x811C_9DC5)
    }

    pub fn bytes(mut self, bytes: &[u8]) -> Self {
        for byte in bytes {
            self.0 = (self.0 ^ u32::from(*byte)).wrapping_mul(0x0100_0193);
        }
        self
    }

    /// Each word as its four bytes, highest first.
    pub fn words(self, words: &[u32]) -> Self {
        words
            .iter()
            .fold(self, |digest, word| digest.bytes(&word.to_be_bytes()))
    }

    pub fn value(&self) -> u32 {
        self.0
    }
}

impl Default for Digest {
    fn default() -> Self {
        Self::new()
    }
}

#[cfg(test)]
mod tests {
    use super::Digest;

    #[test]
    fn known_values() {
        assert_eq!(Digest::new().value(), 0x811C_9DC5);
        assert_eq!(Digest::new().bytes(b"a").value(), 0xE40C_292C);
        assert_eq!(
            Digest::new().words(&[0x666F_6F62]).bytes(b"ar").value(),
            0xBF9C_F968
        );
    }
}

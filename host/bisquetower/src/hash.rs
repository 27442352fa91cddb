//! The name of a change.

use std::borrow::Borrow;
use std::fmt;
use std::str::FromStr;

pub(crate) use crate::limits::HASH_SIZE as HASH;

/// The hash of a change, by which it is named everywhere.
///
/// ```
/// use bisquetower::ChangeHash;
///
/// let hash = ChangeHash::from([0xab; 32]);
/// assert_eq!(hash.as_ref(), [0xab; 32]);
/// assert_eq!(ChangeHash::try_from(&[0xab; 32][..]), Ok(hash));
/// assert_eq!(hash.to_string(), "ab".repeat(32));
/// assert_eq!("ab".repeat(32).parse(), Ok(hash));
/// assert!("ab".parse::<ChangeHash>().is_err());
/// ```
#[derive(Clone, Copy, Default, PartialEq, Eq, PartialOrd, Ord, Hash)]
pub struct ChangeHash(pub [u8; HASH]);

/// What isn't a hash: other than 32 bytes, or text other than 64 hexadecimal digits.
#[derive(Clone, Copy, Debug, PartialEq, Eq)]
pub struct NotAHash;

impl ChangeHash {
    /// Its bytes.
    pub fn as_bytes(&self) -> &[u8] {
        &self.0
    }
}

impl fmt::Display for ChangeHash {
    fn fmt(&self, f: &mut fmt::Formatter<'_>) -> fmt::Result {
        self.0.iter().try_for_each(|byte| write!(f, "{byte:02x}"))
    }
}

impl fmt::Debug for ChangeHash {
    fn fmt(&self, f: &mut fmt::Formatter<'_>) -> fmt::Result {
        write!(f, "ChangeHash({self})")
    }
}

impl AsRef<[u8]> for ChangeHash {
    fn as_ref(&self) -> &[u8] {
        &self.0
    }
}

impl From<[u8; HASH]> for ChangeHash {
    fn from(bytes: [u8; HASH]) -> Self {
        ChangeHash(bytes)
    }
}

impl From<ChangeHash> for [u8; HASH] {
    fn from(hash: ChangeHash) -> Self {
        hash.0
    }
}

impl TryFrom<&[u8]> for ChangeHash {
    type Error = NotAHash;

    fn try_from(bytes: &[u8]) -> Result<Self, NotAHash> {
        bytes.try_into().map(ChangeHash).map_err(|_| NotAHash)
    }
}

impl FromStr for ChangeHash {
    type Err = NotAHash;

    fn from_str(text: &str) -> Result<Self, NotAHash> {
        let digits = text.as_bytes();
        if digits.len() != 2 * HASH || !digits.iter().all(u8::is_ascii_hexdigit) {
            return Err(NotAHash);
        }
        let mut hash = [0; HASH];
        for (byte, k) in hash.iter_mut().zip((0..).step_by(2)) {
            *byte = u8::from_str_radix(&text[k..k + 2], 16).map_err(|_| NotAHash)?;
        }
        Ok(ChangeHash(hash))
    }
}

impl fmt::Display for NotAHash {
    fn fmt(&self, f: &mut fmt::Formatter<'_>) -> fmt::Result {
        let digits = 2 * HASH;
        write!(f, "a hash is {HASH} bytes, or {digits} hexadecimal digits")
    }
}

impl std::error::Error for NotAHash {}

/// Hashes one after the other, as the calls take them.
pub(crate) fn bytes_of<H: Borrow<ChangeHash>>(hashes: impl IntoIterator<Item = H>) -> Vec<u8> {
    let each = hashes.into_iter();
    each.flat_map(|hash| hash.borrow().0).collect()
}

/// The hashes that stand one after the other; a part of one at the end is none.
pub(crate) fn hashes_in(bytes: &[u8]) -> Vec<ChangeHash> {
    let each = bytes.chunks_exact(HASH);
    each.map(|hash| ChangeHash(hash.try_into().expect("so long")))
        .collect()
}

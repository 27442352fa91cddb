//! Stand-ins for the crate's `ChangeHash` and `ActorId`. A hash is 32 bytes that
//! compare as bytes; that it is the SHA-256 of a change is the host's matter.

use serde::{Serialize, Serializer};

/// The bytes of a hash.
pub const HASH_SIZE: usize = 32;

#[derive(Clone, Copy, PartialEq, Eq, PartialOrd, Ord, Hash)]
pub struct ChangeHash(pub [u8; HASH_SIZE]);

impl ChangeHash {
    pub fn as_bytes(&self) -> &[u8] {
        &self.0
    }
}

impl std::fmt::Debug for ChangeHash {
    fn fmt(&self, f: &mut std::fmt::Formatter<'_>) -> std::fmt::Result {
        self.0.iter().try_for_each(|byte| write!(f, "{byte:02x}"))
    }
}

impl TryFrom<&[u8]> for ChangeHash {
    type Error = std::array::TryFromSliceError;

    fn try_from(bytes: &[u8]) -> Result<Self, Self::Error> {
        bytes.try_into().map(ChangeHash)
    }
}

impl Serialize for ChangeHash {
    fn serialize<S: Serializer>(&self, serializer: S) -> Result<S::Ok, S::Error> {
        self.0.as_slice().serialize(serializer)
    }
}

/// Named by a parser that sync doesn't call.
#[derive(Clone, Debug, PartialEq, Eq)]
pub struct ActorId(Vec<u8>);

impl From<&[u8]> for ActorId {
    fn from(bytes: &[u8]) -> Self {
        ActorId(bytes.to_vec())
    }
}

//! The version and the flags of a message.

/// How a message carries changes: each as a chunk, or all of them, or the document,
/// as one.
#[derive(Clone, Copy, Debug, Default, PartialEq, Eq, Hash)]
pub enum MessageVersion {
    /// First byte 42, hexadecimal.
    #[default]
    V1,
    /// First byte 43, hexadecimal.
    V2,
}

impl MessageVersion {
    /// As the calls take it.
    pub(crate) fn number(self) -> u64 {
        match self {
            MessageVersion::V1 => 1,
            MessageVersion::V2 => 2,
        }
    }

    pub(crate) fn of(number: u64) -> Self {
        match number {
            2 => MessageVersion::V2,
            _ => MessageVersion::V1,
        }
    }
}

/// What a message says of its sender and asks of its reader, in single bits.
#[derive(Clone, Copy, Debug, Default, PartialEq, Eq, Hash)]
pub struct MessageFlags(pub(crate) u8);

impl MessageFlags {
    /// The reader is to forget what it sent.
    pub const SYNC_RESET: u8 = 1 << 0;
    /// The sender takes no changes.
    pub const READ_ONLY: u8 = 1 << 1;
    /// The sender understands [`SYNC_RESET`](Self::SYNC_RESET).
    pub const SUPPORTS_SYNC_RESET: u8 = 1 << 2;

    /// None of them.
    pub fn new() -> Self {
        Self::default()
    }

    /// Whether some bit of `flag` is set.
    pub fn contains(self, flag: u8) -> bool {
        self.0 & flag != 0
    }

    /// Sets the bits of `flag`.
    pub fn set(&mut self, flag: u8) {
        self.0 |= flag;
    }

    /// The bits as they stand.
    pub fn bits(self) -> u8 {
        self.0
    }
}

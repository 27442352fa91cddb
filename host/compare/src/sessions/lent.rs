//! A session as it is lent to a call: words, and the lists that they count in.

use crate::inputs::selection::lend;
use crate::inputs::Random;
use crate::model::session::{laid, Value};
use crate::model::state::{Lists, WORDS};
use crate::model::table::Hash;
use crate::model::Refused;

#[derive(Clone, Debug, Default, PartialEq, Eq)]
pub struct Lent {
    pub words: [u64; WORDS],
    pub shared: Vec<u8>,
    pub last_sent: Vec<u8>,
    pub their_heads: Vec<u8>,
    pub their_need: Vec<u8>,
    pub haves: Vec<u64>,
    pub bytes: Vec<u8>,
    pub sent: Vec<u8>,
}

impl Lent {
    /// As calls leave it: haves from the start of their bytes, and no item more.
    pub fn laid(value: &Value) -> Lent {
        let bytes_of = |list: &Option<Vec<Hash>>| list.as_deref().unwrap_or_default().concat();
        let (haves, bytes) = laid(value.their_have.as_deref().unwrap_or_default());
        Lent {
            words: value.counts().words(),
            shared: value.shared.concat(),
            last_sent: value.last_sent.concat(),
            their_heads: bytes_of(&value.their_heads),
            their_need: bytes_of(&value.their_need),
            haves,
            bytes,
            sent: value.sent_bytes(),
        }
    }

    /// A session in another guise: its haves anywhere, yes as any number, and
    /// a count where there is no list.
    pub fn in_guise(value: &Value, random: &mut Random) -> Lent {
        let mut lent = Lent::laid(value);
        (lent.bytes, lent.haves) = lend(value.their_have.as_deref().unwrap_or_default(), random);
        for flag in [2, 4, 6].into_iter().chain(9..WORDS) {
            if lent.words[flag] == 1 && random.one_in(4) {
                lent.words[flag] = 1 + random.number() / 2;
            }
        }
        for count in [3, 5, 7] {
            if lent.words[count - 1] == 0 && random.one_in(4) {
                lent.words[count] = random.number();
            }
        }
        lent
    }

    pub fn lists(&self) -> Lists<'_> {
        Lists {
            shared: &self.shared,
            last_sent: &self.last_sent,
            their_heads: &self.their_heads,
            their_need: &self.their_need,
            haves: &self.haves,
            bytes: &self.bytes,
            sent: &self.sent,
        }
    }

    /// The session; 10 if it is none.
    pub fn value(&self) -> Result<Value, Refused> {
        Value::of(&self.words, &self.lists())
    }
}

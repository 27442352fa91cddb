//! Filters over changes.

use crate::hash::{bytes_of, ChangeHash, HASH};
use crate::refusal::{answer, Refusal};
use crate::{explain, raw, room};
use std::borrow::Borrow;

/// Bits per entry and probes of filters for which no others are told.
pub(crate) const BITS_PER_ENTRY: u32 = 10;
pub(crate) const PROBES: u32 = 7;

/// Room for a filter's three numbers.
const NUMBERS: usize = 16;

/// A set of changes in some ten bits each. It never says no to one that was put in,
/// and yes to about one in a hundred that wasn't.
///
/// ```
/// use bisquetower::{ChangeHash, Filter};
///
/// let (a, b) = (ChangeHash([1; 32]), ChangeHash([2; 32]));
/// let filter = Filter::from_hashes([a])?;
/// assert!(filter.contains_hash(&a) && !filter.contains_hash(&b));
/// assert_eq!(Filter::parse(&filter.to_bytes())?, filter);
///
/// // A filter with entries and no bits for them.
/// assert_eq!(Filter::parse(&[1, 0, 7]).unwrap_err().number, 5);
/// # Ok::<(), bisquetower::Refusal>(())
/// ```
#[doc(alias = "BloomFilter")]
#[derive(Clone, Debug, PartialEq, Eq, Hash)]
pub struct Filter {
    pub(crate) entries: u64,
    pub(crate) bits: u64,
    pub(crate) probes: u64,
    pub(crate) field: Vec<u8>,
}

impl Default for Filter {
    /// The filter of no bytes: without entries, it contains nothing.
    fn default() -> Self {
        Filter {
            entries: 0,
            bits: BITS_PER_ENTRY.into(),
            probes: PROBES.into(),
            field: Vec::new(),
        }
    }
}

impl Filter {
    /// The filter of these hashes, with 10 bits for each and 7 probes: refusal 4 for more
    /// hashes than a list has. A slice of hashes does, and so does an iterator.
    pub fn from_hashes<H: Borrow<ChangeHash>>(
        hashes: impl IntoIterator<Item = H>,
    ) -> Result<Filter, Refusal> {
        Filter::with(BITS_PER_ENTRY, PROBES, hashes)
    }

    /// The filter of these hashes with other bits per entry and probes: refusal 10 if
    /// these aren't a filter's, 4 for more hashes than a list has.
    pub fn with<H: Borrow<ChangeHash>>(
        bits: u32,
        probes: u32,
        hashes: impl IntoIterator<Item = H>,
    ) -> Result<Filter, Refusal> {
        let (bits, probes) = (bits.into(), probes.into());
        let lent = bytes_of(hashes);
        let (room, entries) = (lent.len(), lent.len() / HASH);
        let field = room::written(room, |field| raw::build_filter(bits, probes, &lent, field));
        let field = field.map_err(|why| explain::building(entries, bits, probes, why))?;
        Ok(Filter {
            entries: entries as u64,
            bits,
            probes,
            field,
        })
    }

    /// The filter of these numbers over a field: refusal 10 if they break a filter's
    /// rules or the field has another size.
    pub fn from_parts(
        entries: u64,
        bits: u64,
        probes: u64,
        field: &[u8],
    ) -> Result<Filter, Refusal> {
        let filter = Filter {
            entries,
            bits,
            probes,
            field: field.to_vec(),
        };
        // Writing it is what tests the numbers.
        match filter.written() {
            Ok(_) => Ok(filter),
            Err(refusal) => Err(explain::parts(&filter, refusal)),
        }
    }

    /// Reads a filter; what stands after its field is ignored.
    pub fn parse(bytes: &[u8]) -> Result<Filter, Refusal> {
        Filter::parse_first(bytes).map(|(filter, _)| filter)
    }

    /// Reads a filter, and tells the place after it.
    pub fn parse_first(bytes: &[u8]) -> Result<(Filter, usize), Refusal> {
        let (filter, ignored) = Filter::parse_counted(bytes)?;
        Ok((filter, bytes.len() - ignored))
    }

    /// Reads a filter, and tells how many bytes stand behind its field and are ignored.
    ///
    /// ```
    /// use bisquetower::Filter;
    ///
    /// let (filter, ignored) = Filter::parse_counted(b"\x01\x0a\x07\x0b\x0fmore")?;
    /// assert_eq!((filter.num_entries(), ignored), (1, 4));
    /// // None of these bytes is written back.
    /// assert_eq!(Filter::parse_counted(&filter.to_bytes())?, (filter, 0));
    /// # Ok::<(), bisquetower::Refusal>(())
    /// ```
    pub fn parse_counted(bytes: &[u8]) -> Result<(Filter, usize), Refusal> {
        let read = answer(raw::read_filter(bytes, 0, bytes.len()));
        let [entries, bits, probes, place, length, _, ignored] =
            read.map_err(|refusal| explain::filter(bytes, refusal))?;
        let filter = Filter {
            entries,
            bits,
            probes,
            field: bytes[place as usize..][..length as usize].to_vec(),
        };
        Ok((filter, ignored as usize))
    }

    /// Its bytes; none if it has no entries.
    pub fn to_bytes(&self) -> Vec<u8> {
        self.written()
            .expect("a filter that was built or read is good")
    }

    fn written(&self) -> Result<Vec<u8>, Refusal> {
        let Filter {
            entries,
            bits,
            probes,
            field,
        } = self;
        let room = field.len() + NUMBERS;
        room::written(room, |out| {
            raw::write_filter(*entries, *bits, *probes, field, out)
        })
    }

    /// Whether it says yes to a hash.
    pub fn contains_hash(&self, hash: &ChangeHash) -> bool {
        self.contains_hashes(&[*hash])[0]
    }

    /// Whether it says yes to each of these hashes.
    pub fn contains_hashes(&self, hashes: &[ChangeHash]) -> Vec<bool> {
        let have = [
            0,
            0,
            self.entries,
            self.bits,
            self.probes,
            0,
            self.field.len() as u64,
        ];
        let mut answers = vec![[raw::UNWRITTEN; 4]; hashes.len()];
        let mut batch = raw::Batch::new();
        for (hash, answer) in hashes.iter().zip(&mut answers) {
            batch.filters_contain(&self.field, &have, hash.as_bytes(), answer);
        }
        batch.run();
        let contained = |words: [u64; 4]| {
            let [contained, ..] = answer(words).expect("a good filter and a hash");
            contained != 0
        };
        answers.into_iter().map(contained).collect()
    }

    /// How many hashes were put in.
    pub fn num_entries(&self) -> u64 {
        self.entries
    }

    /// How many bits the field has for each.
    pub fn num_bits_per_entry(&self) -> u64 {
        self.bits
    }

    /// How many bits are looked at for a hash.
    pub fn num_probes(&self) -> u64 {
        self.probes
    }

    /// The bit field.
    pub fn bits(&self) -> &[u8] {
        &self.field
    }
}

impl TryFrom<&[u8]> for Filter {
    type Error = Refusal;

    fn try_from(bytes: &[u8]) -> Result<Filter, Refusal> {
        Filter::parse(bytes)
    }
}

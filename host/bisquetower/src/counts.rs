//! Counts of captured filters, and their totals.

use crate::refusal::{answer, Refusal};
use crate::{explain, raw, Filter, Table};

/// What is counted, in the order of the call's words.
pub(crate) const NAMES: [&str; 5] = [
    "entries",
    "field bits",
    "set bits",
    "tested rows",
    "contained rows",
];

/// What a captured filter did: whole numbers over the filter, the change table of the unit
/// that sent it and that of the unit that heard it.
///
/// A row of the listener's that isn't in the sender's table is tested: the filter should say
/// no to it. Where it says yes the listener takes the row for held, and keeps it back (a
/// false yes).
///
/// ```
/// use bisquetower::{Captured, ChangeHash, Counts, Filter, Table, Totals};
///
/// // The validator holds two rows and says so; the station holds these and 300 more.
/// let hash = |n: u16| {
///     let mut hash = [0; 32];
///     for (k, two) in hash.chunks_mut(2).enumerate() {
///         let word = n.wrapping_add(k as u16).wrapping_mul(40_503);
///         two.copy_from_slice(&(word ^ word >> 7).to_le_bytes());
///     }
///     ChangeHash(hash)
/// };
/// let table = |rows: u16| Table::from_changes((0..rows).map(|n| (hash(n), vec![])));
/// let (validator, station) = (table(2)?, table(302)?);
/// let filter = Filter::with(4, 2, validator.hashes())?;
/// let counts = Counts::of(&validator, &station, &filter);
/// assert_eq!((counts.entries, counts.field_bits), (2, 8));
/// let (contained, tested) = counts.share();
/// assert_eq!(tested, 300);
/// assert!(contained > 0 && counts.set_bits <= 4);
///
/// // The same of the bytes that were captured, which may be bad: the part is told.
/// let (sender, listener) = (validator.as_bytes(), station.as_bytes());
/// assert_eq!(Counts::of_capture(sender, listener, &filter.to_bytes())?, counts);
/// let cut = Counts::of_capture(sender, &listener[..300], &[1, 0, 7]).unwrap_err();
/// assert_eq!((cut.number, cut.value), (6, 1));
/// assert_eq!(cut.sentence(), "row 1 of the listener's table is cut: it has 44 of 256 bytes");
/// assert_eq!(cut.cause().unwrap().captured(), Some(Captured::Listener));
///
/// // Totals over a night.
/// let mut night = Totals::new();
/// night.add(&counts)?;
/// night.add(&counts)?;
/// assert_eq!(night.counts().share(), (2 * contained, 600));
/// # Ok::<(), bisquetower::Refusal>(())
/// ```
#[derive(Clone, Copy, Debug, Default, PartialEq, Eq, Hash)]
pub struct Counts {
    /// Hashes that were put into the filter, as it says.
    pub entries: u64,
    /// Bits of its field: 8 for each byte, so that bits which the entries don't ask for
    /// count too.
    pub field_bits: u64,
    /// How many of them are set.
    pub set_bits: u64,
    /// Rows of the listener's table that aren't in the sender's.
    pub tested: u64,
    /// How many of these the filter contains nevertheless.
    pub contained: u64,
}

impl Counts {
    /// Counts a capture: the bytes of the sender's table, of the listener's and of the
    /// filter that was sent. Bytes behind the filter's field are ignored, and no bytes are a
    /// filter without entries. What is bad is refused as tables and filters are, the sender's
    /// table first, then the listener's; which part it is,
    /// [`Cause::captured`](crate::Cause::captured) says.
    pub fn of_capture(sender: &[u8], listener: &[u8], filter: &[u8]) -> Result<Counts, Refusal> {
        let counted = answer(raw::count_capture(sender, listener, filter));
        let [counts @ .., _, _] =
            counted.map_err(|refusal| explain::capture(sender, listener, filter, refusal))?;
        Ok(Counts::of_words(counts))
    }

    /// Counts a capture of good parts.
    pub fn of(sender: &Table, listener: &Table, filter: &Filter) -> Counts {
        let counted =
            Counts::of_capture(sender.as_bytes(), listener.as_bytes(), &filter.to_bytes());
        counted.expect("two good tables and a good filter")
    }

    /// The share of false yeses, as two whole numbers: rows that are contained, of those
    /// that are tested.
    pub fn share(&self) -> (u64, u64) {
        (self.contained, self.tested)
    }

    fn of_words([entries, field_bits, set_bits, tested, contained]: [u64; 5]) -> Counts {
        Counts {
            entries,
            field_bits,
            set_bits,
            tested,
            contained,
        }
    }

    /// In the order of the call's words.
    pub(crate) fn words(&self) -> [u64; 5] {
        [
            self.entries,
            self.field_bits,
            self.set_bits,
            self.tested,
            self.contained,
        ]
    }
}

/// The sums of captures' counts. Captures may be added in any order.
///
/// ```
/// use bisquetower::{Counts, Totals};
///
/// let mut totals = Totals::from(Counts { entries: u64::MAX, ..Counts::default() });
/// let full = totals.add(&Counts { entries: 1, tested: 5, ..Counts::default() }).unwrap_err();
/// assert_eq!(full.to_string(), "refusal 16, value 0: the total of entries would pass 64 bits");
/// assert_eq!(totals.counts().tested, 0);
/// ```
#[derive(Clone, Copy, Debug, Default, PartialEq, Eq, Hash)]
pub struct Totals(Counts);

impl Totals {
    /// Of no capture.
    pub fn new() -> Totals {
        Totals::default()
    }

    /// Adds what was counted of a capture: refusal 16 where a total would pass 64 bits, and
    /// then every total is as it was.
    pub fn add(&mut self, counts: &Counts) -> Result<(), Refusal> {
        let mut totals = self.0.words();
        let [entries, field_bits, set_bits, tested, contained] = counts.words();
        let added = answer(raw::add_counts(
            &mut totals,
            entries,
            field_bits,
            set_bits,
            tested,
            contained,
        ));
        added.map_err(|refusal| explain::adding(&self.0, counts, refusal))?;
        self.0 = Counts::of_words(totals);
        Ok(())
    }

    /// The sums.
    pub fn counts(&self) -> Counts {
        self.0
    }
}

impl From<Counts> for Totals {
    /// Totals that go on from these.
    fn from(counts: Counts) -> Totals {
        Totals(counts)
    }
}

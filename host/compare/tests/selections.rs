//! Hashes to send: the proved library against the crate and the model, the whole
//! list with its order. `compare::selections` says what is held against what.

#[path = "selections/choice.rs"]
mod choice;
#[path = "selections/digest.rs"]
mod digest;
#[path = "selections/literal.rs"]
mod literal;
#[path = "selections/message.rs"]
mod message;
#[path = "selections/random.rs"]
mod random;
#[path = "selections/refusals.rs"]
mod refusals;

use bisquetower::limits::TO_SEND_SIZE;
use bisquetower::raw;
use compare::inputs::index::index_of;
use compare::inputs::selection::{lend, Case};
use compare::inputs::table::{table_bytes, Row};
use compare::inputs::Random;
use compare::model::have::OwnHave;
use compare::model::table::{Hash, HASH};
use compare::selections::{compare, compare_cases, Selection, Tally};
use compare::tables::Rooms;
use std::ops::Range;

/// As many hashes as there may be to send.
const ROOM: usize = TO_SEND_SIZE;

/// Compares what is chosen in random cases; returns the library's lists as well.
fn random_cases(
    random: &mut Random,
    count: usize,
    rows: Range<usize>,
    haves: Range<usize>,
) -> (Tally, Vec<Vec<u8>>) {
    let cases: Vec<Case> = (0..count)
        .map(|_| random.case(rows.clone(), haves.clone()))
        .collect();
    compare_cases(&cases, random).unwrap_or_else(|disagreement| panic!("{disagreement}"))
}

/// The first two words of the library's answer, after a comparison with the model
/// in buffers around what is wanted.
fn answer(selection: Selection) -> [u64; 2] {
    let around = compare(selection, Rooms::Around);
    around.unwrap_or_else(|disagreement| panic!("{disagreement}"));
    let enough = compare(selection, Rooms::One(ROOM)).expect("compared just now");
    let [first, second, third, fourth] = enough[0];
    assert_eq!([third, fourth], [0, 0]);
    [first, second]
}

/// The hashes that the library chooses; neither model nor crate is asked.
fn chosen(table: &[u8], haves: &[OwnHave], need: &[Hash]) -> Vec<Hash> {
    let (s, records) = lend(haves, &mut Random(1));
    let mut out = vec![0; ROOM];
    let index = index_of(table);
    let answer = raw::hashes_to_send(table, &index, &s, &records, &need.concat(), &mut out);
    assert_eq!(answer[0], 0);
    let hashes = out[..answer[1] as usize].chunks(HASH);
    hashes.map(|hash| hash.try_into().unwrap()).collect()
}

/// A hash that follows `n` in a filter's words and in its bytes.
fn hash(n: u8) -> Hash {
    let mut hash = [n; HASH];
    hash[..3].copy_from_slice(&[n.wrapping_mul(37), n ^ 0x5a, 3]);
    hash
}

/// Rows a; b on a; c on a; d on b and c.
fn diamond() -> (Vec<u8>, [Hash; 4]) {
    let hashes = [0, 1, 2, 3].map(hash);
    let on: [&[usize]; 4] = [&[], &[0], &[0], &[1, 2]];
    let rows = hashes.iter().zip(on).map(|(&hash, on)| Row {
        hash,
        dependencies: on.to_vec(),
    });
    (table_bytes(&rows.collect::<Vec<Row>>()), hashes)
}

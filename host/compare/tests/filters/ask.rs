//! Asking: whether a filter, or one of several, contains a hash.

use crate::{field_of, lists, random_filter, with_field, COUNTS, MOST_BITS};
use bisquetower::limits::{FIELD_SIZE, HASHES, HAVES, LIST_SIZE, PROBES};
use bisquetower::raw;
use compare::filters::Haves;
use compare::inputs::filter::{edges, hash_of};
use compare::inputs::{Random, Seed};
use compare::model::filter::Filter;

/// Compares the answers for these hashes; returns how many are yes.
fn ask(haves: &Haves, hashes: &[[u8; 32]]) -> usize {
    haves
        .compare(hashes)
        .unwrap_or_else(|disagreement| panic!("{disagreement}"))
}

fn whole_hashes(bytes: &[u8]) -> Vec<[u8; 32]> {
    let hashes = bytes.chunks_exact(32);
    hashes
        .map(|hash| hash.try_into().expect("32 bytes"))
        .collect()
}

/// Every hash of lists of none to as many as there may be, asked of the filter that the library built of
/// them, against crate and model: all of them are contained.
#[test]
fn added_hashes_are_contained() {
    let mut random = Random(4);
    for count in COUNTS {
        for (bits, probes) in [(10, 7), (1, 0), (2, 1), (MOST_BITS, 64)] {
            for hashes in lists(count, bits, &mut random) {
                let field = field_of(bits, probes, &hashes);
                let haves = Haves::one(Filter {
                    entries: count as u64,
                    bits,
                    probes,
                    field: &field,
                });
                assert_eq!(ask(&haves, &whole_hashes(&hashes)), count);
            }
        }
    }
}

/// Hashes that weren't added, asked of filters of 10 bits and 7 probes, against
/// crate and model: about one in a hundred is a false yes.
#[test]
fn false_yeses_are_the_crates() {
    let mut random = Random(5);
    let hashes = random.bytes(LIST_SIZE);
    let field = field_of(10, 7, &hashes);
    let haves = Haves::one(Filter {
        entries: HASHES as u64,
        bits: 10,
        probes: 7,
        field: &field,
    });
    let others = whole_hashes(&random.bytes(32 * 50_000));
    let yes = ask(&haves, &others);
    assert!((100..2_000).contains(&yes), "{yes}");
}

/// Hashes with each of their three words at 0, 1, m - 1, m, m + 1 and 2^32 - 1, every
/// number of probes, fields of 1 byte to as many as there may be, against crate and model.
#[test]
fn words_at_the_edges_of_a_field() {
    let mut random = Random(6);
    let mut yes = 0;
    for size in [1, 2, 3, 7, 8, 9, 31, 160, 1_280, FIELD_SIZE - 1, FIELD_SIZE] {
        let m = 8 * size as u32;
        let mut hashes = Vec::new();
        for x in edges(m) {
            for y in edges(m) {
                hashes.extend(edges(m).map(|z| hash_of([x, y, z])));
            }
        }
        let step = if size < 100 { 1 } else { 9 };
        for probes in (0..=PROBES as u64).step_by(step) {
            let field = random.field(size);
            let haves = Haves::one(Filter {
                entries: u64::from(m),
                bits: 1,
                probes,
                field: &field,
            });
            yes += ask(&haves, &hashes);
        }
    }
    assert!(yes > 10_000, "{yes}");
}

/// Two million questions to one to `HAVES` random filters in one list over one
/// buffer, ones without entries among them, against the crate's filters one after
/// the other and against the model.
#[test]
fn random_questions() {
    let seed = Seed::fixed();
    let mut random = seed.random(0);
    let (mut asked, mut yes) = (0, 0);
    while asked < 2_000_000 {
        let count = if random.one_in(3) {
            1
        } else {
            1 + random.below(HAVES)
        };
        let parts: Vec<_> = (0..count).map(|_| random_filter(&mut random)).collect();
        let filters: Vec<Filter> = parts.iter().map(with_field).collect();
        let haves = Haves::new(&filters, random.haves(&filters));
        let hashes: Vec<[u8; 32]> = (0..200)
            .map(|_| {
                let k = random.below(count);
                random.probing(8 * filters[k].field.len().max(1) as u32)
            })
            .collect();
        match haves.compare(&hashes) {
            Ok(some) => yes += some,
            Err(disagreement) => panic!("question {asked}: {disagreement}"),
        }
        asked += hashes.len();
    }
    assert!((200_000..1_800_000).contains(&yes), "{yes}");
}

/// Sixteen filters of which only the last, a middle one or none contains a hash,
/// some without entries, against crate and model: one clear bit ends no more than
/// its own filter.
#[test]
fn the_search_goes_on_after_a_clear_bit() {
    let mut random = Random(7);
    let hashes = random.bytes(32 * 20);
    let yes = field_of(10, 7, &hashes);
    let clear = vec![0; yes.len()];
    let whole = whole_hashes(&hashes);
    for count in 1..=16 {
        for place in 0..=count {
            let filter = |k: usize| Filter {
                entries: if k % 3 == 1 && k != place { 0 } else { 20 },
                bits: 10,
                probes: 7,
                field: match k {
                    _ if k == place => &yes,
                    _ if k % 3 == 1 => &[],
                    _ => &clear,
                },
            };
            let filters: Vec<Filter> = (0..count).map(filter).collect();
            let haves = Haves::new(&filters, random.haves(&filters));
            let expected = if place < count { whole.len() } else { 0 };
            assert_eq!(ask(&haves, &whole), expected, "{place} of {count}");
        }
    }
    // No have at all contains nothing.
    assert_eq!(raw::filters_contain(&[], &[], &whole[0]), [0, 0, 0, 0]);
}

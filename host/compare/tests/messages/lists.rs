//! The two lists that a reader fills: every size, and what stands around the
//! records.

use bisquetower::limits::{CHUNKS, HAVES, HAVES_WORDS};
use compare::inputs::message::{good_messages, Draft};
use compare::inputs::Seed;
use compare::messages::compare_lists;

/// Compares the answers for lists of these sizes; returns their first two words.
fn answers(s: &[u8], rooms: &[[usize; 2]]) -> Vec<[u64; 2]> {
    let answers = compare_lists(s, rooms).unwrap_or_else(|disagreement| panic!("{disagreement}"));
    answers.iter().map(|words| [words[0], words[1]]).collect()
}

/// Two haves and three chunks into lists of every size up to three words too many,
/// against the model: the haves' list is told before the chunks', and neither is
/// touched if one is too short.
#[test]
fn every_size() {
    let filter = vec![1, 10, 7, 0x0b, 0x0f];
    let draft = Draft {
        haves: vec![(vec![[3; 32]], filter), (Vec::new(), Vec::new())],
        chunks: vec![vec![1], vec![2, 3], Vec::new()],
        ..Draft::new()
    };
    let s = draft.bytes();
    let mut rooms = Vec::new();
    for haves in 0..=14 + 3 {
        rooms.extend((0..=6 + 3).map(|chunks| [haves, chunks]));
    }
    for (&[haves, chunks], answer) in rooms.iter().zip(answers(&s, &rooms)) {
        let expected = match (haves, chunks) {
            (..14, _) => [7, 14],
            (_, ..6) => [7, 6],
            _ => [0, 1],
        };
        assert_eq!(answer, expected, "{haves}, {chunks}");
    }
}

/// One word less than is wanted, for one have or chunk and for as many as there
/// may be, against the model.
#[test]
fn one_word_short() {
    for (haves, chunks) in [
        (0, 0),
        (1, 0),
        (0, 1),
        (1, 1),
        (HAVES, 1),
        (1, CHUNKS),
        (HAVES, CHUNKS),
    ] {
        let draft = Draft {
            haves: vec![(Vec::new(), Vec::new()); haves],
            chunks: vec![vec![0x11]; chunks],
            ..Draft::new()
        };
        let s = draft.bytes();
        let (haves, chunks) = (7 * haves, 2 * chunks);
        assert_eq!(answers(&s, &[[haves, chunks]]), [[0, 1]]);
        if haves > 0 {
            let short = answers(&s, &[[haves - 1, chunks], [haves - 1, 0], [0, 0]]);
            assert_eq!(short, [[7, haves as u64]; 3]);
        }
        if chunks > 0 {
            let short = answers(&s, &[[haves, chunks - 1], [haves, 0]]);
            assert_eq!(short, [[7, chunks as u64]; 2]);
        }
    }
}

/// Messages that are refused for what they are, into no room at all, against the
/// model: 7 comes last.
#[test]
fn bad_messages_into_no_room() {
    for good in good_messages() {
        for cut in 0..good.len() {
            let s = &good[..cut];
            let [enough, none] = answers(s, &[[HAVES_WORDS, 300], [0, 0]])[..] else {
                panic!("two answers");
            };
            if enough[0] != 0 {
                assert_eq!(enough, none, "{cut}");
            }
        }
    }
}

/// Random messages into lists of random sizes, against the model.
#[test]
fn random_sizes() {
    let seed = Seed::fixed();
    let mut random = seed.random(0);
    let mut seen = [0; 8];
    for round in 0..5_000 {
        let s = random.message();
        let rooms = [(); 4].map(|()| [random.below(30), random.below(14)]);
        match compare_lists(&s, &rooms) {
            Ok(answers) => answers
                .iter()
                .for_each(|words| seen[words[0] as usize] += 1),
            Err(disagreement) => panic!("round {round}: {disagreement}"),
        }
    }
    assert!(
        seen[0] > 2_000 && seen[7] > 1_000 && seen[1] > 100,
        "{seen:?}"
    );
}

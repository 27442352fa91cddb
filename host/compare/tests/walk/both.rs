//! Both ends have news (02, M-111): pairs of the library and of the crate, beside the model
//! of the exchange.

use compare::inputs::pick::accepted;
use compare::inputs::table::Row;
use compare::inputs::{Random, Seed};
use compare::model::pick::Radio;
use compare::model::plan::{By, Picking};
use compare::model::table::{table, Hash, ROW};
use compare::scaled;
use compare::units::{proved, published};
use compare::walk::both::{
    compare_talks, talk, talk_freely, talk_picked, Exchanges, News, Talked, MANY,
};

/// A talk of two ends.
type Make = fn(&mut Random, &News) -> Option<Talked>;

/// Makes talks of random pairs.
fn talks(random: &mut Random, count: usize, make: Make) -> Exchanges {
    let mut exchanges = Exchanges::default();
    for _ in 0..count {
        let news = random.news();
        exchanges.count(&make(random, &news));
    }
    exchanges
}

/// Makes talks of which nearly all go by list, and of these many take just as many exchanges
/// as they may.
fn many(salt: u64, count: usize, make: Make) {
    let seed = Seed::fixed();
    let exchanges = talks(&mut seed.random(salt), count, make);
    let (talks, longest) = (exchanges.talks(), exchanges.at_the_bound());
    println!("\n{count} pairs, {} left out", exchanges.left_out);
    print!("{exchanges}");
    assert!(5 * talks > 4 * count as u64, "{talks}");
    assert!(8 * longest > talks, "{longest}");
}

/// Pairs of the library, of the crate, and of one each: they say the same.
#[test]
fn random_pairs() {
    many(0, scaled(40, 600), |_, news| compare_talks(proved, news));
}

/// Other numbers at each end and each time.
#[test]
fn random_pairs_by_any() {
    many(1, scaled(40, 400), talk_freely);
}

/// Changes of 0 to 8 bytes, by their hashes, and another budget for each message, in which
/// every change fits: any pick that is accepted goes.
fn talk_in_parts(random: &mut Random, news: &News) -> Option<Talked> {
    let size = |row: &[u8]| u64::from(row[31] % 9);
    talk_picked([proved; 2], news, |_| By::Crate, &mut |bytes, list| {
        let sizes: Vec<u64> = bytes.chunks(ROW).map(size).collect();
        let budget = 8 + random.below(12) as u64;
        let table = table(bytes).expect("a good table");
        let radio = Radio {
            table: &table,
            list,
            sizes: &sizes,
            budget,
        };
        let one_in = 1 + random.below(4);
        let pick = accepted(&radio, || random.one_in(one_in)).concat();
        Picking {
            sizes,
            budget,
            pick,
        }
    })
}

#[test]
fn random_pairs_with_picks() {
    many(2, scaled(40, 300), talk_in_parts);
}

#[test]
fn pairs_of_a_fresh_seed() {
    let seed = Seed::fresh();
    let count = scaled(20, 100);
    talks(&mut seed.random(0), count, |_, news| {
        compare_talks(proved, news)
    });
}

/// Rows of the chain that both ends of a fixed pair hold.
const SHARED: usize = 3;

/// The hash of a row. Where they are alike, a filter of any numbers that has one of them says
/// yes to every other.
fn hash(row: usize, alike: bool) -> Hash {
    let mut hash = [0x11; 32];
    hash[30..].copy_from_slice(&(row as u16).to_be_bytes());
    if !alike {
        for word in hash.chunks_mut(4).take(3) {
            let spread = (row as u32 + 1).wrapping_mul(0x9e37_79b9);
            word.copy_from_slice(&spread.to_le_bytes());
        }
    }
    hash
}

/// A chain that forks: the first speaker lacks the `j` rows of the second's branch, and the
/// second the `k` rows of the first's.
fn forked(shared: usize, j: usize, k: usize, alike: bool) -> News {
    let below = |row: usize| match row {
        0 => Vec::new(),
        row if row == shared + k => vec![shared - 1],
        row => vec![row - 1],
    };
    let row = |row| Row {
        hash: hash(row, alike),
        dependencies: below(row),
    };
    let (both, firsts) = (0..shared, shared..shared + k);
    let seconds = shared + k..shared + k + j;
    News {
        rows: (0..shared + k + j).map(row).collect(),
        held: [
            both.clone().chain(firsts).collect(),
            both.chain(seconds).collect(),
        ],
    }
}

/// What each message names, by the numbers of rows.
fn lists(news: &News, alike: bool) -> Vec<Vec<usize>> {
    let talked = compare_talks(proved, news).expect("lists");
    let number = |named: &Hash| {
        let mut rows = 0..news.rows.len();
        rows.find(|&row| hash(row, alike) == *named).expect("a row")
    };
    let lists = talked.lists.iter();
    lists
        .map(|list| list.iter().map(number).collect())
        .collect()
}

/// Every row is hidden: an exchange brings each end one, from the head down, but for the
/// first. So the bound is reached, whichever end lacks more.
#[test]
fn hidden_chains() {
    for (j, k) in [
        (0, 1),
        (1, 0),
        (1, 1),
        (1, 2),
        (2, 1),
        (5, 9),
        (9, 5),
        (12, 12),
        (40, 3),
    ] {
        let mut expected = vec![vec![], vec![]];
        for from_head in 1..=j.max(k) {
            let of = |rows: usize, end: usize| (from_head <= rows).then(|| end - from_head);
            expected.push(of(k, SHARED + k).into_iter().collect());
            expected.push(of(j, SHARED + k + j).into_iter().collect());
        }
        // The second speaker holds all before the last message where the first lacked less.
        if k > j {
            expected.pop();
        }
        let news = forked(SHARED, j, k, true);
        assert_eq!(lists(&news, true), expected, "{j} and {k}");
    }
}

/// No row is hidden: the second speaker's rows come in the first exchange, and the first
/// speaker's in the second, for it knows nothing of the other before it has heard it.
#[test]
fn chains_in_the_open() {
    let (shared, j, k) = (30, 4, 6);
    let first: Vec<usize> = (shared..shared + k).collect();
    let second: Vec<usize> = (shared + k..shared + k + j).collect();
    let told = |j, k| lists(&forked(shared, j, k, false), false);
    assert_eq!(told(j, k), [vec![], second, first.clone()]);
    assert_eq!(told(0, k), [vec![], vec![], first]);
    assert_eq!(told(j, 0), [vec![], (shared..shared + j).collect()]);
    assert_eq!(told(0, 0), Vec::<Vec<usize>>::new());
}

/// Hundreds of rows that are hidden, at one end and at both.
#[test]
fn long_hidden_chains() {
    for (j, k) in [(MANY, 40), (40, MANY)] {
        let news = forked(SHARED, j, k, true);
        let talked = talk([published, proved], &news, |_| By::Crate).expect("lists");
        assert_eq!(talked.exchanges(), MANY + 1);
    }
}

/// A list that is longer than a third of the rows goes as the document, and nothing is
/// promised; nor to an end without rows.
#[test]
fn documents_are_left_out() {
    assert_eq!(compare_talks(proved, &forked(4, 3, 3, false)), None);
    let mut news = forked(9, 0, 1, true);
    news.held[1].clear();
    assert_eq!(compare_talks(proved, &news), None);
}

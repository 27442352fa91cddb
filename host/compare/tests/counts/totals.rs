//! Totals, up to the end of 64 bits and no further.

use compare::counts::{compare_additions, Addition};
use compare::inputs::Random;
use compare::model::counts::Counts;

fn added(totals: Counts, counts: Counts) -> bool {
    let added = compare_additions(&[Addition { totals, counts }]);
    added.unwrap_or_else(|why| panic!("{why}")) == 1
}

fn library(mut totals: Counts, counts: Counts) -> ([u64; 4], Counts) {
    let [entries, field, set, tested, contained] = counts;
    let answer = bisquetower::raw::add_counts(&mut totals, entries, field, set, tested, contained);
    (answer, totals)
}

#[test]
fn sums_written_out() {
    let five = [1, 20, 300, 4_000, 50_000];
    assert_eq!(library([0; 5], five), ([0; 4], five));
    assert_eq!(library(five, [0; 5]), ([0; 4], five));
    let twice = [2, 40, 600, 8_000, 100_000];
    assert_eq!(library(five, five), ([0; 4], twice));
    let last = [u64::MAX; 5];
    assert_eq!(library(last, [0; 5]), ([0; 4], last));
    assert_eq!(library([0; 5], last), ([0; 4], last));
    assert_eq!(library(last, [0, 0, 1, 0, 0]), ([16, 0, 0, 0], last));
}

/// Each total at its end, alone and with others: the last that there is is reached, one more
/// is refused, and then none of the five is another.
#[test]
fn every_total_at_its_end() {
    let near = |many: u32, k: u64| -> Counts {
        std::array::from_fn(|place| match many >> place & 1 {
            1 => u64::MAX - k,
            _ => 1_000 * k + place as u64,
        })
    };
    for many in 0..32 {
        assert!(added(near(many, 1), [1; 5]));
        assert!(added([1; 5], near(many, 1)));
        assert_eq!(added(near(many, 1), [2; 5]), many == 0);
        for one in 0..5 {
            let mut counts = [0; 5];
            counts[one] = 8;
            let fits = many >> one & 1 == 0;
            assert_eq!(added(near(many, 7), counts), fits);
            let (answer, left) = library(near(many, 7), counts);
            match fits {
                true => assert_eq!(left[one], near(many, 7)[one] + 8),
                false => assert_eq!((answer, left), ([16, 0, 0, 0], near(many, 7))),
            }
        }
    }
}

/// The two halves of every width of number.
#[test]
fn sums_of_every_width() {
    for width in 0..64 {
        let half = 1u64 << width;
        for more in [half - 1, half, half + 1, !half, u64::MAX - half, u64::MAX] {
            for place in 0..5 {
                let [mut totals, mut counts] = [[5; 5]; 2];
                (totals[place], counts[place]) = (half, more);
                assert_eq!(added(totals, counts), half.checked_add(more).is_some());
            }
        }
    }
}

/// Captures that are added in any order have the same totals.
#[test]
fn any_order() {
    let mut random = Random(44);
    let mut captures: Vec<Counts> = (0..40).map(|_| random.counts().map(|n| n >> 8)).collect();
    let sum = |captures: &[Counts]| {
        captures.iter().fold([0; 5], |totals, &counts| {
            let (answer, totals) = library(totals, counts);
            assert_eq!(answer, [0; 4]);
            totals
        })
    };
    let first = sum(&captures);
    for _ in 0..20 {
        for k in (1..captures.len()).rev() {
            captures.swap(k, random.below(k + 1));
        }
        assert_eq!(sum(&captures), first);
    }
}

//! The comparisons at scale: what differs is counted, made small and told, which made-up
//! comparisons show; and a few inputs of every kind, beside the crate and the model.

use compare::inputs::Random;
use compare::scale::case::{Case, Compared, Kind};
use compare::scale::script::compare;
use compare::scale::{run, table, told, Count, Until, KINDS};
use compare::talks::What;
use compare::tally::Tally;
use compare::units::Heard;
use std::time::Duration;

fn made(random: &mut Random) -> Case {
    let rows = random.below(6);
    let bytes = [random.bytes(40), random.bytes(4 * rows)];
    Case::new(bytes, [random.number(), random.number()])
}

/// Differs where a 7 stands among the bytes and the number is 1,000 or more; is apart
/// where the bytes begin with an odd one.
fn differs_at_seven(case: &Case) -> Compared {
    match case.bytes[0].contains(&7) && case.numbers[0] >= 1_000 {
        true => Err("a seven".to_string()),
        false => Ok(case.bytes[0].first().is_some_and(|byte| byte % 2 == 1)),
    }
}

fn panics_on_two_rows(case: &Case) -> Compared {
    assert!(case.bytes[1].len() < 8, "two rows");
    Ok(false)
}

fn agrees(_: &Case) -> Compared {
    Ok(true)
}

const fn kind(name: &'static str, held: fn(&Case) -> Compared) -> Kind {
    Kind {
        name,
        bytes: &[("bytes", 1), ("rows", 4)],
        numbers: &["first", "second"],
        a_round: 50,
        make: made,
        held,
    }
}

const MADE_UP: [Kind; 3] = [
    kind("sevens", differs_at_seven),
    kind("rows", panics_on_two_rows),
    kind("nothing", agrees),
];

/// The counts without the times.
fn counts(kinds: &[Kind], seed: u64, rounds: u64) -> Vec<Count> {
    let mut counts = run(kinds, seed, Until::Rounds(rounds), |_| {});
    counts.iter_mut().for_each(|count| {
        count.took = Duration::ZERO;
    });
    counts
}

#[test]
fn differences_are_counted_and_made_small() {
    let counts = counts(&MADE_UP, 5, 20);
    assert!(counts.iter().all(|count| count.inputs == 1_000));
    let [sevens, rows, nothing] = &counts[..] else {
        panic!("three kinds");
    };
    // One in seven has a seven, and most numbers are large.
    assert!((20..200).contains(&sevens.differences), "{sevens:?}");
    assert!((200..800).contains(&sevens.apart), "{sevens:?}");
    let smallest = Case::new([vec![7], Vec::new()], [1_000, 0]);
    let worst = sevens.worst.as_ref().expect("some differ");
    assert_eq!(worst.case, smallest);
    assert_eq!(worst.why, "a seven");

    let worst = rows.worst.as_ref().expect("some panic");
    assert_eq!(worst.case, Case::new([Vec::new(), vec![0; 8]], [0, 0]));
    assert_eq!(worst.why, "two rows");

    assert_eq!((nothing.apart, nothing.differences), (1_000, 0));
    assert_eq!(nothing.worst, None);
}

/// What is told of a difference makes it come again.
#[test]
fn what_is_told_is_run_again() {
    let all = counts(&MADE_UP, 9, 6);
    let text = told(&MADE_UP, &all, 9);
    let round = |k: usize| all[k].worst.as_ref().expect("some differ").round;
    for (k, name) in [(0, "sevens"), (1, "rows")] {
        let again = format!("SEED=9 ROUNDS={} KIND='{name}'", round(k) + 1);
        assert!(text.contains(&again), "{text}");
        let alone = counts(&MADE_UP[k..k + 1], 9, round(k) + 1);
        assert_eq!(alone[0].worst, all[k].worst);
    }
    assert!(text.contains("  bytes, 1 bytes\n    07\n"), "{text}");
    assert!(
        text.contains("    00 00 00 00\n    00 00 00 00\n"),
        "{text}"
    );
    assert!(!text.contains("nothing"), "{text}");
    let rows = table(&MADE_UP, &all);
    assert_eq!(rows.lines().count(), 2 + MADE_UP.len(), "{rows}");
}

/// A run of hours counts hundreds of millions, and each number stands by itself.
#[test]
fn long_counts_stay_apart() {
    let long = Count {
        inputs: 8_134_780_000,
        apart: 1_607_230_800,
        differences: 1_234_567_890,
        worst: None,
        took: Duration::from_secs(1),
    };
    let rows = table(&MADE_UP[..1], &[long]);
    let all = rows.lines().last().expect("a row for all");
    let cells: Vec<&str> = all.split_whitespace().collect();
    let numbers = [
        "8,134,780,000",
        "1,607,230,800",
        "1,234,567,890",
        "8,134,780,000",
    ];
    assert_eq!(cells[0], "all", "{rows}");
    assert_eq!(cells[1..], numbers, "{rows}");
}

#[test]
fn a_seed_is_a_run() {
    assert_eq!(counts(&MADE_UP, 3, 4), counts(&MADE_UP, 3, 4));
    assert_ne!(counts(&MADE_UP, 3, 4), counts(&MADE_UP, 4, 4));
    assert_ne!(counts(&MADE_UP, 3, 4), counts(&MADE_UP, 3, 5));
    let none = run(&MADE_UP, 3, Until::Time(Duration::ZERO), |_| {});
    assert!(none.iter().all(|count| count.inputs == 0));
}

/// Random bytes are scripts in which everything happens.
#[test]
fn scripts_are_varied() {
    let mut random = Random(1);
    let mut tally = Tally::default();
    for _ in 0..150 {
        let length = 16 + random.below(160);
        for step in compare(&random.bytes(length)) {
            tally.count(match step.what {
                What::Spoke(Some(_)) => "said something",
                What::Spoke(None) => "said nothing",
                What::Heard(Heard::Taken) => "taken",
                What::Heard(Heard::NotLoaded) => "not loaded",
                What::Heard(Heard::NotRead) => "not read",
            });
        }
    }
    tally.has(200, &["said something", "said nothing", "taken"]);
    tally.has(5, &["not loaded", "not read"]);
}

/// A few inputs of every kind.
#[test]
fn every_kind_agrees() {
    let few = |kind: &Kind| Kind {
        a_round: kind.a_round.min(20),
        ..*kind
    };
    let kinds: Vec<Kind> = KINDS.iter().map(few).collect();
    let counts = counts(&kinds, 20_120_047_200, 1);
    let text = told(&kinds, &counts, 20_120_047_200);
    assert!(text.is_empty(), "{text}");
    for (kind, count) in kinds.iter().zip(&counts) {
        assert_eq!(count.inputs, kind.a_round as u64, "{}", kind.name);
    }
}

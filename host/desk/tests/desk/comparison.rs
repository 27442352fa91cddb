//! The comparison with the crate's code, a round of some kinds.

use crate::run;

/// The columns of a kind's row: inputs, apart, differences.
fn counts(shown: &str, kind: &str) -> Vec<u64> {
    let row = shown.lines().find_map(|line| line.strip_prefix(kind));
    let words = row.expect("a row").split_whitespace().take(3);
    let numbers = words.map(|word| word.replace(',', "").parse());
    numbers.map(|number| number.expect("a number")).collect()
}

#[test]
fn a_round_of_some_kinds() {
    let words = [
        "compare",
        "filters read",
        "messages written",
        "--rounds",
        "1",
        "--seed",
        "7",
    ];
    let shown = run(&words).ended(0).out;
    for kind in ["filters read", "messages written"] {
        let [inputs, _, differences] = counts(&shown, kind)[..] else {
            panic!("{shown}")
        };
        assert!(inputs >= 10 && differences == 0, "{shown}");
    }
    assert!(
        shown.contains("seed 7") && !shown.contains("plans"),
        "{shown}"
    );
}

/// One seed has the same inputs each time.
#[test]
fn a_seed_tells_the_inputs() {
    let apart = |seed: &str| {
        let words = ["compare", "filters read", "--rounds", "1", "--seed", seed];
        counts(&run(&words).ended(0).out, "filters read")
    };
    assert_eq!(apart("1"), apart("1"));
}

#[test]
fn wrong_words() {
    run(&["compare", "fares"]).ended(2);
    run(&["compare", "--seconds", "soon"]).ended(2);
    run(&["compare", "--seed", "-1"]).ended(2);
    for option in ["--seconds", "--rounds"] {
        let none = run(&["compare", option, "0"]).ended(2);
        assert!(none.err.contains("wants 1 or more"), "{none:?}");
    }
    run(&["compare", "--seconds", "1", "--rounds", "1"]).ended(2);
}

//! Talks of which nothing is promised. docs/PROTOCOL.md has what was seen.

use compare::inputs::Seed;
use compare::scaled;
use compare::units::proved;
use compare::walk::outside::{talks, Case, CASES, COLUMNS};

/// Every call answers, and what stays apart meets once both units have gone on from
/// their saved states. A lost message alone keeps them apart till then.
#[test]
fn talks_outside_what_is_promised() {
    let seed = Seed::fixed();
    let mut random = seed.random(0);
    println!("\n{:>14}{COLUMNS}", "");
    for case in CASES {
        let seen = talks(proved, &mut random, case, scaled(40, 2_000));
        println!("{:>14}{seen}", format!("{case:?}"));
        assert_eq!(seen.same_later, seen.talks);
        assert!(case == Case::Lost || seen.same == seen.talks);
    }
}

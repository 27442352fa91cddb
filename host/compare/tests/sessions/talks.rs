//! Units of the library that talk with each other and with the crate's, message for
//! message as two of the crate do.

use compare::inputs::Seed;
use compare::scaled;
use compare::talks::{scripts, talks, talks_by};
use compare::units::proved;

#[test]
fn random_talks() {
    let seed = Seed::fixed();
    let steps = talks(proved, &mut seed.random(0), scaled(200, 2_000), 24);
    println!("{steps} steps");
    assert!(steps > scaled(8_000, 80_000), "{steps}");
}

#[test]
fn random_scripts() {
    let seed = Seed::fixed();
    let steps = scripts(proved, &mut seed.random(1), scaled(200, 2_000), 12);
    println!("{steps} steps");
    assert!(steps > scaled(8_000, 80_000), "{steps}");
}

/// By numbers that are others at each end and each time, beside two units of the model.
#[test]
fn random_talks_by_settings() {
    let seed = Seed::fixed();
    let steps = talks_by(proved, &mut seed.random(2), scaled(200, 2_000), 24);
    println!("{steps} steps");
    assert!(steps > scaled(8_000, 80_000), "{steps}");
}

/// A few with another seed each time.
#[test]
fn talks_and_scripts_of_a_fresh_seed() {
    let seed = Seed::fresh();
    talks(proved, &mut seed.random(0), 20, 30);
    talks_by(proved, &mut seed.random(2), 20, 30);
    scripts(proved, &mut seed.random(1), 20, 12);
}

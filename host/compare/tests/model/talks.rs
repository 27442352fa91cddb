//! Units of the model that talk with each other and with the crate's.

use compare::inputs::Seed;
use compare::talks::{scripts, talks};
use compare::units::modelled;

#[test]
fn random_talks() {
    let seed = Seed::fixed();
    let steps = talks(modelled, &mut seed.random(0), 8_000, 24);
    assert!(steps > 400_000, "{steps}");
}

#[test]
fn random_scripts() {
    let seed = Seed::fixed();
    let steps = scripts(modelled, &mut seed.random(1), 8_000, 12);
    assert!(steps > 400_000, "{steps}");
}

/// A few with another seed each time.
#[test]
fn talks_and_scripts_of_a_fresh_seed() {
    let seed = Seed::fresh();
    talks(modelled, &mut seed.random(0), 100, 30);
    scripts(modelled, &mut seed.random(1), 100, 12);
}

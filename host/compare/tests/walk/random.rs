//! Random stations and validators.

use compare::inputs::settings::{LARGEST, LEAST};
use compare::inputs::{Random, Seed};
use compare::model::plan::By;
use compare::model::settings::appended;
use compare::scaled;
use compare::units::proved;
use compare::walk::{catch_up, catch_up_by, catch_up_freely, walk_freely, Apart, CaughtUp, Spread};

/// A catch-up of two units.
type Make = fn(&mut Random, &Apart) -> Option<CaughtUp>;

/// Makes `count` catch-ups: those that went by list, and how many didn't.
fn catch_ups(random: &mut Random, count: usize, make: Make) -> (Spread, usize) {
    let (mut spread, mut dropped) = (Spread::default(), 0);
    for _ in 0..count {
        let apart = random.apart(3..41);
        match make(random, &apart) {
            Some(done) => spread.count(&done),
            None => dropped += 1,
        }
    }
    (spread, dropped)
}

/// Makes catch-ups of the library's units: many of them go by list, and of these some take
/// all the rounds that they may.
fn many(salt: u64, count: usize, make: Make) {
    let seed = Seed::fixed();
    let (spread, dropped) = catch_ups(&mut seed.random(salt), count, make);
    let (kept, longest) = (spread.catch_ups(), spread.at_the_bound());
    println!("\n{count} catch-ups, {dropped} dropped, {kept} with rows lacking by list in");
    println!(
        "{} rounds, {longest} of them as long as may be",
        spread.rounds()
    );
    print!("{spread}");
    assert!(3 * kept > count as u64, "{kept}");
    assert!(10 * longest > kept, "{longest}");
}

#[test]
fn random_catch_ups() {
    let count = scaled(500, 20_000);
    many(0, count, |_, apart| catch_up(proved, apart));
}

/// Filters of the least bits and probes, which say yes to much, at both ends.
#[test]
fn random_catch_ups_by_the_least() {
    many(2, scaled(150, 5_000), |_, apart| {
        catch_up_by([proved; 2], apart, |_| By::Passed(LEAST))
    });
}

/// Filters of the most bits and probes at both ends.
#[test]
fn random_catch_ups_by_the_most() {
    many(3, scaled(150, 5_000), |_, apart| {
        catch_up_by([proved; 2], apart, |_| By::Passed(LARGEST))
    });
}

/// Other numbers at each end and in each round, passed or from a settings list; one of the
/// units is now and then the crate's.
#[test]
fn random_catch_ups_by_any() {
    many(4, scaled(150, 5_000), catch_up_freely);
}

/// One settings list for both ends, which grows before each round: each end asks for its
/// own station at the list's last version or an earlier one.
#[test]
fn random_catch_ups_by_a_growing_list() {
    many(5, scaled(150, 5_000), |random, apart| {
        let (mut list, mut versions) = (Vec::new(), 0);
        catch_up_by([proved; 2], apart, |unit| {
            let (station, choice) = (random.below(3) as u64, random.choice());
            let record = appended(&list, station, choice).expect("a good setting");
            list.extend(record);
            versions += 1;
            By::Settings {
                list: list.clone(),
                station: unit as u64,
                version: random.below(versions + 1) as u64,
            }
        })
    });
}

/// The model alone, whatever the validator gives.
#[test]
fn random_walks() {
    let seed = Seed::fixed();
    let mut random = seed.random(1);
    let mut spread = Spread::default();
    while spread.rounds() < 200_000 {
        let apart = random.apart(3..41);
        spread.count(&walk_freely(&mut random, &apart));
    }
    let (walks, longest) = (spread.catch_ups(), spread.at_the_bound());
    println!(
        "{} rounds of {walks} walks, {longest} of them as long as may be",
        spread.rounds()
    );
    assert!(20 * longest > walks, "{longest}");
}

/// A few with another seed each time.
#[test]
fn catch_ups_of_a_fresh_seed() {
    let seed = Seed::fresh();
    catch_ups(&mut seed.random(0), 40, |_, apart| catch_up(proved, apart));
    catch_ups(&mut seed.random(1), 40, catch_up_freely);
}

//! Then what? A unit whose table was hurt and salvaged catches up with its station through
//! the proved sessions. Where the rows that it kept are the station's, that is promised: of
//! m rows that it lacks it holds all after at most m + 1 rounds, and is sent no row that it
//! held and none twice. `compare::walk` looks at each round of that.

use crate::agree;
use compare::inputs::{Random, Seed};
use compare::salvage::{apart_of, ask, table_at, Rooms};
use compare::scaled;
use compare::units::proved;
use compare::walk::{catch_up, catch_up_freely, Apart, CaughtUp, Spread};

/// A catch-up of two units.
type Make = fn(&mut Random, &Apart) -> Option<CaughtUp>;

/// What came of units that were hurt.
#[derive(Default)]
struct Units {
    spread: Spread,
    /// Those that lost rows.
    hurt: u64,
    /// Those that kept what isn't the station's, or nothing.
    others: u64,
    /// Those that were sent the document.
    by_document: u64,
}

/// Hurts a unit's table, salvages it, and has the unit catch up with what was kept.
fn hurt_unit(random: &mut Random, units: &mut Units, make: Make) {
    let apart = random.apart(3..41);
    let mut table = table_at(&apart);
    for _ in 0..1 + random.below(3) {
        match random.one_in(6) {
            true => random.hurt(&mut table),
            false => random.hurt_plainly(&mut table),
        }
    }
    agree(&[(&table, Rooms::Enough)]);
    let (_, kept, _) = ask(&table);
    let Some(salvaged) = apart_of(&apart.rows, &kept) else {
        units.others += 1;
        return;
    };
    units.hurt += u64::from(salvaged.held.len() < apart.held.len());
    match make(random, &salvaged) {
        Some(done) => {
            // m is how many of the station's rows weren't kept.
            assert_eq!(done.lacking, apart.rows.len() - salvaged.held.len());
            assert!(done.replies.len() <= done.lacking + 1);
            units.spread.count(&done);
        }
        None => units.by_document += 1,
    }
}

fn many(random: &mut Random, count: usize, make: Make) -> Units {
    let mut units = Units::default();
    for _ in 0..count {
        hurt_unit(random, &mut units, make);
    }
    units
}

/// Most units lost rows, most of those catch up by list, and some take all the rounds that
/// they may.
fn enough(count: usize, units: &Units) {
    let caught_up = units.spread.catch_ups();
    println!(
        "{count} units: {} lost rows, {} kept others than the station's, {} were sent the document, {caught_up} lacked rows and caught up by list",
        units.hurt, units.others, units.by_document
    );
    print!("{}", units.spread);
    assert!(4 * units.hurt > count as u64);
    assert!(6 * caught_up > count as u64);
    assert!(units.spread.at_the_bound() > 0);
    assert!(units.others > 0);
}

#[test]
fn hurt_units() {
    let count = scaled(300, 6_000);
    let seed = Seed::fixed();
    let units = many(&mut seed.random(0), count, |_, apart| {
        catch_up(proved, apart)
    });
    enough(count, &units);
}

/// With other filters at each end and in each round, and now and then a unit of the crate.
#[test]
fn hurt_units_by_any_settings() {
    let count = scaled(150, 3_000);
    let seed = Seed::fixed();
    let units = many(&mut seed.random(1), count, catch_up_freely);
    enough(count, &units);
}

/// A few with another seed each time.
#[test]
fn hurt_units_of_a_fresh_seed() {
    let seed = Seed::fresh();
    many(&mut seed.random(0), 60, |_, apart| catch_up(proved, apart));
}

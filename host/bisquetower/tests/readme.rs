//! README.md: what it shows of Rust, run.

use bisquetower::{Change, ChangeHash, Error, Memory, MemoryError, Session};

/// A document, and what its unit knows of the other one.
#[derive(Default)]
struct Unit {
    document: Memory,
    session: Session,
}

/// Hands on what a unit has to say; whether there was anything.
fn say(from: &mut Unit, to: &mut Unit) -> Result<bool, Error<MemoryError>> {
    let message = from.session.next_message(&from.document)?;
    if let Some(bytes) = &message {
        to.session.receive(&mut to.document, bytes)?;
    }
    Ok(message.is_some())
}

/// Asks both units in turn, until neither has anything to say. Either may have news.
fn catch_up(validator: &mut Unit, station: &mut Unit) -> Result<(), Error<MemoryError>> {
    loop {
        let asked = say(validator, station)?;
        let replied = say(station, validator)?;
        if !asked && !replied {
            return Ok(());
        }
    }
}

fn main() -> Result<(), Box<dyn std::error::Error>> {
    let (mut validator, mut station) = (Unit::default(), Unit::default());
    for day in 1..=2 {
        station.document.add(Change {
            hash: ChangeHash([day; 32]),
            dependencies: vec![],
            contents: b"fares".to_vec(),
        })?;
        catch_up(&mut validator, &mut station)?;
        assert_eq!(validator.document.changes(), station.document.changes());
    }
    Ok(())
}

#[test]
fn the_program_runs() {
    main().unwrap();
}

/// The block of README.md that is in this language.
fn shown(language: &str) -> &'static str {
    let page = include_str!("../../../README.md");
    let start = format!("```{language}\n");
    let (_, rest) = page.split_once(&start).expect("a block");
    let (block, _) = rest.split_once("```").expect("an end");
    block
}

/// README's program stands here as it is there, from its `use` lines on.
#[test]
fn the_page_shows_what_is_run() {
    let program = shown("rust");
    assert!(program.starts_with("use bisquetower::") && program.contains("\nfn main()"));
    assert!(include_str!("readme.rs").contains(&format!("\n{program}")));
}

/// The dependency that README writes is this crate, by its name and its folder.
#[test]
fn the_page_names_this_crate() {
    let line = shown("toml").lines().last().expect("a line");
    let here = concat!(env!("CARGO_PKG_NAME"), " = { path = \"../");
    let path = line
        .strip_prefix(here)
        .and_then(|rest| rest.strip_suffix("\" }"));
    let (_, path) = path.expect(line).split_once('/').expect("a folder");
    assert!(
        env!("CARGO_MANIFEST_DIR").ends_with(&format!("/{path}")),
        "{path}"
    );
}

/// The change of a day, on those that are named.
fn change(own: u8, below: &[u8]) -> Change {
    Change {
        hash: ChangeHash([own; 32]),
        dependencies: below.iter().map(|&name| ChangeHash([name; 32])).collect(),
        contents: vec![own],
    }
}

/// What a unit holds, by name.
fn held(unit: &Unit) -> Vec<u8> {
    let changes = unit.document.changes().iter();
    let mut names: Vec<u8> = changes.map(|change| change.hash.0[0]).collect();
    names.sort();
    names
}

/// One pair of sessions serves day after day, whichever unit has news, and be it both.
#[test]
fn days_of_news_on_either_side() {
    let (mut validator, mut station) = (Unit::default(), Unit::default());
    validator.document.add(change(1, &[])).unwrap();
    for own in 1..10 {
        let below: &[u8] = if own == 1 { &[] } else { &[own - 1] };
        station.document.add(change(own, below)).unwrap();
    }
    // The station's news of a day, and the validator's.
    let days: [(&[u8], &[u8]); 5] = [
        (&[], &[]),
        (&[10, 11], &[]),
        (&[], &[20]),
        (&[12], &[21]),
        (&[], &[]),
    ];
    let mut all: Vec<u8> = (1..10).collect();
    for (fares, sales) in days {
        for (unit, news) in [(&mut station, fares), (&mut validator, sales)] {
            for &own in news {
                unit.document.add(change(own, &[9])).unwrap();
                all.push(own);
            }
        }
        catch_up(&mut validator, &mut station).unwrap();
        all.sort();
        assert_eq!(
            (held(&validator), held(&station)),
            (all.clone(), all.clone())
        );
        // Nobody has anything to say until there are news.
        assert!(!say(&mut validator, &mut station).unwrap());
        assert!(!say(&mut station, &mut validator).unwrap());
    }
}

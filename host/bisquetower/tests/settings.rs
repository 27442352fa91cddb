//! Settings of stations: their bytes, their history, what is wrong with bad ones, and
//! sessions whose filters are built with them.

mod units;

use bisquetower::limits::{BITS, HAVE_SIZE, LIST_SIZE, PROBES, SENT_SIZE, TO_SEND_SIZE};
use bisquetower::refusal::answer;
use bisquetower::{raw, Choice, Error, Host, Memory, Refusal, Session, Setting, Settings};
use std::fmt::Debug;
use std::ops::Range;
use units::{chain, hash, say, say_with, talk, unit, Unit};

fn choice(bits: u32, probes: u32) -> Choice {
    Choice {
        bits,
        probes,
        ..Choice::default()
    }
}

/// Station 7 twice, with station 9 between, and a version left out before the last.
fn list() -> Settings {
    let mut settings = Settings::new();
    settings.append(7, choice(12, 8)).unwrap();
    let tram = Choice {
        read_only: true,
        ..choice(6, 4)
    };
    settings.append(9, tram).unwrap();
    let mut bytes = settings.as_bytes().to_vec();
    bytes.extend(record(4, 7, 16, 11, 0));
    Settings::parse(bytes).unwrap()
}

fn record(version: u32, station: u32, bits: u32, probes: u32, read_only: u8) -> Vec<u8> {
    let numbers = [version, station, bits, probes].map(u32::to_le_bytes);
    [&numbers.concat()[..], &[read_only], &[0; 15]].concat()
}

/// The refusal of what has to be refused with this number and value.
fn refused<T: Debug>(made: Result<T, Refusal>, number: u64, value: u64) -> Refusal {
    let refusal = made.expect_err("a refusal");
    assert_eq!(refusal, Refusal::new(number, value), "{refusal}");
    refusal
}

/// That a refusal has this sentence and marks these bytes.
fn says(refusal: Refusal, sentence: &str, place: impl Into<Option<Range<usize>>>) {
    assert_eq!(refusal.sentence(), sentence);
    let cause = refusal.cause().expect("a cause");
    assert_eq!(cause.place(), place.into(), "{sentence}");
}

#[test]
fn what_a_record_is() {
    let mut settings = Settings::new();
    assert_eq!((settings.version(), settings.records().len()), (0, 0));
    assert_eq!(settings.as_bytes(), b"");
    let tram = Choice {
        bits: 6,
        probes: 4,
        read_only: true,
    };
    assert_eq!(settings.append(0x0102_0304, tram), Ok(1));
    let bytes = b"\x01\0\0\0\x04\x03\x02\x01\x06\0\0\0\x04\0\0\0\x01";
    assert_eq!(settings.as_bytes(), [&bytes[..], &[0; 15]].concat());
    assert_eq!(Settings::parse(settings.as_bytes()), Ok(settings));
    assert_eq!(Settings::parse(b""), Ok(Settings::default()));
}

#[test]
fn a_station_at_a_version() {
    let mut settings = list();
    let records: Vec<(u32, u32)> = settings
        .records()
        .map(|one| (one.version, one.station))
        .collect();
    assert_eq!(records, [(1, 7), (2, 9), (4, 7)]);
    let of_7 = |version| settings.at(7, version);
    assert_eq!(
        [0, 1, 2, 3, 4, u32::MAX].map(of_7),
        [
            Choice::default(),
            choice(12, 8),
            choice(12, 8),
            choice(12, 8),
            choice(16, 11),
            choice(16, 11)
        ]
    );
    assert_eq!(settings.at(9, 1), Choice::default());
    assert!(settings.at(9, 2).read_only && settings.latest(9).read_only);
    assert_eq!(settings.latest(8), Choice::default());

    // What follows changes no answer of before, and has the last version plus 1.
    let before: Vec<Choice> = (0..=4).map(of_7).collect();
    assert_eq!(settings.append(7, Choice::default()), Ok(5));
    let after: Vec<Choice> = (0..=4).map(|version| settings.at(7, version)).collect();
    assert_eq!(before, after);
    assert_eq!(settings.latest(7), Choice::default());
}

/// Every version of random lists, beside the records looked through.
#[test]
fn the_last_record_not_above_a_version() {
    let mut word = 7_u32;
    let mut random = |below: u32| {
        word = word.wrapping_mul(1_664_525).wrapping_add(1_013_904_223);
        (word >> 16) % below
    };
    for _ in 0..20 {
        let (mut bytes, mut all, mut version) = (Vec::new(), Vec::new(), 0);
        for _ in 0..random(30) {
            version += 1 + random(3);
            let (station, bits) = (random(4), 1 + random(BITS as u32));
            let (probes, read_only) = (1 + random(PROBES as u32), random(2) == 1);
            bytes.extend(record(version, station, bits, probes, read_only.into()));
            all.push(Setting {
                version,
                station,
                choice: Choice {
                    bits,
                    probes,
                    read_only,
                },
            });
        }
        let settings = Settings::parse(bytes).unwrap();
        assert_eq!(settings.records().collect::<Vec<_>>(), all);
        assert_eq!(settings.version(), version);
        for (station, asked) in (0..5).flat_map(|one| (0..=version + 1).map(move |v| (one, v))) {
            let mut own = all.iter().rev();
            let last = own.find(|one| one.station == station && one.version <= asked);
            let expected = last.map_or(Choice::default(), |last| last.choice);
            assert_eq!(settings.at(station, asked), expected);
        }
    }
}

#[test]
fn bad_records() {
    let good = list().as_bytes().to_vec();
    let start = 2 * Settings::RECORD;
    let bad = |own: Vec<u8>, what: &str, place: Range<usize>| {
        let refusal = refused(Settings::parse([&good[..start], &own].concat()), 14, 2);
        let place = start + place.start..start + place.end;
        says(
            refusal,
            &format!("record 2 of the settings list {what}"),
            place,
        );
    };
    let ascend = "versions ascend";
    bad(
        record(2, 7, 10, 7, 0),
        &format!("has version 2 after version 2; {ascend}"),
        0..4,
    );
    bad(
        record(0, 7, 10, 7, 0),
        &format!("has version 0 after version 2; {ascend}"),
        0..4,
    );
    let few = format!("1 to {BITS} are allowed");
    bad(
        record(3, 7, 0, 7, 0),
        &format!("has 0 bits per entry; {few}"),
        8..12,
    );
    let many = BITS as u32 + 1;
    bad(
        record(3, 7, many, 7, 0),
        &format!("has {many} bits per entry; {few}"),
        8..12,
    );
    let few = format!("1 to {PROBES} are allowed");
    bad(
        record(3, 7, 10, 0, 0),
        &format!("has 0 probes; {few}"),
        12..16,
    );
    bad(
        record(3, 7, 10, 1_000, 0),
        &format!("has 1,000 probes; {few}"),
        12..16,
    );
    bad(
        record(3, 7, 10, 7, 2),
        "has 2 as its read-only byte; that is 0 or 1",
        16..17,
    );
    let mut stray = record(3, 7, 10, 7, 1);
    stray[20] = 5;
    bad(
        stray,
        "has a byte behind its read-only byte that isn't 0",
        20..21,
    );
    bad(
        record(3, 7, 10, 7, 0)[..31].to_vec(),
        "is cut: it has 31 of 32 bytes",
        0..31,
    );
    bad(vec![3], "is cut: it has 1 of 32 bytes", 0..1);

    let first = refused(Settings::parse(record(0, 7, 10, 7, 0)), 14, 0);
    let sentence = "record 0 of the settings list has version 0; versions begin with 1";
    says(first, sentence, 0..4);
}

/// Each byte of a list becomes other bytes: whatever record is bad, what is wrong in it is
/// told and stands in it.
#[test]
fn every_record_that_damage_makes_bad_is_explained() {
    let good = list().as_bytes().to_vec();
    let mut told = 0;
    for byte in 0..good.len() {
        for to in [0, 1, 2, 33, 65, 255] {
            let mut bytes = good.clone();
            bytes[byte] = to;
            let Err(refusal) = Settings::parse(bytes) else {
                continue;
            };
            assert_eq!(refusal.number, 14);
            let start = Settings::RECORD * refusal.value as usize;
            let marked = refusal.cause().expect("a cause").place().expect("a place");
            assert!(
                start <= marked.start && marked.end <= start + Settings::RECORD,
                "{refusal}"
            );
            told += 1;
        }
    }
    assert!(told > 250, "{told}");
}

#[test]
fn settings_that_arent_appended() {
    let mut settings = list();
    let before = settings.clone();
    let mut bad = |choice: Choice, what: &str| {
        let refusal = refused(settings.append(7, choice), 15, 0);
        says(refusal, &format!("the new setting {what}"), None);
        assert_eq!(settings, before);
    };
    let [bits, probes] = [BITS, PROBES].map(|most| format!("1 to {most} are allowed"));
    let [many_bits, many_probes] = [BITS, PROBES].map(|most| most as u32 + 1);
    bad(choice(0, 7), &format!("has 0 bits per entry; {bits}"));
    bad(
        choice(many_bits, 7),
        &format!("has {many_bits} bits per entry; {bits}"),
    );
    bad(choice(10, 0), &format!("has 0 probes; {probes}"));
    bad(
        choice(10, many_probes),
        &format!("has {many_probes} probes; {probes}"),
    );
    bad(choice(0, 0), &format!("has 0 bits per entry; {bits}"));

    // The last version is given, and then none is left.
    let last = record(u32::MAX - 1, 7, 10, 7, 0);
    let mut settings = Settings::parse(last).unwrap();
    assert_eq!(
        settings.append(u32::MAX, choice(BITS as u32, PROBES as u32)),
        Ok(u32::MAX)
    );
    let refusal = refused(settings.append(7, choice(10, 7)), 15, 0);
    let sentence = "the new setting has no version left: the last, 4,294,967,295, is given";
    says(refusal, sentence, None);
    assert_eq!(settings.records().len(), 2);
    assert_eq!(settings.at(u32::MAX, u32::MAX).bits, BITS as u32);
}

/// A message's filter has what was chosen for it; without rows there is nothing to build.
#[test]
fn a_filter_as_chosen() {
    for (bits, probes) in [(1, 1), (1, 64), (12, 8), (32, 1), (32, 64)] {
        let (mut validator, mut station) = (unit(chain(20)), unit(chain(25)));
        let said = say_with(&mut validator, &mut station, choice(bits, probes)).unwrap();
        let filter = &said.have[0].bloom;
        assert_eq!(filter.num_entries(), 20);
        assert_eq!(
            (filter.num_bits_per_entry(), filter.num_probes()),
            (bits.into(), probes.into())
        );
        assert_eq!(filter.bits().len(), (20 * bits as usize).div_ceil(8));
        let all: Vec<_> = (0..20).map(hash).collect();
        assert!(filter.contains_hashes(&all).iter().all(|&yes| yes));
    }
    let said = |choice| Session::new().next_message_with(&Memory::new(), choice);
    assert_eq!(said(choice(32, 64)), said(Choice::default()));
}

/// Of a choice that isn't told, and of the crate's own, the messages are the same.
#[test]
fn the_crates_choice() {
    let (mut one, mut other) = (Session::new(), Session::new());
    let host = chain(50);
    let read_only = Choice {
        read_only: true,
        ..Choice::default()
    };
    assert_eq!(
        one.next_message(&host).unwrap(),
        other.next_message_with(&host, read_only).unwrap()
    );
    assert_eq!(one, other);
    assert!(!other.is_read_only());
}

/// Each end chooses, another pair each time, and they catch up.
#[test]
fn units_that_choose_catch_up() {
    let pairs = [(1, 1), (32, 64), (2, 3), (1, 64), (12, 8), (32, 1), (10, 7)];
    for first in 0..pairs.len() {
        let mut chosen = (first..).map(|k| pairs[k % pairs.len()]);
        let (mut station, mut validator) = (unit(chain(120)), unit(chain(90)));
        let mut next = |from: &mut Unit, to: &mut Unit| {
            let (bits, probes) = chosen.next().expect("they go on");
            say_with(from, to, choice(bits, probes))
        };
        // At most m + 1 rounds, and one in which the station hears of it.
        for _ in 0..32 {
            next(&mut validator, &mut station);
            next(&mut station, &mut validator);
        }
        assert_eq!(validator.host.changes(), station.host.changes());
        assert_eq!(talk(&mut validator, &mut station), 0);
    }
}

#[test]
fn filters_that_cant_be_planned() {
    let host = chain(3);
    let refused_with = |bits, probes, what: &str| {
        let mut session = Session::new();
        let error = session.generate_with(&host, choice(bits, probes));
        let Err(Error::Refused(refusal)) = error else {
            panic!("{error:?}");
        };
        assert_eq!(refusal, Refusal::new(10, 0));
        let sentence = format!("the filter that is to be built {what}");
        says(refusal, &sentence, None);
        assert_eq!(session, Session::new());
    };
    let [bits, probes] = [BITS, PROBES].map(|most| most as u32);
    let few = format!("bits per entry; 1 to {bits} are allowed");
    refused_with(0, 7, &format!("has 0 {few}"));
    refused_with(bits + 1, 7, &format!("has {} {few}", bits + 1));
    refused_with(u32::MAX, 7, &format!("has 4,294,967,295 {few}"));
    let many = format!("has {} probes; 0 to {probes} are allowed", probes + 1);
    refused_with(10, probes + 1, &many);
    // A filter of 0 probes looks at one bit; no setting has one.
    let field = |probes| {
        let said = Session::new().generate_with(&host, choice(10, probes));
        let filter = said.unwrap().unwrap().have.remove(0).bloom;
        assert_eq!(filter.num_probes(), probes.into());
        filter.bits().to_vec()
    };
    assert_eq!(field(0), field(1));
}

/// The choice comes before the tables: both are bad.
#[test]
fn a_choice_is_looked_at_first() {
    let mut session = Session::new();
    let bad = [0; 7];
    let planned = |session: &mut Session, bits| session.plan_with(&bad, &[], choice(bits, 7));
    refused(planned(&mut session, 0), 10, 0);
    refused(planned(&mut session, 10), 6, 0);
    refused(session.plan(&bad, &[]), 6, 0);
}

/// The exported call that is lent the list itself, and has most arguments of all, plans what
/// the station's choice does.
#[test]
fn a_plan_by_the_list() {
    let settings = list();
    let host = chain(20);
    let table = host.table();
    let mut index = [0; 2 * 20];
    assert_eq!(raw::build_index(&table, &mut index)[0], 0);
    for version in [0, 3, 4] {
        let mut words = [raw::UNWRITTEN; 16];
        raw::fresh(&mut words);
        let [mut last_sent, mut heads, mut need] = [(); 3].map(|()| vec![0; LIST_SIZE]);
        let (mut sent, mut have) = (vec![0; SENT_SIZE], vec![0; HAVE_SIZE]);
        let mut list = vec![0; TO_SEND_SIZE];
        let planned = answer(raw::plan_settled(
            settings.as_bytes(),
            7,
            version,
            &mut words,
            &[],
            &mut last_sent,
            &[],
            &[],
            &[],
            &[],
            &mut sent,
            &table,
            &index,
            &[],
            &mut heads,
            &mut need,
            &mut have,
            &mut list,
        ));
        let planned = planned.unwrap();
        let mut session = Session::new();
        let choice = settings.at(7, version as u32);
        let said = session.plan_with(&table, &[], choice).unwrap().unwrap();
        let filter = &said.message.have[0].bloom;
        assert_eq!(
            planned[9..12],
            [20, choice.bits.into(), choice.probes.into()]
        );
        assert_eq!(have[..filter.bits().len()], *filter.bits());
        assert_eq!(heads[..32], *said.message.heads[0].as_bytes());
        assert_eq!(words, *session.words());
    }
}

/// The record's read-only byte acts where the program hands it on, as often as it likes.
#[test]
fn a_station_that_is_read_only() {
    let settings = list();
    let (mut station, mut validator) = (unit(chain(40)), unit(chain(30)));
    let tram = settings.latest(9);
    for _ in 0..3 {
        validator.session.set_read_only(tram.read_only);
        say_with(&mut validator, &mut station, tram);
        // Off where it was off begins nothing anew.
        let before = station.session.clone();
        station.session.set_read_only(settings.latest(7).read_only);
        assert_eq!(station.session, before);
        say(&mut station, &mut validator);
    }
    assert!(station.session.is_peer_read_only());
    assert_eq!(validator.host.changes().len(), 30);
}

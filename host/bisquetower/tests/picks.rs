//! What goes now of what is to be sent: picks by hand, and messages within a budget.

mod units;

use bisquetower::limits::{HASHES, HASHES_TO_SEND, HASH_SIZE, MESSAGE_SIZE, ROWS};
use bisquetower::{
    Change, ChangeHash, Choice, Error, Host, Memory, MemoryError, Message, MessageFlags,
    MessageVersion, Refusal, Session, Table,
};
use std::borrow::Cow;
use std::cell::Cell;
use units::{chain, change, hash, say, talk, unit, Unit};

fn named(name: u8) -> ChangeHash {
    ChangeHash([name; HASH_SIZE])
}

/// a, b on a, c on a, d on b and c, e on nothing.
fn table() -> Table {
    let [a, b, c, d, e] = [b'a', b'b', b'c', b'd', b'e'].map(named);
    let rows = [
        (a, vec![]),
        (b, vec![a]),
        (c, vec![a]),
        (d, vec![b, c]),
        (e, vec![]),
    ];
    Table::from_changes(rows).unwrap()
}

fn hashes(names: &str) -> Vec<ChangeHash> {
    names.bytes().map(named).collect()
}

const SIZES: [u64; 5] = [10, 20, 30, 40, 50];

/// What the planner picks of a list, by name.
fn picked(list: &str, budget: u64) -> String {
    let pick = table().pick(&hashes(list), &SIZES, budget).unwrap();
    pick.iter().map(|hash| char::from(hash.0[0])).collect()
}

#[test]
fn the_planner_picks_what_fits() {
    for (list, budget, expected) in [
        ("", 0, ""),
        ("abcde", 0, ""),
        ("abcde", 9, ""),
        ("abcde", 10, "a"),
        ("abcde", 30, "ab"),
        ("abcde", 40, "ab"),
        ("abcde", 60, "abc"),
        ("abcde", 99, "abc"),
        ("abcde", 100, "abcd"),
        ("abcde", 149, "abcd"),
        ("abcde", 150, "abcde"),
        ("abcde", u64::MAX, "abcde"),
        // What isn't listed counts for nothing, and what is listed twice counts once.
        ("edde", 90, "de"),
        ("edde", 89, "d"),
        ("edde", 39, ""),
        ("dceb", 45, "b"),
        ("dceb", 50, "bc"),
        ("dceb", 71, "bc"),
        ("dceb", 100, "bcd"),
        // What isn't held isn't picked.
        ("zaz", 10, "a"),
    ] {
        assert_eq!(picked(list, budget), expected, "{list} within {budget}");
    }
    // The change c is too large, and d doesn't go without it; e still does.
    let sizes = [10, 20, 90, 5, 50];
    let pick = table().pick(&hashes("dceb"), &sizes, 70).unwrap();
    assert_eq!(pick, hashes("be"));
    table()
        .check_pick(&hashes("dceb"), &sizes, 70, &pick)
        .unwrap();
}

/// A zero size goes in any budget, and sums that pass 64 bits are sums.
#[test]
fn sizes_of_any_number() {
    let all = hashes("abcde");
    let none = [0; 5];
    assert_eq!(table().pick(&all, &none, 0).unwrap(), all);
    table().check_pick(&all, &none, 0, &all).unwrap();
    let large = [u64::MAX, 1, 0, 0, u64::MAX];
    let pick = table().pick(&all, &large, u64::MAX).unwrap();
    assert_eq!(pick, hashes("ac"));
    let much = table().check_pick(&all, &large, u64::MAX, &hashes("ab"));
    assert_eq!(
        told(much),
        (
            2,
            "the sizes of the picked rows sum to more than 64 bits; the budget is \
             18,446,744,073,709,551,615"
                .to_string()
        )
    );
    table()
        .check_pick(&all, &large, u64::MAX, &hashes("a"))
        .unwrap();
}

/// The place and the sentence of refusal 17.
fn told(checked: Result<(), Refusal>) -> (u64, String) {
    let refusal = checked.unwrap_err();
    assert_eq!(refusal.number, 17);
    (refusal.value, refusal.sentence())
}

/// Each rule, the place, and which of several is told.
#[test]
fn what_a_pick_breaks() {
    for (list, budget, pick, place, sentence) in [
        (
            "abcde",
            150,
            "abz",
            2,
            "the picked hash at index 2 is no row of the table",
        ),
        (
            "abce",
            150,
            "abcd",
            3,
            "the picked hash at index 3 is row 3, which isn't in the list",
        ),
        (
            "abcde",
            150,
            "aeb",
            2,
            "the picked hash at index 2 is row 1, behind row 4; picked rows ascend",
        ),
        (
            "abcde",
            150,
            "aab",
            1,
            "the picked hash at index 1 is row 0, behind row 0; picked rows ascend",
        ),
        (
            "abcde",
            150,
            "abd",
            2,
            "the picked hash at index 2 depends on row 2, which is in the list and isn't picked",
        ),
        (
            "abcde",
            150,
            "b",
            0,
            "the picked hash at index 0 depends on row 0, which is in the list and isn't picked",
        ),
        // What it depends on stands behind it: that one is out of order.
        (
            "abcde",
            150,
            "ba",
            1,
            "the picked hash at index 1 is row 0, behind row 1; picked rows ascend",
        ),
        (
            "abcde",
            29,
            "ab",
            2,
            "the sizes of the picked rows sum to 30; the budget is 29",
        ),
        // A hash's place comes before the sum.
        (
            "abcde",
            0,
            "ea",
            1,
            "the picked hash at index 1 is row 0, behind row 4; picked rows ascend",
        ),
        (
            "abcde",
            10,
            "",
            0,
            "nothing is picked, and row 0 of the list fits by itself",
        ),
        (
            "edcb",
            50,
            "",
            0,
            "nothing is picked, and row 1 of the list fits by itself",
        ),
        (
            "ed",
            50,
            "",
            0,
            "nothing is picked, and row 3 of the list fits by itself",
        ),
    ] {
        let checked = table().check_pick(&hashes(list), &SIZES, budget, &hashes(pick));
        assert_eq!(
            told(checked),
            (place, sentence.to_string()),
            "{list}: {pick}"
        );
    }
    for (list, budget, pick) in [
        ("", 0, ""),
        ("z", 1_000, ""),
        ("abcde", 9, ""),
        // Only b and c could go by themselves, and d with both.
        ("dcb", 19, ""),
        ("dcb", 30, "c"),
        ("dcb", 90, "bcd"),
        ("d", 40, "d"),
        ("abcde", 50, "e"),
        ("abcde", 150, "abcde"),
    ] {
        let checked = table().check_pick(&hashes(list), &SIZES, budget, &hashes(pick));
        assert_eq!(checked, Ok(()), "{list}: {pick} within {budget}");
    }
}

/// Sizes that aren't one a row: the planner has no pick yet, so it names 0.
#[test]
fn sizes_for_other_rows() {
    let all = hashes("abcde");
    for (sizes, shown) in [(&SIZES[..4], "4"), (&[1; 6][..], "6"), (&[], "0")] {
        let sentence = format!("{shown} sizes are passed for 5 rows; there is one a row");
        let checked = table().check_pick(&all, sizes, 150, &hashes("ab"));
        assert_eq!(told(checked), (2, sentence.clone()));
        let checked = table().check_pick(&all, sizes, 150, &hashes("ba"));
        assert_eq!(told(checked).0, 1);
        let picked = table().pick(&all, sizes, 150).map(|_| ());
        assert_eq!(told(picked), (0, sentence));
    }
}

#[test]
fn lists_past_their_limits() {
    let (long, pick) = (
        vec![named(9); HASHES_TO_SEND + 1],
        vec![named(9); HASHES + 1],
    );
    let refused = |refusal: Refusal| (refusal.number, refusal.value, refusal.sentence());
    let sentence = "16,385 listed hashes are passed; at most 16,384";
    let picked = table().pick(&long, &SIZES, 1).unwrap_err();
    assert_eq!(refused(picked), (4, 0, sentence.to_string()));
    let checked = table().check_pick(&long, &SIZES, 1, &pick).unwrap_err();
    assert_eq!(refused(checked), (4, 0, sentence.to_string()));
    let most = &long[1..];
    assert_eq!(table().pick(most, &SIZES, 1).unwrap(), []);
    let sentence = "8,193 picked hashes are passed; at most 8,192";
    let checked = table().check_pick(most, &SIZES, 1, &pick).unwrap_err();
    assert_eq!(refused(checked), (4, 0, sentence.to_string()));
    let checked = table().check_pick(most, &SIZES, 1, &pick[1..]);
    assert_eq!(told(checked).0, 0);
}

/// The same of a plan, where the list is the session's own; the session is as it was.
#[test]
fn plans_with_picks() {
    let mut station = unit(chain(40));
    let question = Message {
        heads: vec![hash(36)],
        need: vec![hash(39), hash(38), hash(37)],
        ..Message::default()
    };
    let host = &mut station.host;
    station
        .session
        .receive_sync_message(host, question)
        .unwrap();
    let (table, waiting) = (station.host.table(), station.host.waiting());
    let offer = station.session.offer(&table).unwrap();
    assert_eq!(offer.hashes, [hash(39), hash(38), hash(37)]);
    assert!(!offer.document);
    let sizes = vec![100; 40];
    for (budget, pick, place, sentence) in [
        (
            300,
            vec![hash(38)],
            0,
            "the picked hash at index 0 depends on row 37, which is in the list and isn't picked",
        ),
        (
            300,
            vec![hash(36)],
            0,
            "the picked hash at index 0 is row 36, which isn't in the list",
        ),
        (
            199,
            vec![hash(37), hash(38)],
            2,
            "the sizes of the picked rows sum to 200; the budget is 199",
        ),
        (
            100,
            vec![],
            0,
            "nothing is picked, and row 37 of the list fits by itself",
        ),
    ] {
        let before = station.session.clone();
        let session = &mut station.session;
        let refused = session.plan_picked(&table, &waiting, &sizes, budget, &pick);
        assert_eq!(told(refused.map(|_| ())), (place, sentence.to_string()));
        assert_eq!(*session, before);
    }
    let long = vec![hash(37); HASHES + 1];
    let session = &mut station.session;
    let refused = session.plan_picked(&table, &waiting, &sizes, 1, &long);
    let refused = refused.unwrap_err();
    assert_eq!(refused.number, 4);
    assert_eq!(
        refused.sentence(),
        "8,193 picked hashes are passed; at most 8,192"
    );
    let plan = session.plan_picked(&table, &waiting, &sizes, 200, &[hash(37), hash(38)]);
    let plan = plan.unwrap().expect("a message");
    assert_eq!(plan.hashes, [hash(37), hash(38)]);
    let mut sent = plan.hashes.clone();
    sent.sort();
    assert_eq!(session.sent_hashes(), sent);
    assert_eq!(session.offer(&table).unwrap().hashes, [hash(39)]);
}

/// Two units of which the first lacks the changes from a number on, after its first
/// question.
fn asked(held: u32, all: u32) -> [Unit; 2] {
    let (mut station, mut validator) = (unit(chain(all)), unit(chain(held)));
    say(&mut validator, &mut station).expect("the first question");
    [station, validator]
}

/// Bytes of each change of a chain, but for the first.
const SIZE: u64 = 74;

/// A talk within a budget: the numbers of changes that were left after each reply.
fn talk_within(budget: u64, [mut station, mut validator]: [Unit; 2]) -> Vec<usize> {
    let mut left = vec![];
    for round in 0.. {
        assert!(round < 100, "they don't fall silent");
        let before = station.session.clone();
        let message = station.session.generate_within(&station.host, budget);
        let message = message.unwrap();
        let mut same = before.clone();
        let bytes = same.next_message_within(&station.host, budget).unwrap();
        assert_eq!(same, station.session);
        assert_eq!(message.as_ref().map(|one| one.encode().unwrap()), bytes);
        if let (Some(message), Some(bytes)) = (&message, &bytes) {
            let carried: usize = message.changes.iter().map(Vec::len).sum();
            assert!(carried as u64 <= budget);
            let session = &mut validator.session;
            session.receive(&mut validator.host, bytes).unwrap();
            let offer = station.session.offer(&station.host.table()).unwrap();
            left.push(offer.hashes.len());
        }
        let question = say(&mut validator, &mut station);
        if question.is_none() && message.is_none() {
            break;
        }
    }
    assert_eq!(validator.host.changes(), station.host.changes());
    left
}

/// A change a message in the smallest budget, all of them in one that is large enough, and
/// as without a budget in the largest.
#[test]
fn catch_ups_within_budgets() {
    assert_eq!(talk_within(5 * SIZE, asked(35, 40)), [0]);
    assert_eq!(talk_within(5 * SIZE - 1, asked(35, 40)), [1, 0]);
    assert_eq!(talk_within(3 * SIZE, asked(35, 40)), [2, 0]);
    assert_eq!(talk_within(2 * SIZE, asked(35, 40)), [3, 1, 0]);
    assert_eq!(talk_within(SIZE, asked(35, 40)), [4, 3, 2, 1, 0]);
    let [mut station, _] = asked(35, 40);
    let mut same = station.session.clone();
    let within = station.session.generate_within(&station.host, u64::MAX);
    assert_eq!(within, same.generate(&station.host));
    assert_eq!(station.session, same);
}

/// In version 1 the number before each chunk counts too.
#[test]
fn version_1_counts_lengths() {
    let ask = |flags| {
        let mut station = unit(chain(40));
        let question = Message {
            heads: vec![hash(36)],
            need: vec![hash(37), hash(38)],
            flags,
            ..Message::default()
        };
        let host = &mut station.host;
        station
            .session
            .receive_sync_message(host, question)
            .unwrap();
        station
    };
    let sent = |mut station: Unit, budget| {
        let message = station.session.generate_within(&station.host, budget);
        let message = message.unwrap().expect("a reply");
        (message.version, station.session.sent_hashes().len())
    };
    let (old, new) = (|| ask(None), || ask(Some(MessageFlags::new())));
    assert_eq!(sent(old(), 2 * SIZE + 2), (MessageVersion::V1, 2));
    assert_eq!(sent(old(), 2 * SIZE + 1), (MessageVersion::V1, 1));
    assert_eq!(sent(old(), SIZE), (MessageVersion::V1, 0));
    assert_eq!(sent(new(), 2 * SIZE), (MessageVersion::V2, 2));
    assert_eq!(sent(new(), 2 * SIZE - 1), (MessageVersion::V2, 1));
    assert_eq!(sent(new(), SIZE - 1), (MessageVersion::V2, 0));
}

/// A budget in which no change fits: the message goes without any, and a later one with
/// more room has them.
#[test]
fn a_budget_of_nothing() {
    let [mut station, mut validator] = asked(35, 40);
    let message = station.session.generate_within(&station.host, 0);
    let message = message.unwrap().expect("its heads");
    assert_eq!((message.heads, message.changes), (vec![hash(39)], vec![]));
    assert_eq!(station.session.sent_hashes(), []);
    // It is in flight now.
    let silent = station.session.generate_within(&station.host, u64::MAX);
    assert_eq!(silent, Ok(None));
    let heads = Message {
        heads: vec![hash(39)],
        ..Message::default()
    };
    let session = &mut validator.session;
    session
        .receive_sync_message(&mut validator.host, heads)
        .unwrap();
    say(&mut validator, &mut station);
    assert_eq!(talk_within(u64::MAX, [station, validator]), [0]);
}

/// The document goes whole, whatever the budget is.
#[test]
fn documents_stay_whole() {
    for held in [0, 5] {
        let [mut station, mut validator] = asked(held, 40);
        let offer = station.session.offer(&station.host.table()).unwrap();
        assert!(offer.document && offer.hashes.len() == 40);
        let message = station.session.generate_within(&station.host, 0);
        let message = message.unwrap().expect("the document");
        assert_eq!(message.changes, [station.host.save().unwrap()]);
        let bytes = message.encode().unwrap();
        let session = &mut validator.session;
        session.receive(&mut validator.host, &bytes).unwrap();
        assert_eq!(validator.host.changes(), station.host.changes());
        talk(&mut validator, &mut station);
    }
}

/// The filter is as it was chosen, and a choice that isn't allowed is told as such.
#[test]
fn a_choice_within_a_budget() {
    let choice = |bits, probes| Choice {
        bits,
        probes,
        ..Choice::default()
    };
    let numbers = |chosen: Choice| {
        let [mut station, _] = asked(35, 40);
        let message = station
            .session
            .generate_within_with(&station.host, 2 * SIZE, chosen);
        let message = message.unwrap().expect("a reply");
        assert_eq!(station.session.sent_hashes().len(), 2);
        let filter = &message.have[0].bloom;
        (filter.num_bits_per_entry(), filter.num_probes())
    };
    assert_eq!(numbers(Choice::default()), (10, 7));
    assert_eq!(numbers(choice(32, 64)), (32, 64));
    assert_eq!(numbers(choice(1, 1)), (1, 1));
    // No setting has 0 probes, with which as many bits are looked at as with 1.
    assert_eq!(numbers(choice(6, 0)), (6, 1));
    for (chosen, sentence) in [
        (
            choice(33, 7),
            "the filter that is to be built has 33 bits per entry; 1 to 32 are allowed",
        ),
        (
            choice(0, 7),
            "the filter that is to be built has 0 bits per entry; 1 to 32 are allowed",
        ),
        (
            choice(10, 65),
            "the filter that is to be built has 65 probes; 0 to 64 are allowed",
        ),
    ] {
        let [mut station, _] = asked(35, 40);
        let before = station.session.clone();
        let refused = station
            .session
            .next_message_within_with(&station.host, SIZE, chosen);
        let Err(Error::Refused(refusal)) = refused else {
            panic!("{refused:?}");
        };
        assert_eq!((refusal.number, refusal.value), (14, 0));
        assert_eq!(refusal.sentence(), sentence);
        assert_eq!(station.session, before);
    }
}

/// A host that knows the sizes of its changes, and counts how often it is asked.
struct Counting {
    memory: Memory,
    sizes: Cell<usize>,
    changes: Cell<usize>,
    /// The change whose size it can't tell.
    unknown: Option<ChangeHash>,
}

impl Counting {
    fn over(memory: Memory) -> Counting {
        Counting {
            memory,
            sizes: Cell::new(0),
            changes: Cell::new(0),
            unknown: None,
        }
    }

    /// How often sizes and changes were asked for since the last time.
    fn asked(&self) -> (usize, usize) {
        (self.sizes.take(), self.changes.take())
    }
}

impl Host for Counting {
    type Error = MemoryError;

    fn table(&self) -> Cow<'_, [u8]> {
        self.memory.table()
    }

    fn waiting(&self) -> Cow<'_, [u8]> {
        self.memory.waiting()
    }

    fn change(&self, hash: &ChangeHash) -> Result<Cow<'_, [u8]>, MemoryError> {
        self.changes.set(self.changes.get() + 1);
        self.memory.change(hash)
    }

    fn change_size(&self, hash: &ChangeHash) -> Result<usize, MemoryError> {
        self.sizes.set(self.sizes.get() + 1);
        match self.unknown == Some(*hash) {
            true => Err(MemoryError::Unknown(*hash)),
            false => self.memory.change_size(hash),
        }
    }

    fn save(&self) -> Result<Vec<u8>, MemoryError> {
        self.memory.save()
    }

    fn load(&mut self, changes: &[u8]) -> Result<(), MemoryError> {
        self.memory.load(changes)
    }
}

/// Sizes are asked for of what is to be sent, where something is said; changes of what goes.
#[test]
fn what_a_host_is_asked_for() {
    let [mut station, _] = asked(35, 40);
    let mut host = Counting::over(station.host);
    host.unknown = Some(hash(38));
    let before = station.session.clone();
    let failed = station.session.next_message_within(&host, 2 * SIZE);
    assert_eq!(failed, Err(Error::Lend(MemoryError::Unknown(hash(38)))));
    assert_eq!(station.session, before);
    host.unknown = None;
    host.asked();

    let message = station.session.next_message_within(&host, 2 * SIZE);
    assert!(message.unwrap().is_some());
    assert_eq!(host.asked(), (5, 2));
    // In flight, with three left.
    let silent = station.session.next_message_within(&host, 2 * SIZE);
    assert_eq!((silent, host.asked()), (Ok(None), (0, 0)));
    // Without a budget no size is asked for.
    let message = before.clone().next_message(&host).unwrap();
    assert_eq!((message.is_some(), host.asked()), (true, (0, 5)));
    // Nothing has been heard yet.
    let message = Session::new().next_message_within(&host, 0).unwrap();
    assert_eq!((message.is_some(), host.asked()), (true, (0, 0)));
}

/// What a host is asked for by default is what it lends, and `Memory` tells the same.
#[test]
fn the_size_of_a_change_is_that_of_its_bytes() {
    struct Plain(Memory);
    impl Host for Plain {
        type Error = MemoryError;
        fn table(&self) -> Cow<'_, [u8]> {
            self.0.table()
        }
        fn waiting(&self) -> Cow<'_, [u8]> {
            self.0.waiting()
        }
        fn change(&self, hash: &ChangeHash) -> Result<Cow<'_, [u8]>, MemoryError> {
            self.0.change(hash)
        }
        fn save(&self) -> Result<Vec<u8>, MemoryError> {
            self.0.save()
        }
        fn load(&mut self, changes: &[u8]) -> Result<(), MemoryError> {
            self.0.load(changes)
        }
    }
    let mut memory = chain(3);
    memory
        .add(Change {
            dependencies: vec![hash(0), hash(2)],
            contents: vec![7; 1_000],
            ..change(3)
        })
        .unwrap();
    let plain = Plain(memory.clone());
    for n in 0..4 {
        let size = memory.change(&hash(n)).unwrap().len();
        assert_eq!(memory.change_size(&hash(n)), Ok(size));
        assert_eq!(plain.change_size(&hash(n)), Ok(size));
    }
    let unknown = Err(MemoryError::Unknown(hash(9)));
    assert_eq!(memory.change_size(&hash(9)), unknown);
    assert_eq!(plain.change_size(&hash(9)), unknown);
}

/// As many rows as there may be, all of them to be sent and each in a pick of its own: near
/// the limits nothing is refused.
#[test]
fn the_largest_pick() {
    let rows = (0..ROWS as u32).map(|n| (hash(n), vec![]));
    let rows: Vec<(ChangeHash, Vec<ChangeHash>)> = rows.collect();
    let all: Vec<ChangeHash> = rows.iter().map(|(hash, _)| *hash).collect();
    let table = Table::from_changes(rows).unwrap();
    let sizes = vec![3; ROWS];
    let budget = 3 * ROWS as u64;
    assert_eq!(table.pick(&all, &sizes, budget).unwrap(), all);
    table.check_pick(&all, &sizes, budget, &all).unwrap();
    let less = table.pick(&all, &sizes, budget - 1).unwrap();
    assert_eq!(less, all[..ROWS - 1]);
    let checked = table.check_pick(&all, &sizes, budget - 1, &all);
    assert_eq!(told(checked).0, ROWS as u64);
    let twice = [&all[..], &all[..]].concat();
    assert_eq!(table.pick(&twice, &sizes, budget).unwrap(), all);
}

/// A budget above what a message holds: the message goes as large as it may be.
#[test]
fn a_budget_above_a_message() {
    let mut station = unit(chain(10));
    for n in 10..13 {
        let contents = vec![7; MESSAGE_SIZE / 2];
        station
            .host
            .add(Change {
                contents,
                ..change(n)
            })
            .unwrap();
    }
    let question = Message {
        heads: vec![hash(9)],
        need: vec![hash(10), hash(11), hash(12)],
        ..Message::default()
    };
    let host = &mut station.host;
    station
        .session
        .receive_sync_message(host, question)
        .unwrap();
    for budget in [MESSAGE_SIZE as u64, 3 * MESSAGE_SIZE as u64, u64::MAX] {
        let mut session = station.session.clone();
        let bytes = session.next_message_within(&station.host, budget).unwrap();
        assert!(bytes.expect("a part").len() <= MESSAGE_SIZE);
        assert_eq!(session.sent_hashes(), [hash(10)]);
    }
}

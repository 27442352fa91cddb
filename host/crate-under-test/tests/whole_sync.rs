//! Two documents of 30 or 40 rows sync until both hold the same rows.

mod common;

use common::{change, Random};
use crate_under_test::facade::*;
use std::collections::BTreeSet;

/// Rows that both hold; each has rows of its own on top of them.
const COMMON: u32 = 25;
/// Own rows that are less than a third of the document and go by list.
const FEW: u32 = 5;
/// Own rows that are more than that and go as the whole document, where V2 is known.
const MANY: u32 = 15;
/// More messages than any of these runs takes; a run that reaches it hangs.
const TOO_LONG: usize = 60;

fn pair(random: &mut Random, own: u32) -> [Automerge; 2] {
    let mut shared: Vec<Change> = Vec::new();
    for n in 0..COMMON {
        shared.push(grown(random, n, &shared));
    }
    [0, 1].map(|unit| {
        let mut rows = shared.clone();
        for n in 0..own {
            let number = COMMON + 2 * n + unit;
            rows.push(grown(random, number, &rows));
        }
        Automerge::from_rows(rows, Vec::new()).unwrap()
    })
}

/// A change on up to three of the last rows.
fn grown(random: &mut Random, n: u32, rows: &[Change]) -> Change {
    let last = rows.iter().rev().take(6);
    let chosen: Vec<ChangeHash> = last
        .filter(|_| random.below(2) == 0)
        .map(Change::hash)
        .take(3)
        .collect();
    Change::new(change(n, &[]).hash(), chosen, &n.to_le_bytes())
}

fn held(unit: &Automerge) -> BTreeSet<ChangeHash> {
    unit.rows().iter().map(Change::hash).collect()
}

/// What the messages of a run carried.
#[derive(Default)]
struct Carried {
    messages: usize,
    v1_lists: usize,
    v2_lists: usize,
    documents: usize,
}

impl Carried {
    fn count(&mut self, message: &Message, from: &Automerge) {
        self.messages += 1;
        let Some(first) = message.changes.iter().next() else {
            return;
        };
        match message.version {
            MessageVersion::V1 => self.v1_lists += 1,
            MessageVersion::V2 if first == from.save() => self.documents += 1,
            MessageVersion::V2 => self.v2_lists += 1,
        }
    }
}

/// One message from `from` to `to`, over its bytes. Without a flags section the
/// listener never learns of V2, so its reply goes by a V1 list.
fn send(
    from: (&Automerge, &mut State),
    to: (&mut Automerge, &mut State),
    flags: bool,
    carried: &mut Carried,
) -> bool {
    let Some(mut message) = from.0.generate_sync_message(from.1) else {
        return false;
    };
    if !flags {
        message.flags = None;
    }
    carried.count(&message, from.0);
    let heard = Message::decode(&message.encode()).unwrap();
    to.0.receive_sync_message(to.1, heard).unwrap();
    true
}

/// Runs over several pairs; answers what all of them carried.
fn whole_sync(own: u32, flags: bool) -> Carried {
    let mut random = Random(40);
    let mut total = Carried::default();
    for _ in 0..20 {
        let [mut a, mut b] = pair(&mut random, own);
        let all: BTreeSet<ChangeHash> = held(&a).union(&held(&b)).copied().collect();
        let (mut of_a, mut of_b) = (State::new(), State::new());
        let limit = total.messages + TOO_LONG;
        loop {
            let there = send((&a, &mut of_a), (&mut b, &mut of_b), flags, &mut total);
            let back = send((&b, &mut of_b), (&mut a, &mut of_a), flags, &mut total);
            assert!(total.messages < limit, "still talking");
            if !there && !back {
                break;
            }
        }
        assert_eq!(all.len(), (COMMON + 2 * own) as usize);
        assert_eq!(held(&a), all);
        assert_eq!(held(&b), all);
        assert_eq!(a.get_heads(), b.get_heads());
        assert!(a.waiting().is_empty() && b.waiting().is_empty());
        assert_eq!(of_a.shared_heads, a.get_heads());
    }
    total
}

#[test]
fn many_rows_go_as_documents() {
    let carried = whole_sync(MANY, true);
    assert!(carried.documents > 0);
}

#[test]
fn few_rows_go_by_v2_lists() {
    let carried = whole_sync(FEW, true);
    assert!(carried.v2_lists > 0);
    assert_eq!(carried.documents, 0);
}

#[test]
fn without_flags_all_go_by_v1_lists() {
    let carried = whole_sync(MANY, false);
    assert!(carried.v1_lists > 0);
    assert_eq!(carried.documents + carried.v2_lists, 0);
}

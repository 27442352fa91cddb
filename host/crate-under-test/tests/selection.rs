//! Hashes to send: the crate's own selection, reached through a first message.

mod common;

use common::{document, hashes, Random};
use crate_under_test::facade::*;
use std::collections::BTreeSet;

fn have(last_sync: &[u32], held: &[u32]) -> Have {
    Have {
        last_sync: hashes(last_sync),
        bloom: BloomFilter::from_hashes(hashes(held).iter()),
    }
}

fn diamond() -> Automerge {
    document(&[(0, &[]), (1, &[0]), (2, &[0]), (3, &[1, 2])])
}

#[test]
fn p12_only_b_missed() {
    let missed_b = [have(&[], &[0, 2, 3])];
    assert!(!missed_b[0].bloom.contains_hash(&common::hash(1)));
    let send = |need: &[u32]| hashes_to_send(&diamond(), &missed_b, &hashes(need));
    assert_eq!(send(&[2]), hashes(&[2, 1, 3]));
    assert_eq!(send(&[3]), hashes(&[1, 3]));
    assert_eq!(send(&[2, 2]), hashes(&[2, 2, 1, 3]));
}

#[test]
fn without_a_have_the_held_needs_are_all() {
    let send = hashes_to_send(&diamond(), &[], &hashes(&[3, 77, 0, 3]));
    assert_eq!(send, hashes(&[3, 0, 3]));
}

#[test]
fn unknown_last_sync_is_ignored_and_old_needs_are_sent() {
    let unknown_first = [have(&[77], &[])];
    let all = hashes_to_send(&diamond(), &unknown_first, &[]);
    assert_eq!(all, hashes(&[0, 1, 2, 3]));
    let inside = hashes_to_send(&diamond(), &[have(&[3], &[])], &hashes(&[0]));
    assert_eq!(inside, hashes(&[0]));
}

/// The list by document 01's words, on row numbers: what a comparison will ask
/// of the port.
#[test]
fn random_selections_follow_document_01() {
    let mut random = Random(7);
    for _ in 0..300 {
        let count = 1 + random.below(12);
        let mut parents: Vec<Vec<u32>> = Vec::new();
        for n in 0..count {
            parents.push((0..n).filter(|_| random.below(3) == 0).collect());
        }
        let rows: Vec<(u32, &[u32])> = (0..count)
            .map(|n| (n, parents[n as usize].as_slice()))
            .collect();
        let station = document(&rows);
        let haves: Vec<Have> = (0..random.below(3))
            .map(|_| {
                let last_sync = [random.below(count + 2)];
                let held: Vec<u32> = (0..count).filter(|_| random.below(2) == 0).collect();
                have(&last_sync, &held)
            })
            .collect();
        let need: Vec<u32> = (0..random.below(4))
            .map(|_| random.below(count + 1))
            .collect();

        let found = hashes_to_send(&station, &haves, &hashes(&need));
        assert_eq!(found, by_document_01(&station, &haves, &hashes(&need)));
    }
}

fn by_document_01(station: &Automerge, haves: &[Have], need: &[ChangeHash]) -> Vec<ChangeHash> {
    let held = need.iter().copied().filter(|n| station.has_change(n));
    if haves.is_empty() {
        return held.collect();
    }
    let last_syncs: Vec<ChangeHash> = haves.iter().flat_map(|h| h.last_sync.clone()).collect();
    let candidates = station.rows_beyond(&last_syncs);
    let mut send = BTreeSet::new();
    for row in station.rows() {
        let missed = haves.iter().all(|h| !h.bloom.contains_hash(&row.hash()));
        let dependent = row.dependencies().iter().any(|d| send.contains(d));
        if candidates.contains(&row.hash()) && (missed || dependent) {
            send.insert(row.hash());
        }
    }
    let first = held.filter(|n| !send.contains(n));
    let then = candidates.iter().copied().filter(|c| send.contains(c));
    first.chain(then).collect()
}

//! The same bytes in two processes.

use crate::random_cases;
use bisquetower::limits::{HAVES, ROWS};
use compare::inputs::Random;
use std::process::Command;

/// FNV-1a over all lists.
fn digest(lists: &[Vec<u8>]) -> u64 {
    let bytes = lists.iter().flatten();
    bytes.fold(0xcbf2_9ce4_8422_2325, |digest, &byte| {
        (digest ^ u64::from(byte)).wrapping_mul(0x0100_0000_01b3)
    })
}

/// What asks the test below, run in a process of its own, for its digest alone.
const ALONE: &str = "SELECTION_DIGEST_ALONE";

/// Selections that are made in this process and again in another, each with an emulator of
/// its own where there is one, give the same bytes.
#[test]
fn the_same_in_two_processes() {
    let mut random = Random(22);
    let mut lists = random_cases(&mut random, 200, 0..40, 0..6).1;
    lists.extend(random_cases(&mut random, 4, 500..ROWS + 1, 8..HAVES + 1).1);
    assert!(lists.iter().flatten().count() > 10_000);
    let told = format!("digest {:016x}", digest(&lists));
    if std::env::var_os(ALONE).is_some() {
        println!("{told}");
        return;
    }
    let program = std::env::current_exe().expect("a program");
    let other = Command::new(program)
        .args([
            "--exact",
            "digest::the_same_in_two_processes",
            "--nocapture",
        ])
        .env(ALONE, "yes")
        .output()
        .expect("it runs");
    let said = String::from_utf8_lossy(&other.stdout);
    assert!(other.status.success(), "{said}");
    assert!(said.contains(&told), "{told}: {said}");
}
